#!/usr/bin/env python3
"""Brings the repository's own names of specs/ and proofs/ to the spelling of today's Rattle. Run once, at the top, behind port.py.

A definition, a field or a lemma is written in snake case. In a lemma's name a dash stays between two names of definitions, and a plain word is
joined by `_`. A name that would fall together with another gets `_lem`. Functions of src/, exported names, strings and files keep their names.
"""
import collections
import os
import re

TOKEN = re.compile(r"[^\s(){}\[\];,.\"«»:|\\]+")
DEFINED = re.compile(r"^(\s*)((?:(?:pub|abbrev|unfoldable)\s+)*)(?:(?:data|record|ruleset)\s+(?:pub\s+)?)?([^\s(){};,.\"«»:]+)\s*(?:\{[^}]*\}\s*|\([^)]*\)\s*)*:")
CAMEL = re.compile(r"(?<=[a-z0-9])(?=[A-Z])|(?<=[A-Z])(?=[A-Z][a-z])")
STRING = re.compile(r'"(?:[^"\\\n]|\\.)*"')
# words of the library, beside the repository's own definitions, that a dash joins in a lemma's name
WORDS = set("length take drop append reverse map replicate set get_or count all any min max".split())
# names that the library or the logic has for something else, and what stands for them
OWN = {"first_of": "first_number"}


def files(end):
    for folder, dirs, names in os.walk("crates"):
        dirs[:] = sorted(d for d in dirs if d != "out")
        for name in sorted(names):
            if name.endswith(end):
                yield os.path.join(folder, name)


def defined(text):
    for line in text.splitlines():
        if line.lstrip().startswith("--") or line.startswith(("use ", "pub use ")):
            continue
        m = DEFINED.match(line)
        if m and m.group(3) not in ("let", "in", "where", "infix"):
            yield m.group(3), bool(m.group(1)), m.group(2)


def snake(name):
    return "-".join(CAMEL.sub("_", p).lower() if p[:1].islower() and CAMEL.search(p) else p for p in name.split("-"))


def is_shared(path):
    """Whether a file holds definitions or lemmas that others name: what stands in a function's own folder is not."""
    parts = path.split(os.sep)
    return parts[2] == "specs" or len(parts) == 4


def main():
    shared, functions, tokens = collections.defaultdict(set), set(), collections.Counter()
    for path in files(".antt"):
        with open(path, encoding="utf-8") as f:
            text = f.read()
        bare = STRING.sub('""', re.sub(r"--.*", "", text))
        tokens.update(TOKEN.findall(bare))
        for name in TOKEN.findall(bare):
            if name[:1].islower() and CAMEL.search(name.split("-")[0]):
                shared[name].add("word")
        for name, field, mods in defined(text):
            if is_shared(path) or CAMEL.search(name):
                shared[name].add("field" if field else path.split(os.sep)[2])
    for path in files(".rt"):
        with open(path, encoding="utf-8") as f:
            text = f.read()
        functions.update(re.findall(r"\bfn ([a-z_0-9]+)", text))
        for name in re.findall(r"\bas ([a-z]+[A-Z]\w*)", text):
            shared[name].add("word")
    words = WORDS | {snake(n) for n, where in shared.items() if where & {"specs"} and "-" not in n}
    to = {}
    for name, where in sorted(shared.items()):
        new = snake(name)
        if "-" in new and where <= {"proofs", "specs"}:
            parts = new.split("-")
            joined = parts[0]
            for a, b in zip(parts, parts[1:]):
                joined += ("-" if a in words and b in words else "_") + b
            new = joined
        if new in OWN:
            new = OWN[new]
        if new != name:
            to[name] = new
    # a lemma that already has the name that a definition comes to
    for name, new in sorted(to.items()):
        if "-" not in name and new in shared and new not in to:
            print(f"stood already: {new}, beside {name}: {sorted(shared[new])}")
            if "proofs" in shared[new] and "specs" not in shared[new]:
                to[new] = new + "_lem"
    kept = {n for n in shared if n not in to} | (set(tokens) - set(to))
    taken = collections.Counter(to.values())
    for name, new in sorted(to.items()):
        if "-" in name and (taken[new] > 1 or new in kept or new in functions):
            to[name] = new + "_lem"
    again = collections.Counter(to.values())
    for name, new in sorted(to.items()):
        if again[new] > 1 or (new in kept and "-" in name):
            print(f"falls together: {name} -> {new}")

    def turned(text, source=False):
        quoted = [m.span() for m in STRING.finditer(text)]

        def one(m):
            word, at = m.group(0), m.start()
            if word not in to or source and "-" not in word and not CAMEL.search(word) or any(a <= at < b for a, b in quoted):
                return word
            if not CAMEL.search(word) and text[at - 1:at] == ".":
                if "-" not in word:
                    return word
                line = text[text.rfind("\n", 0, at) + 1:at]
                if not re.search(r"Rattle\.[\w.+'-]*$", line):
                    return word
            return to[word]
        return TOKEN.sub(one, text)

    for path in files(".antt"):
        with open(path, encoding="utf-8") as f:
            text = f.read()
        new = turned(text)
        if new != text:
            with open(path, "w", encoding="utf-8") as f:
                f.write(new)
    for path in files(".rt"):
        with open(path, encoding="utf-8") as f:
            text = f.read()
        new = "".join(line if line.lstrip().startswith("//") else turned(line, True) for line in text.splitlines(keepends=True))
        if new != text:
            with open(path, "w", encoding="utf-8") as f:
                f.write(new)
    for old, new in sorted(to.items()):
        print(old, new)
    print(f"{len(to)} names")


if __name__ == "__main__":
    main()
