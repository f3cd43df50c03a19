"""Holds the documents to the tree. Prints each fault, and exits 1 if there is one."""
import os
import re
import sys

SPECS = "crates/rules/specs"
faults = []


def text(path):
    with open(path, encoding="utf-8") as f:
        return f.read()


def fault(words):
    faults.append(words)


# each definition, as File.name
defined = set()
shut = set()
for name in sorted(os.listdir(SPECS)):
    module = name.removesuffix(".antt")
    if module == "Lib":
        continue
    body = text(f"{SPECS}/{name}")
    for mark, what in re.findall(r"^(unfoldable|abbrev) pub (\S+)(?: \{\S+\})? :", body, re.M):
        defined.add(f"{module}.{what}")
        if mark == "unfoldable" and what != "opened":
            shut.add(what)
    defined |= {f"{module}.{what}" for what in re.findall(r"^pub (?:record|data) (\S+)", body, re.M)}

# docs/RULES.md names each of them, and nothing else
named = set(re.findall(r"`([A-Z][A-Za-z]+\.[^`\s]+)`", text("docs/RULES.md")))
for n in sorted(defined - named):
    fault(f"docs/RULES.md does not name {n}")
for n in sorted(named - defined):
    fault(f"docs/RULES.md names {n}, which is not defined")

# `opened` unfolds every definition that is shut
opened = set(re.search(r"^unfolding (.*)$", text(f"{SPECS}/Opened.antt"), re.M).group(1).split())
for n in sorted(shut ^ opened):
    fault(f"specs/Opened.antt and the definitions differ in {n}")

# docs/PROMISES.md names each public function of a library
promises = text("docs/PROMISES.md")
for base, folders, names in os.walk("crates"):
    folders[:] = [folder for folder in folders if folder != "out"]  # what rt makes
    for name in names:
        if name.endswith(".rt") and "main.rt" not in names:
            for what in re.findall(r"^\s*pub (?:extern \"C\" )?fn (\w+)", text(f"{base}/{name}"), re.M):
                if f"`{what}`" not in promises:
                    fault(f"docs/PROMISES.md does not name {what} of {base}/{name}")

# each link of a document leads somewhere
for page in ["README.md"] + [f"docs/{n}" for n in sorted(os.listdir("docs")) if n.endswith(".md")]:
    for link in re.findall(r"\]\(([^)#\s]+)", text(page)):
        if "://" not in link and not os.path.exists(os.path.join(os.path.dirname(page), link)):
            fault(f"{page} links to {link}, which is not there")

for words in faults:
    print(words)
sys.exit(1 if faults else 0)
