"""Writes a C file that compiles only if include/garumbott.h says what the library is: each entry point's parameters and result, each result's
fields, their places and sizes, and the numbers of ends, kinds, classes, answers and refusals. The library's side is read from its sources, crates/garumbott
and crates/host_told, and from the definitions that its contracts cite, crates/rules/specs. With a list of symbols (the archive's, by nm) it also holds the exported names to the sources'.

    python3 tests/host/layout.py SYMBOLS > layout.c
"""
import os
import re
import sys

SRC = ["crates/garumbott/src", "crates/host_told/src"]
SPECS = "crates/rules/specs"
C_TYPE = {"u64": "uint64_t", "i64": "int64_t"}


def text(path):
    with open(path, encoding="utf-8") as f:
        return f.read()


def fail(words):
    print(f"layout: {words}", file=sys.stderr)
    sys.exit(1)


def snake(name):
    return re.sub(r"(?<!^)([A-Z])", r"_\1", name).lower()


source = "\n".join(text(f"{d}/{n}") for d in SRC for n in sorted(os.listdir(d)))
header = text("include/garumbott.h")
code = re.sub(r"/\*.*?\*/", "", header, flags=re.S)
lines = ["#include \"garumbott.h\"", ""]


def same(what, left, right):
    lines.append(f'_Static_assert({left} == {right}, "{what}");')


# results: every field is eight bytes, in the order of the source
structs = dict(re.findall(r"#\[repr\(C\)\]\n(?:#\[derive\([\w, ]*\)\]\n)?pub struct (\w+) \{(.*?)\n\}", source, re.S))
if not structs:
    fail(f"no result in {' or '.join(SRC)}")
for name, body in sorted(structs.items()):
    fields = re.findall(r"pub (\w+): (\w+),", body)
    c = f"struct {snake(name)}"
    declared = re.search(re.escape(c) + r" \{(.*?)\}", code, re.S)
    if not declared:
        fail(f"the header lacks {c}")
    if [f for f, _ in fields] != re.findall(r"\w+ (\w+);", declared.group(1)):
        fail(f"the fields of {c} differ from the source's")
    same(f"size of {c}", f"sizeof({c})", str(8 * len(fields)))
    for i, (field, kind) in enumerate(fields):
        if kind not in C_TYPE:
            fail(f"{name}.{field} is a {kind}")
        same(f"place of {field} in {c}", f"offsetof({c}, {field})", str(8 * i))
        same(f"size of {field} in {c}", f"sizeof((({c} *)0)->{field})", "8")
        lines.append(f'_Static_assert(_Generic((({c} *)0)->{field}, {C_TYPE[kind]}: 1, default: 0), "type of {field} in {c}");')

# entry points: declared again from the source; another declaration in the header doesn't compile
entries = re.findall(r"#\[unsafe\(no_mangle\)\]\npub extern \"C\" fn (\w+)\((.*?)\) -> (\w+)", source, re.S)
for name, parameters, result in entries:
    words = []
    for p, kind in re.findall(r"(\w+): (&mut \[u8\]|&\[u8\]|\w+)", parameters):
        if kind.startswith("&"):
            words += [f"{'' if 'mut' in kind else 'const '}uint8_t *{p}", f"uint64_t {p}_len"]
        elif kind in C_TYPE:
            words.append(f"{C_TYPE[kind]} {p}")
        else:
            fail(f"{name} takes a {kind}")
    returned = C_TYPE.get(result) or f"struct {snake(result)}"
    lines.append(f"{returned} {name}({', '.join(words)});")
    declared = re.search(rf"{re.escape(returned)} {name}\(([^)]*)\);", code)
    if not declared:
        fail(f"the header lacks {name}")
    if [w.split()[-1].lstrip("*") for w in words] != [w.split()[-1].lstrip("*") for w in declared.group(1).split(",")]:
        fail(f"the parameters of {name} have other names in the header")
names = {e[0] for e in entries}
declared = set(re.findall(r"^(?:struct \w+|\w+) (garumbott_\w+)\([^;{]*\);", code, re.M))
if names != declared:
    fail(f"the header and the source differ in {sorted(names ^ declared)}")
if len(sys.argv) > 1:
    exported = set(text(sys.argv[1]).split())
    if exported != names:
        fail(f"the archive and the source differ in {sorted(exported ^ names)}")

# numbers
constants = {n: int(v) for n, v in re.findall(r"#define GARUMBOTT_(\w+) (\d+)", header)}
values = text(f"{SPECS}/Values.antt")
wanted = {}
for sucs, kind in re.findall(r"^kind_at (.*) = kind\.(\w+)$", values, re.M):
    if kind != "Other":
        wanted[snake(kind).upper()] = sucs.count("suc")
for kind, n in re.findall(r"^class_number (\w+) = (\d+)$", values, re.M):
    wanted["CHANGE_" + snake(kind).upper()] = int(n)
wanted["CHANGE_NONE"] = 0
for kind, n in re.findall(r"^told_by (\w+) = alone (\d+)$", values, re.M):
    wanted[snake(kind).upper()] = int(n)
for kind, n in re.findall(r"^told_by \((\w+) [^)]*\) =\s*record \{\s*answer = (\d+);", values, re.M):
    wanted[snake(kind).upper()] = int(n)
wanted["REFUSED"] = 0 if re.search(r"^values_of \(refused n\) = record \{ refusal = n;.*told = alone 0; codons = 0 \}", values, re.M) else None
limits = re.search(r"^limits = record \{ longest = (\d+); most = (\d+) \}", text(f"{SPECS}/Refusal.antt"), re.M)
wanted["LONGEST"], wanted["MOST_BASES"] = int(limits.group(1)), int(limits.group(2))
wanted["MOST_EXCEPTIONS"], wanted["EXCEPTION_BYTES"] = 16, 3
reference = text(f"{SPECS}/Reference.antt")
for end, name in (("at_stop", "STOP"), ("no_stop", "NO_STOP"), ("cut_codon", "CUT_CODON")):
    wanted["END_" + name] = int(re.search(rf"^{end} = (\d+)$", reference, re.M).group(1))
wanted |= {"TABLE_STANDARD": 0, "TABLE_SELENOCYSTEINE": 1, "TABLE_VERTEBRATE_MITOCHONDRIAL": 2}  # test.c translates by these
wanted["TRANSCRIPT_ROOM"] = wanted["LONGEST"] + max(wanted["LONGEST"], wanted["MOST_BASES"])
wanted["REFERENCE_ROOM"] = (wanted["LONGEST"] + 2) // 3
wanted["ALTERED_ROOM"] = (wanted["TRANSCRIPT_ROOM"] + 2) // 3
packed = text(f"{SPECS}/Packed.antt")
for name, number in (("Bytes", r"zero"), ("Packed size", r"\(suc zero\)")):
    if not re.search(rf"^form_at {number} size = {name}$", packed, re.M):
        fail(f"form_at gives another form than {name}")
wanted |= {"FORM_BYTES": 0, "FORM_PACKED": 1}
editions = text(f"{SPECS}/Editions.antt")
wanted["DIFFERENCE_BYTES"] = re.search(r"^difference_bytes d = (.*\[\])$", editions, re.M).group(1).count("∷")
wanted["DIFFERENCES_ROOM"] = wanted["DIFFERENCE_BYTES"] * wanted["REFERENCE_ROOM"]
wanted["OF_SECOND"] = int(re.search(r"↯ \((\d+) \+ reference_refusal longest s\)", editions).group(1))
settings = text(f"{SPECS}/Settings.antt")
versions = re.search(r"^is_version v = leb (\d+) v && leb v (\d+)$", settings, re.M)
wanted["SETTINGS_FIRST"], wanted["SETTINGS_SECOND"] = int(versions.group(1)), int(versions.group(2))
stored, added = re.search(r"^layout v = (.*) ∷ \(if has_longest v then (.*) ∷ \[\] else \[\]\)$", settings, re.M).groups()
sizes = [sum(3 + int(n) for n in re.findall(r"\(\d+, (\d+)\)", fields)) for fields in (stored, added)]
wanted["SETTINGS_FIRST_ROOM"], wanted["SETTINGS_ROOM"] = sizes[0], sum(sizes)
for name, n in sorted(wanted.items()):
    same(name, f"GARUMBOTT_{name}", str(n))
refusals = set()
for name in sorted(os.listdir(SPECS)):
    body = re.sub(r"--.*", "", text(f"{SPECS}/{name}"))
    refusals |= {int(n) for n in re.findall(r"↯ (\d+)", body)} | {int(n) for n in re.findall(r"\b[rR]efused(?:_line)? (\d+)", body)}
    refusals |= {int(n) for a, b in re.findall(r"refused \(if .* then (\d+) else (\d+)\)", body) for n in (a, b)}
given = {v for n, v in constants.items() if n.startswith("REFUSAL_")}
if given != refusals:
    fail(f"the refusals of the header and of the definitions differ in {sorted(given ^ refusals)}")
rest = {n for n in constants if n not in wanted and not n.startswith("REFUSAL_")} - {"STACK", "RUN_STACK"}
if rest:
    fail(f"nothing is known of {sorted(rest)}")

print("\n".join(lines))
