"""Holds the words of include/garumbott.h, as tests/host/words.c prints them, to what they stand for. Prints each fault, and exits 1 if there is one.

    words | python3 tests/host/words.py

Refusals: document 01's table and what document 02 adds to it, by their rows in docs/RULES.md. Exactly these numbers have words, no two the same, and the words
of a number have every word and every number of its rows. Where a row points to another sentence, or another sentence amends it (POINTS), they have those of that
sentence, which docs/RULES.md must quote.
A refusal of the second of two references (E11) has the words of the first's, 100 less, behind "of the second reference: ", and exactly those of a reference are there.
Where a row says behind which others its refusal comes ("after 22"), that isn't of the refusal's words but of the order: the header's list of refusals that has the number
has the others above it.
Names of classes and answers: what the definitions print, crates/rules/specs.
"""
import re
import sys

# (refusal, the row's words, the sentence that they point to)
POINTS = [
    (2, "in plain translation and complement, as above", "Plain translation takes either case, and U as T"),
    (3, "above", "1 <= cs <= ce <= L; ce-cs+1 is divisible by 3 and at least 6"),
    (5, "above", "At most 16 exceptions"),
    (5, "", "each a codon number from 1 to the number of CDS codons, strictly rising, and a residue A to Z or `*`"),
    (5, "", "Plain translation takes at most 16, codon numbers from 1 in any order"),
    (7, "outside as said", "past the CDS, or before base 1 of the transcript"),
    (14, "as above", "With full codons demanded, such a length is refused (14)"),
    (14, "", "one or two bytes remain"),
    (15, "as above", "an unknown name or a length not divisible by three"),
    # document 02, E8
    (3, "", "a cut codon needs a length not divisible by 3"),
    (5, "", "Exceptions number whole codons only"),
    (6, "", "only for ends at a stop"),
    (12, "", "CDS/3 rounded up"),
    (23, "", "a tag 8 content other than 1 or 2"),
    # document 02, E6
    (1, "", "takes L up to 131,072; the text program keeps 16,384"),
    (22, "", "wants one of tags 2 and 7"),
    (23, "", "an empty tag 5 or 6"),
    (28, "doesn't fit the letters", "The last two need ce = L and no `*` in R"),
]
# what the header says otherwise
OWN = {"L is": "length is", "ce <= L": "ce <= length", "has place L or more": "is behind the transcript", "is refused (14)": "",
       "needs a length not": "not", "the CDS still has at least 6 bases": "at least 6", "an unknown end keeps the old rule": "", "codons only": "codons",
       "only for ends": "ends", "other than": "not", "in 6's place for the new ends": "", "The last two need ce = L": "cut short: ce not the last base",
       "no `*` in R": "a codon reads *"}
SMALL = set("a an the is are of or and in it its has whose also if with such each takes".split())

ORDER = re.compile(r"[;,] after (\d+)(?: to (\d+))?$")

faults = []


def text(path):
    with open(path, encoding="utf-8") as f:
        return f.read()


def wordlist(s):
    """Words and numbers, small words left out; "16,384" is one, and so is a name's stem."""
    return {w.removesuffix("'s") for w in re.findall(r"\d[\d,]*\d|[a-z][a-z']*|\d|\*|<=", s.lower())} - SMALL


def has(said, word):
    """A word begins so: "residue" is in "residues". Numbers and single letters stand alone."""
    return re.search(rf"(?<![\w,]){re.escape(word)}" + (r"(?!\w|,\d)" if len(word) == 1 or word[0].isdigit() else ""), said.lower())


def listed_with(header, number):
    """The header's list of refusals that has the number on a line, as its numbers from above; empty where there is none."""
    for comment in re.findall(r"/\*.*?\*/", header, re.S):
        numbers = []
        for first, last, several in re.findall(r"^ \*   (?:(\d+) to (\d+)|(\d+(?:, \d+)*))  +\S", comment.partition("Refusals, the first that applies:")[2], re.M):
            numbers += range(int(first), int(last) + 1) if first else map(int, several.split(", "))
        if number in numbers:
            return numbers
    return []


said = {}
for line in sys.stdin.read().splitlines():
    function, number, words = line.split(" ", 2)
    said.setdefault(function.removeprefix("garumbott_"), {})[number] = words

rules = text("docs/RULES.md")
rows = {}
for n, row in re.findall(r'^\| (\d+): "(.*?)" \|', rules, re.M):
    rows[int(n)] = f"{rows[int(n)]}; {row}" if int(n) in rows else row
refusals = said["refusal_words"]
other, none = refusals.pop("?"), refusals.pop("0", None)
of_second = {n: refusals.pop(str(100 + n), None) for n in (1, 2, 3, 4, 5, 6, 28)}
for n, words in of_second.items():
    if words != f"of the second reference: {refusals.get(str(n))}":
        faults.append(f"the words of refusal {100 + n} aren't those of {n} of the second reference")
if len(rows) < 20 or {str(n) for n in rows} != set(refusals):
    faults.append(f"the refusals with words and those of docs/RULES.md differ in {sorted(set(refusals) ^ {str(n) for n in rows})}")
if none is None or len({other, none, *refusals.values()}) != 2 + len(refusals):
    faults.append("two refusals, or none and one, have the same words")
for number, phrase, quote in POINTS:
    if phrase not in rows.get(number, ""):
        faults.append(f'the row of {number} has no "{phrase}"')
    if quote not in rules:
        faults.append(f'docs/RULES.md has no "{quote}"')
header = text("include/garumbott.h")
for number, row in rows.items():
    if after := ORDER.search(row):
        row = row[:after.start()]
        numbers = listed_with(header, number)
        if not set(range(int(after[1]), int(after[2] or after[1]) + 1)) <= set(numbers[:numbers.index(number)] if numbers else ()):
            faults.append(f'the header lists {number} otherwise than "{after[0]}"')
    for at, phrase, quote in POINTS:
        if at == number:
            row = (row.replace(phrase, "") if phrase else row) + " " + quote
    for theirs, ours in OWN.items():
        row = row.replace(theirs, ours)
    for word in sorted(wordlist(row)):
        if not has(refusals.get(str(number), ""), word):
            faults.append(f'the words of refusal {number} have no "{word}"')

values, run = text("crates/rules/specs/Values.antt"), text("crates/rules/specs/Run.antt")
printed = dict(re.findall(r'^class_name (\w+) = bytes "(.*)"$', run, re.M))
classes = {n: printed.get(c) for c, n in re.findall(r"^class_number (\w+) = (\d+)$", values, re.M)}
if len(classes) != 9 or said["class_name"] != {"?": "?", **classes}:
    faults.append(f"the names of classes are {said['class_name']}, and the text program's {classes}")
printed = dict(re.findall(r'^record_line \(?(\w+)[^=]*= bytes "([^" ]*) ?"', run, re.M))
answers = {n: printed.get(r) for r, n in re.findall(r"^told_by (\w+) = alone (\d+)$", values, re.M)}
answers |= {n: printed.get(r, "changed") for r, n in re.findall(r"^told_by \((\w+) [^)]*\) =\s*record \{\s*answer = (\d+);", values, re.M)}
answers["0"] = re.search(r'^refused_line n = bytes "(\w+) "', run, re.M).group(1)
if len(answers) != 5 or said["answer_name"] != {"?": "?", **answers}:
    faults.append(f"the names of answers are {said['answer_name']}, and the text program's {answers}")

for words in faults:
    print(f"words: {words}")
sys.exit(1 if faults else 0)
