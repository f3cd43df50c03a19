"""What the program `vectors_calls` prints, by the second account of document 01 (tests/account).

It reads the lines of crates/vectors_calls/stdin, whose headings say what the fields are, and writes each with its answer.
"""
import sys

sys.path.insert(0, "tests/account")
import account

KINDS = {"sub": "substitution", "del": "deletion", "delins": "delins", "ins": "insertion", "dup": "duplication", "inv": "inversion",
         "same": "identity"}


def by_rule(n, a, b, words):
    x, out = 1, []
    for _ in range(n):
        out.append(a if x < 32768 else b)
        x = (x * 25173 + 13849) % 65536
    for place, word in words:
        for at, letter in enumerate(word, place):
            if 0 <= place and at < n and letter != "-":
                out[at] = letter
    return "".join(out)


def position(field):
    sign = field[0] if field[0] in "-*" else ""
    return sign, int(field[len(sign):])


def value(text):
    x = 0
    for b in text.encode():
        x = (x * 31 + b) % 1000003
    return x


def told(record, protein):
    if record.word in ("unknown", "no-protein"):
        return record.word
    if record.word == "silent":
        return f"silent {record.number} {protein[record.number - 1]}"
    parts = f"deleted {record.deleted[0]} {record.deleted[1]} inserted {record.inserted[0]} {record.inserted[1]}"
    return f"{record.word} {record.number} {parts} first {record.first}"


def answered(ref, edit, room):
    """The answer, the flag and the three written strings."""
    try:
        record, altered = account.answer(ref.check(), edit)
        if altered:
            account.check_room(ref, altered, *room)
    except account.Refused as refusal:
        return f"refused {refusal.number}", False, ("", "", "")
    texts = (altered.transcript, ref.protein, altered.protein) if altered else ("", "", "")
    return told(record, ref.protein), bool(altered) and altered.flag, texts


def edit_answer(line):
    """The answer to an edit line. Fields that aren't there are 0, `-` and `---`."""
    f = line.split(" ")
    f += ["0", "-", "0", "---", "0", "---", "0"][len(f) - 11:] if len(f) < 18 else []
    length, cs, ce, table = map(int, f[:4])
    letters = by_rule(length, "A", "C", [(cs - 1, "ATG"), (ce - 3, "TAA"), (int(f[15]), f[14])])
    new = by_rule(int(f[7]), "C", "G", [(int(f[17]), f[16])])
    edit = account.Edit(KINDS.get(f[4]), position(f[5]), position(f[6]), new)
    room = tuple(map(int, f[8:11]))
    count, last = int(f[11]), int(f[13])
    exceptions = [(last if k == count else k, f[12]) for k in range(1, min(count, 17) + 1)]
    if f[12] == "-":
        exceptions = pairs(f[18:], count)
    found, flag, texts = answered(account.Reference(letters, cs, ce, table, exceptions), edit, room)
    written = "".join(f", {len(t)} {value(t)} kept" for t in texts)
    return f"{found}{' shifted' if flag else ''}{written}"


def pairs(fields, count):
    """A codon and a residue each."""
    return [(int(fields[2 * k]), fields[2 * k + 1]) for k in range(count)]


def lent(room, text_of):
    """The answer of a function that fills one buffer, and what the buffer of dots holds then."""
    try:
        text = text_of(room)
    except account.Refused as refusal:
        return f"refused {refusal.number} {'.' * room}"
    return f"{len(text)} {text.ljust(room, '.')}"


def translation(line):
    table, full, room, count = map(int, line.split(" ")[1:5])
    rest = line.split(" ", 5 + 2 * count)[5:] + [""]
    text = rest[2 * count] if len(rest) > 2 * count else ""
    return lent(room, lambda n: account.plain_translation(table, pairs(rest, count), full == 1, text, n))


def one_buffer(function):
    """Room, and a byte string with all that follows."""
    def answer(line):
        f = line.split(" ", 2) + [""]
        return lent(int(f[1]), lambda n: function(f[2], n))
    return answer


def shared(line):
    a, b = (line.split(" ", 2) + [""])[1:3]
    return f"{account.shared_first(a, b)} {account.shared_last(a, b)}"


class Given:
    """What a record is made of."""

    def __init__(self, protein, flag=False):
        self.protein, self.flag = protein, flag


def record(line):
    flag, number, reference, altered = (line.split(" ", 4) + [""])[1:5]
    same = account.Edit("identity", ("", 3 * int(number)), ("", 3 * int(number)))
    return told(account.record_of(Given(reference), same, Given(altered, flag == "1")), reference)


FUNCTIONS = {"t": translation, "n": one_buffer(account.names_of), "l": one_buffer(account.residues_of), "c": one_buffer(account.complement_alone),
             "s": shared, "r": record}

for given in sys.stdin.read().split("\n")[:-1]:
    print(given if given.startswith("#") else f"{given}: {FUNCTIONS.get(given[0], edit_answer)(given)}")
