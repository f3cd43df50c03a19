"""Small references with every end, through C (calls.c) against the account of the documents (tests/account): every number of each answer, that of the codons
looked up among them, and every byte of the three buffers, for garumbott_record, garumbott_edit and the stored form; and each record handed to garumbott_check. Prints how much was compared; exits 1 at a difference, and tells the first.

    python3 tests/ends/ends.py FOLDER COMMAND..    COMMAND is the compiled calls.c; what it is told is kept in FOLDER
"""
import itertools
import subprocess
import sys

sys.path.insert(0, "tests/account")
import account

CLASSES = "start-lost extension stop-gained frameshift substitution deletion duplication insertion delins".split()
SIZES = (28, 5, 11)  # of the buffers in calls.c
NUMBERS = 14  # of an answer
FILL = [bytes(range(97, 97 + size)) for size in SIZES]
ENDS = range(4)


# The references, each with its edits

def words(letters, size):
    return map("".join, itertools.product(letters, repeat=size))


def judged():
    """References of every kind, for 1 to 6 and 28: each with an edit of its first base, and every second with one of its last."""
    for letters in words("AGTR", 6):  # every stop of every table, and letters that leave it open
        for table in range(3):
            yield letters, 1, 6, table, (), ENDS
    for letters in words("ATR", 7):
        for cs, ce in ((1, 7), (2, 7), (1, 6)):
            yield letters, cs, ce, 0, (), ENDS
    for letters in words("AT", 8):
        for cs, ce in ((1, 8), (1, 7), (1, 6), (2, 8), (2, 7), (3, 8)):
            yield letters, cs, ce, 0, (), ENDS
    excepted = [()] + [((n, x),) for n in range(5) for x in "*Ka"] + [((1, x), (2, y)) for x in "*K" for y in "*K"] + [((2, "K"), (1, "K")), ((2, "K"), (3, "K"))]
    for letters in ("ATGGCC", "ATGTAA", "TAATAA", "ATGGCCA", "ATGTAAT", "TAAGCCTA", "ATGTARTA", "ATGTRAN"):
        for exceptions in excepted:
            for table in range(2):
                yield letters, 1, len(letters), table, exceptions, ENDS
            yield letters, 1, 6, 0, exceptions, ENDS
    for letters in ("ATGGCCAA", "GTAATGTA", "ATGTAATA", "TNATAGCU"):  # all bounds
        for size in range(9):
            for cs in range(size + 3):
                for ce in range(size + 3):
                    yield letters[:size], cs, ce, 0, (), ENDS
    for table in (3, 4, 255):
        for letters in ("ATGGCC", "ATGTAA", "ATGGCCA"):
            yield letters, 1, len(letters), table, (), list(ENDS) + [8, 127, 128, 254, 255]
    for letters in ("ATGGCC", "ATGTAA", "ATGGCCA", "ATGGCCAA", "TAATAA"):
        yield letters, 1, len(letters), 0, (), range(256)


def edited():
    """References that aren't refused, for all edits."""
    for i, letters in enumerate(words("AT", 6)):
        yield letters, 1, 6, i % 3, (), (1,)
    for i, letters in enumerate(words("AT", 7)):
        yield letters, 1, 7, i % 3, (), (2,)
    for i, letters in enumerate(words("ATR", 4)):
        yield "ATG" + letters, 1, 7, i % 3, (), (2,)
        if i % 3 == 0:
            yield "CATG" + letters, 2, 8, i % 2, (), (2,)
            yield "AT" + letters[1:] + "AA", 2, 7, 0, (), (1, 0)
    for i, letters in enumerate(words("AGT", 3)):
        yield "GC" + letters + "ATG", 3, 8, i % 3, (), (1,)
        yield "ATG" + letters + "TA", 1, 8, i % 3, (), (2,)
        yield "T" + letters + "TAAG", 2, 7, i % 3, (), (0,)
    for exceptions in (((1, "U"),), ((2, "K"),), ((1, "X"), (2, "K"))):  # a stop that is none by its exception, and one that is
        for letters in ("ATGTAA", "ATGTAAT", "TAATAATA", "AAATAA", "ATAATAA"):
            yield letters, 1, len(letters), 0, exceptions, (1, 2)
            yield letters, len(letters) - 5, len(letters), 0, exceptions, (1,)
    yield "ATGAAAC", 1, 6, 0, ((2, "*"),), (0,)
    for i, letters in enumerate(words("AGT", 3)):  # three codons, with bases before and behind them, a stop among these in one frame or another
        behind = ("C", "CATAG", "CTGA", "TAAC")[i % 4]
        yield "GATG" + letters + "TAA" + behind, 2, 10, 0, (), (0,)
        if i % 5 == 0:
            yield "GATG" + letters + "TAA" + behind, 2, 10, 0, ((2, "K"),), (0,)
            yield ("ATG" + letters + "AACTG")[:9 + i % 3], 1, 9 + i % 3, 0, (), (2 if i % 3 else 1,)


def references():
    turn = 0
    for letters, cs, ce, table, exceptions, ends in judged():
        for end in ends:
            turn = (turn + 1) % 7
            yield letters, cs, ce, table, exceptions, end, some_edits(ce - cs + 1, 1 + turn % 2)
    for letters, cs, ce, table, exceptions, ends in edited():
        for end in ends:
            yield letters, cs, ce, table, exceptions, end, all_edits(cs, ce)


# Edits, each with its bytes for calls.c

def packed(edit):
    places = b"".join(bytes([sign == "*", (-n if sign == "-" else n) % 256]) for sign, n in (edit.start, edit.end))
    kind = account.KINDS.index(edit.kind) + 1 if edit.kind in account.KINDS else 8
    return bytes([kind]) + places + bytes([len(edit.bases)]) + edit.bases.encode()


kept = {}


def some_edits(size, count):
    if (count, size) not in kept:
        first, last = ("", 1), ("", max(1, size))
        edits = (account.Edit("identity", first, first), account.Edit("substitution", last, last, "T"))[:count]
        kept[count, size] = [(e, packed(e)) for e in edits]
    return kept[count, size]


def all_edits(cs, ce):
    if ("all", cs, ce) not in kept:
        inside = [("-", n) for n in range(cs - 1, 0, -1)] + [("", n) for n in range(1, ce - cs + 2)] + [("*", 1), ("*", 2)]
        outside = [("", 0), ("", ce - cs + 2), ("-", cs), ("*", 0)]
        pairs = list(itertools.combinations_with_replacement(inside, 2)) + [(inside[2], inside[1])]
        pairs += [(o, inside[2]) for o in outside] + [(inside[2], o) for o in outside]
        edits = [account.Edit("substitution", p, q, b) for p, q in [(p, p) for p in inside] + pairs[-9:] for b in "TR"]
        edits += [account.Edit(kind, p, q) for kind in ("deletion", "duplication", "inversion", "identity") for p, q in pairs]
        edits += [account.Edit("delins", p, q, b) for p, q in pairs for b in ("A", "AT", "TAA")]
        edits += [account.Edit("insertion", p, q, b) for p, q in list(zip(inside, inside[1:])) + pairs[-9:] + pairs[:2] for b in ("T", "TA", "TAA", "GTAACC")]
        edits += [account.Edit(kind, p, p, b) for kind, b in (("other", ""), ("deletion", "A"), ("delins", ""), ("insertion", "U")) for p in inside[-4:]]
        kept["all", cs, ce] = [(e, packed(e)) for e in edits]
    return kept["all", cs, ce]


# What must be answered

def field(tag, content):
    return bytes([tag, 0, len(content)]) + content


def two(n):
    return bytes([n // 256, n % 256])


def buffers(texts):
    return b"".join(text.encode() + fill[len(text):] for text, fill in zip(texts, FILL))


def alone(answer, refusal=0):
    return bytes([answer, refusal] + [0] * (NUMBERS - 2))


def told(record, flag, sizes, codons):
    """The numbers of garumbott_record."""
    head = [flag, *sizes]
    if record.word == "no-protein":
        return bytes([2, 0] + head + [0] * 7 + [codons])
    kind = CLASSES.index(record.word) + 1 if record.word != "silent" else 0
    return bytes([4 if kind else 3, 0] + head + [kind, record.number, *record.deleted, *record.inserted, record.first, codons])


NOTHING = buffers(("", "", ""))
NONE, PLENTY = (0, 0, 0), tuple(size - 1 for size in SIZES)
counts = {}  # how often each number of codons looked up came up in an answer without exceptions
seen = set()  # whether the reference is cut short, and the refusal, the word of the record, or "begun" where R is the beginning of A


def answered(ref, edit, turn):
    """The rooms that are lent, what garumbott_record and garumbott_edit answer and write, and the codons looked up with room enough: exact room twice as often
    as plenty, and a byte too little in each buffer."""
    try:
        record, altered = account.answer(ref, edit)
    except account.Refused as refusal:
        seen.add((ref.end != 0, refusal.number))
        no = alone(0, refusal.number) + NOTHING
        return NONE if turn % 2 else PLENTY, no, no, 0
    seen.add((ref.end != 0, record.word))
    if not altered:
        return NONE if turn % 2 else PLENTY, alone(1) + NOTHING, alone(1) + NOTHING, 0
    codons = altered.looked_up(ref)
    if not ref.exceptions:
        counts[codons] = counts.get(codons, 0) + 1
    if record.number > len(ref.protein):
        seen.add((ref.end != 0, "begun"))
    texts = altered.transcript, ref.protein, altered.protein
    sizes = [len(text) for text in texts]
    room = [sizes[0], sizes[1], -(-(sizes[0] - ref.cs + 1) // 3)]
    if turn % 6 > 2 and room[turn % 6 - 3]:
        room[turn % 6 - 3] -= 1
    elif turn % 6 == 0:
        room = PLENTY
    edits = bytes([4, 0, altered.flag, sizes[0]] + [0] * (NUMBERS - 4)) + buffers((texts[0], "", ""))
    try:
        account.check_room(ref, altered, *room)
    except account.Refused as refusal:
        seen.add((ref.end != 0, refusal.number))
        no = alone(0, refusal.number) + NOTHING
        return room, no, no if refusal.number == 11 else edits, codons
    return room, told(record, altered.flag, sizes, codons) + buffers(texts), edits, codons


def stored(data, exceptions):
    """The numbers of garumbott_read_stored."""
    try:
        ref = account.stored(data)
    except account.Refused as refusal:
        return bytes([refusal.number] + [0] * 9)
    size = len(ref.letters)
    return bytes([0, ref.cs, ref.ce, ref.table, 3, size, 17 + size if exceptions else 0, len(exceptions), ref.end, 0])


def block(done, letters, cs, ce, table, exceptions, end, edits):
    """The bytes for calls.c, and the bytes that it must write. So many edits were done before."""
    listed = b"".join(two(n) + x.encode() for n, x in exceptions)
    form = field(1, letters.encode()) + field(2, two(cs) + two(ce)) + field(3, bytes([table]))
    form += (field(4, listed) if listed else b"") + (field(8, bytes([end])) if end else b"")
    call = [bytes([len(letters)]), letters.encode(), bytes([cs, ce, table, len(listed)]), listed, bytes([end, len(form)]), form, two(len(edits))]
    want = [stored(form, listed)]
    read = want[0][0] == 0
    try:
        ref = account.Reference(letters, cs, ce, table, exceptions, end).check()
    except account.Refused as refusal:
        ref, no = None, alone(0, refusal.number) + NOTHING
        seen.add((end != 0, refusal.number))
    for turn, (edit, given) in enumerate(edits, done):
        room, records, alones, codons = answered(ref, edit, turn) if ref else (NONE if turn % 2 else PLENTY, no, no, 0)
        call += [given, bytes(room)]
        want += [records, alones] + [records] * read + [bytes([1, codons])]
    return b"".join(call), b"".join(want)


# The comparison

def differs(number, want, got):
    """The first difference, in words."""
    reference = next(itertools.islice(references(), number, None))
    edits, size, calls = reference[-1], NUMBERS + sum(SIZES), 3 if want[0] == 0 else 2
    said = f"letters {reference[0]} cs {reference[1]} ce {reference[2]} table {reference[3]} exceptions {reference[4]} end {reference[5]}"
    if want[:10] != got[:10]:
        return f"{said}: garumbott_read_stored {list(got[:10])}, not {list(want[:10])}"
    at = next(i for i, pair in enumerate(itertools.zip_longest(want, got)) if pair[0] != pair[1])
    number, rest = divmod(at - 10, calls * size + 2)
    edit, call, first = edits[number][0], rest // size, at - rest % size
    said = f"{said}, {edit.kind} {''.join(map(str, edit.start))}_{''.join(map(str, edit.end))} {edit.bases}"
    if rest == calls * size:
        return f"{said}: garumbott_check doesn't fit what garumbott_record answers"
    if rest > calls * size:
        return f"{said}: garumbott_record looks up {got[at]} codons, not {want[at]}"
    name = ("garumbott_record", "garumbott_edit", "garumbott_record of the stored form")[call]
    shown = [f"{list(part[:NUMBERS])} {part[NUMBERS:].decode('latin-1')}" for part in (got[first:first + size], want[first:first + size])]
    return f"{said}: {name} {shown[0]}, not {shown[1]}"


def main(folder, command):
    wants, calls, done, ends = [], 0, 0, {}
    with open(f"{folder}/input", "wb") as out:
        for reference in references():
            call, want = block(done, *reference)
            out.write(call)
            wants.append(want)
            done += len(reference[-1])
            calls += 1 + len(reference[-1]) * (5 if want[0] == 0 else 4)
            if want[0] == 0:
                ends[reference[5]] = ends.get(reference[5], 0) + 1
    with open(f"{folder}/input", "rb") as given:
        program = subprocess.Popen(command, stdin=given, stdout=subprocess.PIPE)
        for number, want in enumerate(wants):
            got = program.stdout.read(len(want))
            if got != want:
                program.kill()
                print(differs(number, want, got))
                return 1
        rest = program.stdout.read()
    if program.wait() != 0 or rest:
        print("the program failed, or wrote more than it was asked")
        return 1
    both = ["unknown", "no-protein", "silent", "start-lost", "insertion", *range(1, 6), *range(7, 13)]
    wanted = {(False, what) for what in both + ["extension", 6]} | {(True, what) for what in both + CLASSES + ["begun", 28]} - {(True, "extension")}
    missing = wanted - seen
    if missing or sorted(ends) != [0, 1, 2] or calls < 500000 or any(counts.get(n, 0) < 100 for n in range(6)):
        print(f"not compared: {sorted(map(str, missing))}; {calls} calls, references by end {ends}, codons looked up {counts}")
        return 1
    print(f"{len(wants)} references ({', '.join(f'{n} with end {end}' for end, n in sorted(ends.items()))} not refused), {calls} calls, "
          f"{sum(counts.values())} answers in which codons can be reused: as the account has them")
    return 0


if __name__ == "__main__":
    sys.exit(main(sys.argv[1], sys.argv[2:]))
