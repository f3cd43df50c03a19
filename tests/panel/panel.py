"""The panel profile through C (calls.c) against the account of the documents (tests/account): every number of each answer and every byte of the three buffers. Prints how
much was compared; exits 1 at a difference, and tells the first.

    python3 tests/panel/panel.py FOLDER COMMAND..    COMMAND is the compiled calls.c; what it is told is kept in FOLDER
"""
import itertools
import subprocess
import sys

sys.path[:0] = ["tests/account", "tests/ends"]
import account
import ends

SIZE = ends.NUMBERS + sum(ends.SIZES) + 1  # bytes that calls.c writes for an edit
NEW = {"substitution": ["A", "C", "G", "T", "R", "Z", "", "AC"], "insertion": ["T", "TA", "TAA", "GCC", "CATAAG", "NCC", "TAAT", "U"], "delins": ["A", "TAA", "NNN"],
       "deletion": ["", "A"], "duplication": [""], "inversion": [""], "identity": [""], "other": [""]}
seen = {}


def references():
    for letters in ends.words("AT", 3):  # every middle codon of two bases, with a base before and behind it, and none
        yield "ATG" + letters + "TAA", 1, 9, 0, 0
        yield "CATG" + letters + "TAAG", 2, 10, 0, 0
    for codon in ("GCC", "TGA", "CAG", "AGA"):
        for table in range(3):
            yield "ATG" + codon + "TAA", 1, 9, table, 0
        yield "C" + codon + "ATGTAG" + "CC", 2, 10, 1, 0
    for at in range(11):  # a letter that isn't one base, in each place
        letters = "CATGGCCTAAG"
        yield letters[:at] + "N" + letters[at + 1:], 2, 10, 0, 0
        yield letters[:at] + "R" + letters[at + 1:], 2, 10, 2, 0
    yield "ATGGCC", 1, 6, 0, 1  # cut short
    yield "GATGGCC", 2, 7, 0, 1
    yield "ATGGCCA", 1, 7, 0, 2
    yield "ATGGCCAT", 1, 8, 1, 2
    yield "ATGTAATAA", 1, 9, 0, 0  # two stops
    for refused in (("", 1, 6, 0, 0), ("ATGTAU", 1, 6, 0, 0), ("ATGTAA", 0, 6, 0, 0), ("ATGTAA", 1, 6, 3, 0), ("ATGGCC", 1, 6, 0, 0), ("ATGTAA", 1, 6, 0, 1)):
        yield refused


def edits(letters, cs, ce):
    """Every kind, at every pair of positions from one beyond an edge to one beyond the other."""
    places = [("-", n) for n in range(cs, 0, -1)] + [("", n) for n in range(0, ce - cs + 3)] + [("*", n) for n in range(0, len(letters) - ce + 3)]
    for kind, news in NEW.items():
        for start, end in itertools.product(places, repeat=2):
            near = places.index(end) - places.index(start)
            if kind == "substitution" and abs(near) > 1 or kind == "insertion" and not -1 <= near <= 3 or near < -2:  # *1 is the third behind the last base
                continue
            for new in news:
                yield account.Edit(kind, start, end, new)


def named_bases(letters, cs, edit, turn):
    """The bases that an edit is said to name: for a substitution the right one, the wrong ones, and what is none."""
    at = cs + edit.start[1] - 2
    if edit.kind != "substitution" or edit.start[0] or not 0 <= at < len(letters):
        return [(65, 84, 0, 999)[turn % 4]]
    there = ord(letters[at])
    return [there, there + 32, there + 256, there + 2**16, there + 2**32, there + 2**63, 0] + [ord(base) for base in "ACGTN" if ord(base) != there]


def answered(ref, edit, longest, named, turn):
    """The rooms that are lent, and what garumbott_panel answers and writes: exact room twice as often as plenty, and a byte too little in each buffer."""
    try:
        record, altered = account.answer(ref, edit, longest, named)
    except account.Refused as refusal:
        seen[refusal.number] = seen.get(refusal.number, 0) + 1
        return ends.NONE if turn % 2 else ends.PLENTY, ends.alone(0, refusal.number) + ends.NOTHING
    seen[record.word] = seen.get(record.word, 0) + 1
    if not altered:
        return ends.NONE if turn % 2 else ends.PLENTY, ends.alone(1) + ends.NOTHING
    texts = altered.transcript, ref.protein, altered.protein
    sizes = [len(text) for text in texts]
    room = [sizes[0], sizes[1], -(-(sizes[0] - ref.cs + 1) // 3)]
    if turn % 6 > 2 and room[turn % 6 - 3]:
        room[turn % 6 - 3] -= 1
    elif turn % 6 == 0:
        room = ends.PLENTY
    try:
        account.check_room(ref, altered, *room)
    except account.Refused as refusal:
        seen[refusal.number] = seen.get(refusal.number, 0) + 1
        return room, ends.alone(0, refusal.number) + ends.NOTHING
    return room, ends.told(record, altered.flag, sizes, altered.looked_up(ref)) + ends.buffers(texts)


def blocks():
    """For each reference its words, its calls and what each must write."""
    turn = 0
    for letters, cs, ce, table, end in references():
        head = bytes([len(letters)]) + letters.encode() + bytes([cs, ce, table, end])
        calls, wants, said = [], [], []
        try:
            ref, no = account.Reference(letters, cs, ce, table, (), end).check(), None
        except account.Refused as refusal:
            ref, no = None, ends.alone(0, refusal.number) + ends.NOTHING
        for edit in edits(letters, cs, ce):
            for named in named_bases(letters, cs, edit, turn):
                turn += 1
                longest = (0, 0, 1, 3, 5)[turn % 5]
                room, want = answered(ref, edit, longest, named, turn) if ref else (ends.PLENTY, no)
                calls.append(ends.packed(edit) + bytes([longest]) + named.to_bytes(8, "big") + bytes(room))
                wants.append(want + b"\1")
                said.append((letters, cs, ce, table, end, edit.kind, edit.start, edit.end, edit.bases, longest, named, room))
        for at in range(0, len(calls), 65535):
            part = calls[at:at + 65535]
            yield head + ends.two(len(part)) + b"".join(part), wants[at:at + 65535], said[at:at + 65535]


def main(folder, command):
    wants, said = [], []
    with open(f"{folder}/input", "wb") as out:
        for given, want, words in blocks():
            out.write(given)
            wants += want
            said += words
    with open(f"{folder}/input", "rb") as given:
        got = subprocess.run(command, stdin=given, stdout=subprocess.PIPE, check=True).stdout
    if len(got) != SIZE * len(wants):
        print(f"{len(got)} bytes for {len(wants)} calls")
        return 1
    for i, want in enumerate(wants):
        if got[SIZE * i:SIZE * i + SIZE] != want:
            part = got[SIZE * i:SIZE * i + SIZE]
            print(f"{said[i]}: {list(part[:ends.NUMBERS])} {part[ends.NUMBERS:]}, not {list(want[:ends.NUMBERS])} {want[ends.NUMBERS:]}")
            return 1
    missing = {7, 8, 9, 10, 11, 12, 40, 41, 42, 43, "unknown", "silent", "substitution", "deletion", "duplication", "insertion", "stop-gained"} - seen.keys()
    if missing:
        print(f"not compared: {sorted(map(str, missing))}")
        return 1
    print(f"{len(wants)} calls, refused by the profile {', '.join(f'{n}: {seen[n]}' for n in range(40, 44))}: as the account and garumbott_record have them")
    return 0


if __name__ == "__main__":
    sys.exit(main(sys.argv[1], sys.argv[2:]))
