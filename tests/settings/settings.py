"""Settings and the longest edit through C (calls.c) against the account of the documents (tests/account), every number and every byte of the buffer. Prints how much
was compared; exits 1 at a difference, and tells the first.

    python3 tests/settings/settings.py COMMAND..    COMMAND is the compiled calls.c
"""
import itertools
import subprocess
import sys

sys.path.insert(0, "tests/account")
import account

STORE = 24  # bytes of the buffer in calls.c
LARGE = (255, 256, 257, 258, 65535, 65536, 65537, 2 ** 32, 2 ** 32 + 1, 2 ** 63, 2 ** 64 - 1)
SETTINGS = [(1, 0, 1, 3, 4096), (1, 2, 0, 1, 4096), (2, 1, 1, 3, 4096), (2, 0, 0, 1, 1), (2, 2, 1, 1, 258)]
WORKED = account.Reference("GGATGGCCAAATGGTAACCTGAC", 3, 17, 0).check()
ANSWERS = {"unknown": 1, "no-protein": 2, "silent": 3}


# Stores to be read

def damaged(store):
    """A store as it is; each of its bytes as each other byte; each beginning and each end of it; each of its parts twice, and left out."""
    yield store
    for at in range(len(store)):
        for other in range(256):
            yield store[:at] + bytes([other]) + store[at + 1:]
        yield store[:at]
        yield store[at:]
    for start, end in itertools.combinations(range(len(store) + 1), 2):
        yield store[:end] + store[start:]
        yield store[:start] + store[end:]
    for other in range(256):
        yield store + bytes([other])


def swapped(store):
    """Its fields in every order."""
    fields, at = [], 0
    while at < len(store):
        size = 3 + store[at + 2]
        fields.append(store[at:at + size])
        at += size
    for order in itertools.permutations(fields):
        yield b"".join(order)


def read_lines():
    for settings in SETTINGS:
        store = account.write_settings(*settings, STORE)
        for data in itertools.chain(damaged(store), swapped(store)):
            for newest in range(4):
                yield f"r {newest} {data.hex()}", (newest, data)
    for newest in LARGE:
        yield f"r {newest} {store.hex()}", (newest, store)
    for high, low in itertools.product(range(256), repeat=2):  # every longest edit
        data = store[:-2] + bytes([high, low])
        yield f"r 2 {data.hex()}", (2, data)


def read_answer(newest, data):
    try:
        return " ".join(map(str, (0, 0) + account.read_settings(newest, data)))
    except account.Refused as refusal:
        return f"{refusal.number} {int(isinstance(refusal, account.Newer))} 0 0 0 0 0"


# Settings to be written

def write_lines():
    values = [range(4), range(4), range(3), range(5), (0, 1, 2, 255, 256, 4095, 4096, 4097)]
    for settings in itertools.product(*values):
        yield settings, 21
    for settings in SETTINGS:
        for room in range(STORE + 1):
            yield settings, room
        for place in range(5):
            for n in LARGE:
                yield settings[:place] + (n,) + settings[place + 1:], STORE
            for room in (0, 15, 20):  # 60 and 62 before 63
                yield settings[:place] + (9999,) + settings[place + 1:], room
    yield (1, 0, 1, 3, 5), 0


def write_answer(settings, room):
    try:
        store = account.write_settings(*settings, room)
        return f"0 {len(store)} " + (store + b"\xee" * (STORE - len(store))).hex()
    except account.Refused as refusal:
        return f"{refusal.number} 0 " + "ee" * STORE


# Edits at the longest edit and above it: the longest edit, kind, start, end, number of new bases, and their letter

LONGESTS = (0, 1, 2, 3, 4, 4095, 4096, 4097)


def edit_lines():
    for longest in LONGESTS + LARGE:
        most = longest if 1 <= longest <= 4096 else 4096
        counts = {0, 1, 2, most - 1, most, most + 1, 4096, 4097} if longest in LONGESTS else {0, 1, 4097}
        for kind in range(9):
            for start, end in ((4, 5), (4, 4), (4, 9), (0, 1), (9, 4), (1, 16)):
                for count in sorted(counts if kind in (3, 4) and end in (5, 9) else {0, 1, 2}):
                    yield longest, kind, start, end, count, "A"
        for letter in "ZN":
            for count in (most, most + 1):
                yield longest, 4, 4, 5, count, letter


def edit_of(longest, kind, start, end, count, letter):
    return account.Edit((["other"] + account.KINDS + ["other"])[kind], ("", start), ("", end), letter * count)


def one_answer(edit, longest, named=None):
    account.most_bases(longest)
    record, altered = account.answer(WORKED, edit, longest, named)
    size = 0 if altered is None else len(altered.transcript)
    return f"{ANSWERS.get(record.word, 4)} 0 {size}", size


def edit_answer(*given):
    longest, edit = given[0], edit_of(*given)
    words = []
    for named in (None, ord("A")):
        try:
            whole, size = one_answer(edit, longest, named)
            words += [whole] if named else [whole, f"4 0 {size}" if size else whole]
        except account.Refused as refusal:
            words += [f"0 {refusal.number} 0"] * (1 if named else 2)
    try:
        account.most_bases(longest)
        account.checked(WORKED, edit, 0, "", "", longest=longest)
        words.append("0")
    except account.Refused as refusal:
        words.append(str(refusal.number))
    return " ".join(words) + " 1" + f" {before_all(longest)}" * 4


def before_all(*longests):
    """What is refused where the reference is refused with 1: 62 stands before it."""
    return 62 if any(longest > 4096 for longest in longests) else 1


# Pairs of edits, each with a longest edit of its own

def pair_lines():
    for first, second in itertools.product(LONGESTS + (2 ** 32, 2 ** 64 - 1), repeat=2):
        for count in (1, 2, 4, first + 1):
            for other in (0, 1, 3, second):
                if count <= 4097 and other <= 4097:
                    yield (first, 4, 4, 5, count, "A"), (second, 3 if other % 2 else 4, 11, 12, other, "C")
        yield (first, 5, 4, 9, 0, "A"), (second, 2, 12, 13, 0, "A")
        yield (first, 2, 0, 1, 0, "A"), (second, 4, 11, 12, 5, "A")
    yield (1, 4, 4, 5, 2, "A"), (0, 2, 9, 9, 0, "A")
    yield (1, 5, 4, 6, 0, "A"), (0, 2, 9, 9, 0, "A")


def pair_answer(first, second):
    refused = before_all(first[0], second[0])
    try:
        for longest in (first[0], second[0]):
            account.most_bases(longest)
        transcript, protein = account.paired(WORKED, edit_of(*first), edit_of(*second), longest=(first[0], second[0]))
        return f"0 {len(transcript)} {len(protein)} 1 {refused}"
    except account.Refused as refusal:
        return f"{refusal.number} 0 0 1 {refused}"


def plain(*words):
    return " ".join(" ".join(map(str, w)) if isinstance(w, tuple) else str(w) for w in words)


def main():
    parts = [[(text, read_answer(*given)) for text, given in read_lines()],
             [(f"w {plain(*given)}", write_answer(*given)) for given in write_lines()],
             [(f"e {plain(*given)}", edit_answer(*given)) for given in edit_lines()],
             [(f"p {plain(*given)}", pair_answer(*given)) for given in pair_lines()]]
    asked, wanted = zip(*itertools.chain(*parts))
    got = subprocess.run(sys.argv[1:], input="\n".join(asked) + "\n", capture_output=True, text=True, check=True).stdout.split("\n")[:-1]
    if len(got) != len(wanted):
        sys.exit(f"settings: {len(got)} answers to {len(wanted)} calls")
    for text, answer, want in zip(asked, got, wanted):
        if answer != want:
            sys.exit(f"settings: {text[:200]}: {answer}, and the account says {want}")
    sizes = [len(part) for part in parts]
    print(f"settings: {sizes[0]} stores read, {sizes[1]} written, {sizes[2]} edits and {sizes[3]} pairs by their longest edits: as the account says ({len(set(wanted))} answers)")


main()
