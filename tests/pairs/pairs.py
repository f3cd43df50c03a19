"""All pairs of edits of small references, both orders, through garumbott_pair, held to the second account of the documents.

    python3 tests/pairs/pairs.py CALLS..

CALLS is the program tests/pairs/calls.c, with the emulator before it where one is wanted. Prints how many pairs got which answer; exits 1 where one differs.
"""
import subprocess
import sys

sys.path.insert(0, "tests/account")
import account

TRANSCRIPT, ALTERED = 60, 22
BEFORE = bytes(ord("a") + i % 26 for i in range(TRANSCRIPT + ALTERED))
SIGNS = {"": (0, 1), "-": (0, -1), "*": (1, 1)}

# letters, cs, ce, table, exceptions, end
REFERENCES = [
    ("GATGGCCTAACT", 2, 10, 0, [], 0),
    ("ATGTGAAAATAA", 1, 12, 0, [(2, "U")], 0),
    ("ATGTGATAAC", 1, 9, 1, [], 0),
    ("CATGAGATGGCC", 2, 7, 2, [], 0),
    ("ATGTAATAA", 1, 9, 0, [], 0),
    ("ATGGCCA", 1, 7, 0, [], 2),
    ("CATGGCC", 2, 7, 0, [], 1),
    ("RAYATGNTAAS", 1, 6, 0, [(2, "*")], 0),
]
REFUSED = [
    ("", 1, 6, 0, [], 0), ("ATGUAA", 1, 6, 0, [], 0), ("ATGTAA", 0, 6, 0, [], 0), ("ATGTAA", 1, 6, 3, [], 0), ("ATGTAA", 1, 6, 0, [(3, "K")], 0),
    ("ATGGCC", 1, 6, 0, [], 0), ("ATGTAA", 1, 6, 0, [], 1),
]


def positions(ref):
    behind = len(ref.letters) - ref.ce
    yield from (("-", n) for n in range(1, ref.cs))
    yield from (("", n) for n in range(1, ref.ce - ref.cs + 2))
    yield from (("*", n) for n in range(1, behind + 2))


def edits_of(ref):
    """Every kind at every place that the transcript has, and one behind it, with a few new bases; some of these are refused, and so are those at the end."""
    places = list(positions(ref))
    spans = [(a, b) for i, a in enumerate(places) for b in places[i:]]
    for a in places:
        yield account.Edit("substitution", a, a, "C")
    for a, b in zip(places, places[1:]):
        for bases in ("A", "TAG", "CTAGA"):
            yield account.Edit("insertion", a, b, bases)
    for a, b in spans:
        yield account.Edit("deletion", a, b)
        if (places.index(a) + places.index(b)) % 2:
            yield account.Edit("duplication", a, b)
            yield account.Edit("inversion", a, b)
        else:
            yield account.Edit("delins", a, b, "GT")
            yield account.Edit("identity", a, b)
    yield account.Edit("deletion", ("", 0), ("", 1))
    yield account.Edit("deletion", ("", 3), ("", 2))
    yield account.Edit("insertion", ("", 1), ("", 2), "Z")
    yield account.Edit("other", ("", 1), ("", 2))


def string(s):
    return bytes([len(s)]) + s


def edit_bytes(edit):
    kind = account.KINDS.index(edit.kind) + 1 if edit.kind in account.KINDS else 99
    out = [kind]
    for sign, n in (edit.start, edit.end):
        star, way = SIGNS[sign]
        out += [star, (way * n) % 256]
    return bytes(out) + string(edit.bases.encode())


def reference_bytes(letters, cs, ce, table, exceptions, end, edits):
    listed = b"".join(bytes([n // 256, n % 256, ord(x)]) for n, x in exceptions)
    head = string(letters.encode()) + bytes([cs, ce, table]) + string(listed) + bytes([end])
    return head + bytes([len(edits) // 256, len(edits) % 256]) + b"".join(map(edit_bytes, edits))


def expected(ref, refusal, first, second):
    try:
        account.refuse(refusal, refusal)
        transcript, protein = account.paired(ref, first, second)
    except account.Refused as refused:
        return bytes([refused.number, 0, 0]) + BEFORE + b"\1"
    held = bytearray(BEFORE)
    held[:len(transcript)] = transcript.encode()
    held[TRANSCRIPT:TRANSCRIPT + len(protein)] = protein.encode()
    return bytes([0, len(transcript), len(protein)]) + bytes(held) + b"\1"


def main(calls):
    given, pairs = [], []
    for numbers in REFERENCES + REFUSED:
        ref, refusal = account.Reference(*numbers), 0
        try:
            ref.check()
        except account.Refused as refused:
            refusal = refused.number
        edits = list(edits_of(ref)) if not refusal else [account.Edit("deletion", ("", 0), ("", 1)), account.Edit("deletion", ("", 4), ("", 4))]
        given.append(reference_bytes(*numbers, edits))
        pairs.append((numbers, ref, refusal, edits))
    ran = subprocess.run(calls, input=b"".join(given), capture_output=True, check=True)
    size, at, counts, faults = 3 + len(BEFORE) + 1, 0, {}, 0
    for numbers, ref, refusal, edits in pairs:
        made = {}
        for i, first in enumerate(edits):
            for j, second in enumerate(edits):
                got, at = ran.stdout[at:at + size], at + size
                want = expected(ref, refusal, first, second)
                made[i, j] = got
                counts[got[0]] = counts.get(got[0], 0) + 1
                if got != want:
                    faults += 1
                    if faults < 10:
                        print(numbers, vars(first), vars(second), got, want)
        for (i, j), got in made.items():  # both orders of two accepted edits
            if got[0] in (0, 51, 52, 53) and got != made[j, i]:
                faults += 1
                print(numbers, vars(edits[i]), vars(edits[j]), "in the other order:", made[j, i])
    if at != len(ran.stdout):
        faults += 1
        print("the output is longer than its answers")
    print(f"{sum(counts.values())} pairs, both orders: " + ", ".join(f"{n} " + ("accepted" if not k else f"refused with {k}") for k, n in sorted(counts.items())))
    wanted = {0, 1, 2, 3, 4, 5, 6, 28, 7, 8, 9, 10, 51, 52, 53}
    if not wanted <= counts.keys() or counts[0] < 50000:
        faults += 1
        print("some answer is never given, or too few pairs are accepted")
    return 1 if faults else 0


sys.exit(main(sys.argv[1:]))
