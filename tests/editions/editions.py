"""Pairs of references through C (calls.c) against the account of the documents (tests/account): every number of each answer and every byte of the buffer.
All pairs of small references of every kind, with room that does and that doesn't; the inputs that decide doubtful clauses; and two editions as long as the
library takes them, with a hundred changes. Prints how much was compared; exits 1 at a difference, and tells the first.

    python3 tests/editions/editions.py COMMAND..    COMMAND is the compiled calls.c
"""
import itertools
import random
import subprocess
import sys

sys.path.insert(0, "tests/account")
import account

ENDS = (0, 1, 2, 3)


def reference(letters, cs=1, ce=None, table=0, exceptions=(), end=0):
    return letters, cs, len(letters) if ce is None else ce, table, tuple(exceptions), end


# What must be answered

def compared(r, s, room):
    """The account's refusal, bytes."""
    try:
        return 0, account.difference_bytes(account.compared(account.Reference(*r), account.Reference(*s), room))
    except account.Refused as refusal:
        return refusal.number, b""


# What is answered

def eight(n):
    return n.to_bytes(8, "big")


def string(data):
    return eight(len(data)) + data


def exception_bytes(exceptions):
    return b"".join(bytes([n // 256, n % 256, ord(x)]) for n, x in exceptions)


def told(references, pairs):
    data = [eight(len(references))]
    for letters, cs, ce, table, exceptions, end in references:
        data += [string(letters.encode("latin-1")), eight(cs), eight(ce), eight(table), string(exception_bytes(exceptions)), eight(end)]
    data += [eight(i) + eight(j) + eight(room) for i, j, room in pairs]
    return b"".join(data)


def shown(r):
    letters, cs, ce, table, exceptions, end = r
    return f"{letters[:60]} cs {cs} ce {ce} table {table} {exceptions or ''} end {end}"


def compare(command, references, pairs):
    """Each pair against the account; answers how often each refusal was given, 0 for a list, and how many differences there were."""
    ran = subprocess.run(command, input=told(references, pairs), stdout=subprocess.PIPE)
    if ran.returncode != 0:
        sys.exit("the program failed")
    out, at, counts, listed, known = ran.stdout, 0, {}, 0, {}
    for i, j, room in pairs:
        refusal, size = int.from_bytes(out[at:at + 8], "big"), int.from_bytes(out[at + 8:at + 16], "big")
        got, kept = (refusal, out[at + 16:at + 16 + size]), out[at + 16 + size:at + 17 + size]
        at += 17 + size
        if (i, j) not in known:
            known[i, j] = compared(references[i], references[j], None)
        want = known[i, j]
        if want[0] == 0 and room < len(want[1]):
            want = 50, b""
        if got != want or kept != b"\1":
            print(f"{shown(references[i])}\n{shown(references[j])}\nroom {room}: {got}, not {want}; the other bytes stayed: {kept == bytes([1])}")
            sys.exit(1)
        counts[refusal] = counts.get(refusal, 0) + 1
        listed += size // 4
    if at != len(out):
        sys.exit("too many answers")
    return counts, listed


# Small references

def small():
    """References of two to four codons, of every end, table and kind of exception, refused ones among them."""
    words = lambda letters, size: map("".join, itertools.product(letters, repeat=size))
    for letters in words("AT", 6):  # every CDS of two codons of A and T, and every one of two codons and a base
        yield reference(letters)
        yield reference(letters, end=1)
        yield reference(letters + "A", end=2)
        yield reference(letters + "T", end=2)
    for letters in words("AT", 3):
        yield reference("ATG" + letters + "TAA")
        yield reference("ATG" + letters, end=1)
    for letters in ("ATGTAA", "ATGTGATAA", "ATGATATAA", "ATGAGATGA", "ATGRAYTAA", "ATGGAYTAA", "ATGNNNTAA", "ATGSARTAG"):
        for table in range(3):
            yield reference(letters, table=table)
    for letters in ("ATGA", "ATGAAGN", "ATGAAGNN", "ATGAAGNNN", "ATGAAGNNNTAA", "ATGAAGC", "ATGAAGCC", "ATGAAGA", "ATGAA", "ATGAAGCCTAAC"):
        for end in ENDS:
            yield reference(letters, end=end)
    for exceptions in (((2, "U"),), ((2, "X"),), ((1, "K"), (2, "*")), ((3, "*"),), ((3, "K"),), ((4, "K"),), ((2, "K"), (2, "K")), ((0, "K"),), ((2, "k"),)):
        yield reference("ATGAAATAA", exceptions=exceptions)
        yield reference("ATGRAYTAA", exceptions=exceptions)
        yield reference("ATGAAAG", exceptions=exceptions, end=2)
    for cs, ce in ((2, 10), (2, 13), (0, 9), (2, 9), (1, 13), (5, 4)):
        yield reference("CATGAAATAACC", cs, ce)
    yield reference("ATGAAACCCTAA")
    yield reference("ATGAAGCCCTAA")
    yield reference("ATGTAATAA")
    yield reference("")
    yield reference("ATGUAA")
    yield reference("ATGTAA", table=3)
    yield reference("ATGTAA", table=256)
    yield reference("ATGTAA", ce=2**32 + 6)


def all_pairs(command):
    references = list(small())
    pairs = []
    for i, j in itertools.product(range(len(references)), repeat=2):
        refusal, data = compared(references[i], references[j], None)
        rooms = {len(data), 64} if refusal == 0 else {0, 64}
        if data:
            rooms |= {len(data) - 1, 0}
        pairs += [(i, j, room) for room in sorted(rooms)]
    counts, listed = compare(command, references, pairs)
    missing = [n for n in (0, 1, 2, 3, 4, 5, 6, 28, 50, 101, 102, 103, 104, 105, 106, 128) if n not in counts]
    if missing:
        sys.exit(f"refusals that never came up: {missing}")
    return len(references), len(pairs), listed


# Random editions

def random_pairs(command, seed, count):
    """A random reference and another edition of it: codons changed, put in and taken out, other bounds, table, exceptions and end, some of them damaged."""
    rand, references, pairs = random.Random(seed), [], []
    codon = lambda: "".join(rand.choice("ACGTACGTACGTRYN") for _ in range(3))
    for _ in range(count):
        body = [codon() for _ in range(rand.randint(1, 60))]
        for _ in range(2):
            body = [codon() if rand.random() < 0.1 else c for c in body]
            if rand.random() < 0.3:
                body.insert(rand.randrange(len(body)), codon())
            end = rand.choice((0, 0, 0, 1, 2))
            before, behind = "".join(rand.choice("ACGT") for _ in range(rand.choice((0, 0, 1, 7)))), ""
            coding = "ATG" + "".join(body) + {0: rand.choice(("TAA", "TAG")), 1: "", 2: rand.choice(("A", "GC", "N"))}[end]
            if end == 0:
                behind = "C" * rand.choice((0, 0, 2))
            else:
                coding = coding.replace("T", "C")
            exceptions = sorted({(rand.randint(1, len(body) + 1), rand.choice("UKX*")) for _ in range(rand.choice((0, 0, 1, 3)))})
            r = [before + coding + behind, len(before) + 1, len(before) + len(coding), rand.choice((0, 0, 1, 2)), exceptions, end]
            if rand.random() < 0.1:
                k = rand.randrange(6)
                r[k] = {0: r[0][:-1] + "x", 4: [(0, "K")]}.get(k, rand.choice((0, 3, 5, 2**32, 2**64 - 1)))
            references.append(reference(*r))
        k = len(references) - 2
        size = len(compared(references[k], references[k + 1], None)[1])
        pairs += [(i, j, room) for i, j in ((k, k + 1), (k + 1, k)) for room in (size, max(size - 1, 0), size + 8)]
    counts, listed = compare(command, references, pairs)
    missing = [n for n in (0, 2, 3, 4, 5, 6, 28, 50, 102, 103, 104, 105, 106, 128) if n not in counts]
    if missing:
        sys.exit(f"refusals that never came up among random editions: {missing}")
    return len(pairs), listed


# Doubtful clauses

def entries(text):
    """`2 K K; 4 - *` as bytes."""
    rows = [row.split() for row in text.split("; ")] if text else []
    return b"".join(bytes([int(n) // 256, int(n) % 256, 0 if a == "-" else ord(a), 0 if b == "-" else ord(b)]) for n, a, b in rows)


DECIDED = [
    (reference("ATGAAATAA"), reference("ATGAAGCCCTAA"), 12, "2 K K; 3 * P; 4 - *"),
    (reference("ATGAAATAA"), reference("ATGAAGCCCTAA"), 11, 50),
    (reference("ATGAAATAA"), reference("ATGAAGTAA"), 4, "2 K K"),
    (reference("ATGTGATAA", table=1), reference("ATGTGATAA", table=2), 4, "2 U W"),
    (reference("ATGAAATAA", exceptions=((2, "U"),)), reference("ATGAAATAA"), 4, "2 U K"),
    (reference("ATGAAATAA"), reference("CATGAAATAACC", 2, 10), 0, ""),
    (reference("ATGAAACCCTAA"), reference("ATGAAATAA"), 8, "3 P *; 4 * -"),
    (reference("ATGAAGNN", end=2), reference("ATGAAGNNNTAA"), 8, "3 X X; 4 - *"),
    (reference("ATGAAGC", end=2), reference("ATGAAGC", end=2), 0, ""),
    (reference("ATGAAA"), reference("ATGAAA"), 0, 6),
    (reference("ATGTAA"), reference("ATGAAA"), 0, 106),
    (reference("ATGTAA"), reference("ATGTAA"), 0, ""),
    # E2: an exception X beside a codon that reads B
    (reference("ATGRAYTAA", exceptions=((2, "X"),)), reference("ATGRAYTAA"), 4, "2 X B"),
    # all of the first before any of the second, both before 50
    (reference("ATGAAA"), reference(""), 0, 6),
    (reference("ATGTAA"), reference(""), 0, 101),
    (reference("ATGTAA"), reference("ATGTAA", end=9), 0, 128),
    (reference("ATGAAATAA"), reference("ATGCCC"), 0, 106),
    # several stops are no fault; an end is no difference by itself
    (reference("ATGTAATAA"), reference("ATGAAATAA"), 4, "2 * K"),
    (reference("ATGTAA", exceptions=((2, "K"),), end=1), reference("ATGTAA"), 4, "2 K *"),
    # one letter against two
    (reference("ATGAAGN", end=2), reference("ATGAAGNN", end=2), 4, "3 X X"),
    (reference("ATGAAG", end=1), reference("ATGAAGC", end=2), 4, "3 - X"),
]


def decided(command):
    references = [r for row in DECIDED for r in row[:2]]
    for k, (r, s, room, answer) in enumerate(DECIDED):
        want = (answer, b"") if isinstance(answer, int) else (0, entries(answer))
        if compared(r, s, room) != want:
            sys.exit(f"the account's answer to row {k}: {compared(r, s, room)}, not {want}")
    compare(command, references, [(2 * k, 2 * k + 1, row[2]) for k, row in enumerate(DECIDED)])
    return len(DECIDED)


# Long editions

def long_editions(command):
    """Two editions of one long transcript: a hundred codons changed in their letters or by an exception, and codons behind that one of them has alone."""
    rand = random.Random(11)
    size = account.LONGEST - 2000 if account.LONGEST < 107000 else 107000
    codons = size // 3 - 20
    body = [rand.choice(("GCC", "AAA", "TGG", "CTN", "GAY", "CCT", "RAY")) for _ in range(codons)]
    other = list(body)
    changed = rand.sample(range(1, codons - 1), 100)
    for k in changed:
        other[k] = rand.choice([c for c in ("GCT", "AAG", "TGT", "CTC", "GAT", "GAC", "AAN") if c != body[k]])
    first = "C" * 30 + "ATG" + "".join(body) + "TAA" + "G" * 12
    second = "ATG" + "".join(other) + "GGGTAA"
    references = [reference(first, 31, 33 + 3 * codons + 3, exceptions=((7, "U"),)), reference(second), reference(second, end=0, table=1), reference(first + "T" * 9, 31, 33 + 3 * codons + 3)]
    pairs = [(i, j, room) for i, j in itertools.product(range(4), repeat=2) for room in (1 << 18, 408, 400, 0)]
    counts, listed = compare(command, references, pairs)
    swapped = lambda rows: [(n, b, a) for n, a, b in rows]
    one, two = (account.compared(account.Reference(*references[i]), account.Reference(*references[j])) for i, j in ((0, 1), (1, 0)))
    if swapped(one) != two or not 100 <= len(one) <= 110:
        sys.exit(f"the long editions have {len(one)} differences")
    return len(first), len(one)


def main():
    command = sys.argv[1:]
    count, pairs, listed = all_pairs(command)
    print(f"editions: {pairs} pairs of {count} small references, {listed} differences: as the account has them")
    pairs, listed = random_pairs(command, 2026, 4000)
    print(f"editions: {pairs} pairs of random editions, {listed} differences")
    print(f"editions: {decided(command)} inputs that decide a clause")
    size, changes = long_editions(command)
    print(f"editions: two editions of {size} bases, {changes} differences")


main()
