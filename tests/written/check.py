"""References written in the stored form through C (calls.c), against the second account of the documents (tests/account): the rows that decide document 02's words, every
case of the lists of stored references (tests/stored) read and written, and random references, short and long, right and wrong, in buffers that are long enough, exactly
long enough and a byte too short. Every form must be the account's, byte for byte, and read back as the reference; every refusal the account's, with no byte changed.
Prints how much was compared; exits 1 at a difference, and tells the first.

    python3 tests/written/check.py COUNT SEED COMMAND..    COUNT random references; COMMAND is the compiled calls.c
"""
import random
import subprocess
import sys
import threading

sys.path.insert(0, "tests/account")
import account

W = account.Reference("GGATGGCCAAATGGTAACCTGAC", 3, 17, 0)
STOPS = ["TAA TAG TGA TAR TRA".split(), "TAA TAG TAR".split(), "TAA TAG TAR AGA AGG AGR".split()]
LENGTHS = [16383, 16384, 16385, 65534, 65535, 65536, 65537, 131069, 131070, 131071, 131072, 131073]


def of(letters, cs=1, ce=None, table=0, exceptions=(), end=0):
    return account.Reference(letters, cs, len(letters) if ce is None else ce, table, exceptions, end)


def uneven(ref, listed):
    """A reference whose exceptions are handed over as bytes that aren't three each: they are none that could be, and 5 says so."""
    ref.exceptions, ref.listed = [(0, "?")], listed
    return ref


def long(size, end=0):
    """ATGTAA or ATGGCC, then C, so many letters."""
    return of("ATGTAA" + "C" * (size - 6), 1, 6) if end == 0 else of("ATG" + "C" * (size - 3), 1 + (size % 3 if end == 1 else 0 if size % 3 else 1), size, 0, (), end)


# Inputs that decide a reading: a reference, the room, and what must be answered, a refusal's number or the form

def rows():
    short = bytes.fromhex("010006415447544141" "0200040001" "0006" "03000100")
    yield of("ATGTAA"), 100, short
    yield of("ATGTAA", 65537, 6), 100, 3
    yield of("ATGTAA", 1, 6, 256), 100, 4
    yield of("ATGTAA", 1, 6, 2 ** 32), 100, 4
    yield of("ATGTAA", 1, 6, 0, [(65538, "K")]), 100, 5
    yield of("ATGTAATAA"), 23, bytes.fromhex("010009") + b"ATGTAATAA" + bytes.fromhex("02000400010009" "03000100")
    yield of("ATGAAA"), 0, 6
    yield of("ATGTAA"), 0, 24
    yield of("ATGTAA"), 19, 24
    yield of("ATGTAA"), 20, short
    yield W, 36, 24
    yield W, 37, bytes.fromhex("010017") + W.letters.encode() + bytes.fromhex("02000400030011" "03000100")
    yield of("ATGGCC", end=1), 100, bytes.fromhex("010006415447474343" "02000400010006" "03000100" "08000101")
    yield of("ATGGCCA", end=2), 24, 24
    yield of("ATGGCCA", end=2), 25, bytes.fromhex("01000741544747434341" "02000400010007" "03000100" "08000102")
    yield of("ATGGCC", end=257), 0, 28
    yield of("ATGTAA", end=1), 0, 28
    yield of("ATGTAA", end=9), 0, 28
    yield of("ATGTAA", exceptions=[(1, "U")]), 26, short + bytes.fromhex("040003000155")
    yield of("ATGTAA", exceptions=[(1, "U")]), 25, 24
    for listed in (b"\0", b"\0\1", b"\0\1U\0", b"\0\1U\0\2"):
        yield uneven(of("ATGTAA"), listed), 100, 5
    yield uneven(of("ATGTAA", table=3), b"\0"), 100, 4
    yield of(""), 0, 1
    yield long(131073), 0, 1
    for size, length in ((16384, 16398), (16385, 16403), (65535, 65553), (65536, 65557), (131070, 131091), (131071, 131095), (131072, 131096)):
        yield long(size), length - 1, 24
        yield long(size), length, account.stored_form(long(size))


# Random references

def random_reference(rand, wide):
    """Mostly one that isn't refused."""
    end, table = rand.choice((0, 0, 0, 1, 2)), rand.choice((0, 0, 1, 2))
    alphabet = rand.choice(("ACGT", "ACGT", "ACGTRYSWKMBDHVN"))
    size = rand.choice(LENGTHS) if wide else rand.choice((rand.randint(6, 40), rand.randint(6, 40), rand.randint(40, 700)))
    letters = "".join(rand.choices(alphabet, k=min(size, 400))) * (size // 400 + 1)
    letters, codons = letters[:size], rand.randint(2, max(2, size // 3))
    exceptions = []
    if end == account.AT_STOP:
        cs = rand.randint(1, max(1, size - 3 * codons + 1))
        ce = cs + 3 * codons - 1
        letters = (letters[:ce - 3] + rand.choice(STOPS[table]) + letters[ce:])[:max(size, ce)]
    else:
        ce = len(letters)
        cs = max(1, ce - 3 * codons + 1 - (rand.choice((1, 2)) if end == account.CUT_CODON else 0))
        if wide or rand.random() < 0.8:  # no stop
            letters = letters[:cs - 1] + letters[cs - 1:].replace("T", "C").replace("R", "C").replace("A", "C")
    if rand.random() < 0.3:
        within = max(1, (ce - cs + 1) // 3 - (end == account.AT_STOP))
        exceptions = [(n, rand.choice("UXKABZM")) for n in sorted(rand.sample(range(1, within + 1), min(within, rand.choice((1, 1, 2, 3, 16)))))]
    return account.Reference(letters, cs, ce, table, exceptions, end)


def damaged(rand, ref):
    """One number, letter or exception changed."""
    what, far = rand.randrange(8), rand.choice((0, 65536, 65537, 2 ** 32, 2 ** 64 - 1))
    if what == 0:
        ref.letters = ref.letters[:len(ref.letters) // 2] + rand.choice("UXacgt*\0\xff") + ref.letters[len(ref.letters) // 2 + 1:]
    elif what == 1:
        ref.cs = (ref.cs + rand.choice((-1, 1, 3, far))) % 2 ** 64
    elif what == 2:
        ref.ce = (ref.ce + rand.choice((-1, 1, 3, far))) % 2 ** 64
    elif what == 3:
        ref.table = rand.choice((0, 1, 2, 3, 255, 256, 257, far))
    elif what == 4:
        ref.end = rand.choice((0, 1, 2, 3, 256, 257, far))
    elif what == 5:
        ref.exceptions.append((rand.choice((0, 1, 2, 65535)), rand.choice("K*a")))
    elif what == 6:
        ref.exceptions = [(n, "K") for n in range(1, 18)]
    else:
        ref.letters = ""
    return ref


def wanted(ref, room):
    try:
        return account.written(ref, room)
    except account.Refused as refusal:
        return refusal.number


def written_cases(count, seed):
    for ref, room, want in rows():
        if wanted(ref, room) != want:
            sys.exit(f"the account answers {wanted(ref, room)!r} to {shown(ref)} in {room} bytes, not {want!r}")
        yield ref, room, want
    rand = random.Random(seed)
    for i in range(count):
        ref = random_reference(rand, i % 100 == 0)
        if rand.random() < 0.2:
            ref = damaged(rand, ref)
        full = wanted(ref, 2 ** 20)
        size = len(full) if isinstance(full, bytes) else rand.choice((0, 40))
        for room in {size + rand.choice((0, 0, 1, 60)), max(0, size - 1) if rand.random() < 0.3 else size, 0 if rand.random() < 0.1 else size}:
            yield ref, room, full if not isinstance(full, bytes) or room >= len(full) else 24


# Stored forms, read and written

def stored_cases():
    """The lists of tests/stored, the bytes as the program's input has them."""
    with open("crates/vectors_stored/stdin", "rb") as f:
        data, at, parts = f.read(), 0, []
    while at < len(data):
        size = data[at] * 256 + data[at + 1]
        parts.append(data[at + 2:at + 2 + size])
        at += 2 + size
    return sorted(set(parts[1::3]))


def read(form):
    try:
        return account.stored(form)
    except account.Refused as refusal:
        return refusal.number


# The comparison

def eight(n):
    return n.to_bytes(8, "big")


def text(s):
    return eight(len(s)) + s


def sent(ref, room):
    listed = getattr(ref, "listed", b"".join((n % 65536).to_bytes(2, "big") + x.encode("latin-1") for n, x in ref.exceptions))
    return b"".join([eight(1), text(ref.letters.encode("latin-1")), eight(ref.cs), eight(ref.ce), eight(ref.table), text(listed), eight(ref.end), eight(room)])


def shown(ref):
    letters = ref.letters if len(ref.letters) < 60 else f"{ref.letters[:20]}.. ({len(ref.letters)})"
    return f"letters {letters} cs {ref.cs} ce {ref.ce} table {ref.table} exceptions {ref.exceptions} end {ref.end}"


def main(count, seed, command):
    # an exception's codon number has two bytes in a call, so 65,538 can't be asked through C: 2 is, and isn't refused
    written = [(ref, room, want) for ref, room, want in written_cases(count, seed) if all(n < 65536 for n, _ in ref.exceptions)]
    forms = [(form, read(form)) for form in stored_cases()]
    program = subprocess.Popen(command, stdin=subprocess.PIPE, stdout=subprocess.PIPE)

    def feed():
        try:
            for ref, room, _ in written:
                program.stdin.write(sent(ref, room))
            for form, _ in forms:
                program.stdin.write(eight(2) + text(form) + eight(len(form) + 40))
            program.stdin.close()
        except BrokenPipeError:
            pass

    threading.Thread(target=feed, daemon=True).start()
    number = lambda: int.from_bytes(program.stdout.read(8), "big")
    met = {}

    def answer(want, size, what):
        refusal, length, room_said = number(), number(), number()
        form, state = program.stdout.read(length), number()
        back = number() if refusal == 0 else None
        got = form if refusal == 0 else refusal
        if got != want or refusal != 0 and (length, state) != (0, 0) or refusal == 0 and (state, back) != (1, 1):
            sys.exit(f"{what}: refusal {refusal}, {length} bytes {form[:60]!r}, buffer {state}, read back {back}; wanted {want if isinstance(want, int) else want[:60]!r}")
        if size is not None and room_said != size:
            sys.exit(f"{what}: garumbott_stored_room says {room_said}, the form has {size} bytes")
        key = f"refused {refusal}" if refusal else "written"
        met[key] = met.get(key, 0) + 1

    for ref, room, want in written:
        whole = wanted(ref, 2 ** 20)
        answer(want, len(whole) if isinstance(whole, bytes) else None, f"{shown(ref)} in {room} bytes")
    counts = dict(met)
    rewritten, without = 0, 0
    for form, ref in forms:
        refusal = number()
        if refusal != (ref if isinstance(ref, int) else 0):
            sys.exit(f"{form.hex()}: read, refused {refusal}")
        if refusal == 0:
            want = account.stored_form(ref)
            if want != form and b"\4\0\0" not in form:
                sys.exit(f"{form.hex()}: the account writes {want.hex()}")
            answer(want, len(want), f"{form[:60].hex()} read and written")
            rewritten, without = rewritten + (want == form), without + (want != form)
    if program.stdout.read() or program.wait() != 0:
        sys.exit("the program failed, or wrote more than it was asked")
    missing = [n for n in ["written"] + [f"refused {n}" for n in (1, 2, 3, 4, 5, 6, 24, 28)] if n not in counts]
    if missing:
        sys.exit(f"not met: {missing}")
    print(f"{len(written)} calls of garumbott_write_stored: " + ", ".join(f"{n} {what}" for what, n in sorted(counts.items())))
    print(f"{len(forms)} stored forms: {rewritten} read and written with the same bytes, {without} without their empty tag 4")
    return 0


sys.exit(main(int(sys.argv[1]), int(sys.argv[2]), sys.argv[3:]))
