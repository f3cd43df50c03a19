"""Packed letters through C (calls.c), in every function that takes a reference, against the account of the documents (tests/account): every number of each answer
and every byte of the buffers.

    python3 tests/packed/packed.py COMMAND..             every reference of up to 5 letters, every byte in each place, wrong sizes and forms, random ones
    python3 tests/packed/packed.py bam SAMTOOLS COMMAND.. letters packed by samtools, and letters packed by us read by samtools

COMMAND is the compiled calls.c. Prints how much was compared; exits 1 at a difference, and tells the first.
"""
import gzip
import itertools
import os
import random
import struct
import subprocess
import sys
import tempfile
import zlib

sys.path.insert(0, "tests/account")
import account

CLASSES = "start-lost extension stop-gained frameshift substitution deletion duplication insertion delins".split()
WORKED = ("GGATGGCCAAATGGTAACCTGAC", 3, 17)


def packed(letters):
    sets = [sum({"A": 1, "C": 2, "G": 4, "T": 8}[base] for base in account.LETTERS[letter]) for letter in letters] + [0]
    return bytes(sets[i] * 16 + sets[i + 1] for i in range(0, len(letters), 2))


# A case: bytes, form, size, cs, ce, table, exceptions, end, edit, the room in each buffer, a proposal, the edit's longest edit

def case(data, form, size, cs, ce, edit, room=(64, 24, 24), table=0, exceptions=(), end=0, proposal=(1, "", ""), longest=0):
    return data, form, size, cs, ce, table, exceptions, end, edit, room, proposal, longest


def number(n):
    return struct.pack(">Q", n % 2**64)


def string(data):
    return number(len(data)) + data


def told_reference(c):
    data, form, size, cs, ce, table, exceptions, end = c[:8]
    x = b"".join(bytes([n // 256, n % 256]) + r.encode() for n, r in exceptions)
    return string(data) + number(form) + number(size) + number(cs) + number(ce) + number(table) + string(x) + number(end)


def told_edit(edit, longest=0):
    kind = account.KINDS.index(edit.kind) + 1 if edit.kind in account.KINDS else 8
    places = b"".join(number(sign == "*") + number(-n if sign == "-" else n) for sign, n in (edit.start, edit.end))
    return number(kind) + places + string(edit.bases.encode()) + number(longest)


def told(c):
    edit, room, proposal, longest = c[8:]
    return b"r" + told_reference(c) + told_edit(edit, longest) + b"".join(map(number, room)) + number(proposal[0]) + string(proposal[1].encode()) + string(proposal[2].encode())


# The other functions: a case as above, a second edit, the base that the first names, a second case for its reference, the room of a list and of a form

def told_others(o):
    c, second, named, other, rooms = o
    return b"o" + told_reference(c) + told_edit(c[8], c[11]) + told_edit(second) + number(named) + told_reference(other) + b"".join(map(number, c[9] + rooms))


def filled(room):
    return bytes(97 + i % 26 for i in range(room))


def written(text, room):
    return text.encode() + filled(room)[len(text):]


def edited_reference(c):
    """The reference of an edit, whose longest edit is judged before it."""
    account.most_bases(c[11])
    return checked_reference(c)


def checked_reference(c):
    data, form, size, cs, ce, table, exceptions, end = c[:8]
    letters = account.held(form, size, data)
    return account.Reference(letters, cs, ce, table, exceptions, end).check()


def told_answer(ref, record, altered, room):
    """The numbers of an answer, and what it writes."""
    n, texts = [0] * 14, ("", "", "")
    n[0] = {"unknown": 1, "no-protein": 2, "silent": 3}.get(record.word, 4)
    if altered is not None:
        account.check_room(ref, altered, *room)
        texts = altered.transcript, ref.protein, altered.protein
        n[2:6] = [int(altered.flag)] + [len(t) for t in texts]
        n[6] = CLASSES.index(record.word) + 1 if n[0] == 4 else 0
        n[7:13] = record.number, *record.deleted, *record.inserted, record.first
        n[13] = altered.looked_up(ref)
    return n, texts


def buffers(texts, room):
    return b"".join(written(t, r) for t, r in zip(texts, room))


def or_refused(answer, numbers, place=0):
    """What a call tells and writes, or its refusal at its place among the numbers."""
    try:
        return answer()
    except account.Refused as refused:
        return [refused.number if i == place else 0 for i in range(numbers)], ("", "", "")


def expected_others(o):
    c, second, named, other, rooms = o
    edit, room, _, longest = c[8:]

    def pair():
        transcript, protein = account.paired(edited_reference(c), edit, second, (room[0], room[2]), (longest, 0))
        return [0, len(transcript), len(protein)], (transcript, "", protein)

    def panel():
        ref = edited_reference(c)
        return told_answer(ref, *account.answer(ref, edit, longest, named), room)

    def compare():
        one = checked_reference(c)
        try:
            two = checked_reference(other)
        except account.Refused as refused:
            raise account.Refused(100 + refused.number)
        listed = account.difference_bytes(account.compared(one, two, rooms[0])).decode("latin-1")
        return [0, len(listed)], (listed,)

    def write():
        form = account.written(checked_reference(c), rooms[1]).decode("latin-1")
        return [0, len(form)], (form,)

    out = b""
    for answer, numbers, place, lent in ((pair, 3, 0, room), (panel, 14, 1, room), (compare, 2, 0, rooms[:1]), (write, 2, 0, rooms[1:])):
        n, texts = or_refused(answer, numbers, place)
        out += b"".join(map(number, n)) + b"".join(t.encode("latin-1") + filled(r)[len(t):] for t, r in zip(texts, lent))
    return out


def expected(c):
    edit, room, proposal, longest = c[8:]
    out = []
    for alone in (False, True):
        def answer():
            ref = edited_reference(c)
            record, altered = account.answer(ref, edit, longest)
            if altered is None or not alone:
                return told_answer(ref, record, altered, room)
            account.refuse(11, room[0] < len(altered.transcript))
            return [4, 0, int(altered.flag), len(altered.transcript)] + [0] * 10, (altered.transcript, "", "")
        n, texts = or_refused(answer, 14, 1)
        out.append(b"".join(map(number, n)) + buffers(texts, room[:1] if alone else room))

    def check():
        ref = edited_reference(c)
        (first, second), altered = account.checked(ref, edit, *proposal, room, longest)
        texts = altered.transcript, ref.protein, altered.protein
        return [0, int(first), int(second)] + [len(t) for t in texts], texts
    n, texts = or_refused(check, 6)
    return out[0] + out[1] + b"".join(map(number, n)) + buffers(texts, room)


def run(command, given):
    done = subprocess.run(command, input=given, stdout=subprocess.PIPE, check=False)
    if done.returncode != 0:
        sys.exit("packed: the program failed")
    return done.stdout


def shown(c):
    return " ".join(str(vars(x) if isinstance(x, account.Edit) else shown(x) if isinstance(x, tuple) else x) for x in c)


def compare(command, cases, what, told=told, expected=expected):
    cases = list(cases)
    for i in range(0, len(cases), 20000):
        some = cases[i:i + 20000]
        got, at = run(command, b"".join(map(told, some))), 0
        for c in some:
            want = expected(c)
            if got[at:at + len(want)] != want:
                sys.exit(f"packed: {what}: {shown(c)}: {got[at:at + len(want)]!r}, and the account says {want!r}")
            at += len(want)
        if at != len(got):
            sys.exit(f"packed: {what}: more was written than asked for")
    print(f"packed: {what}: {len(cases)} calls of each function")


FIRST = ("", 1)
IDENTITY = account.Edit("identity", FIRST, FIRST)


def short(command):
    """Every reference of up to 5 letters, none of which has room for a CDS: the account holds the letters, and refuses all of a size alike, with 3."""
    count = 0
    for size in range(1, 6):
        texts = list(map("".join, itertools.product(account.LETTERS, repeat=size)))
        first = case(packed(texts[0]), 1, size, 1, size, IDENTITY, room=(0, 0, 0))
        head, behind = string(first[0]), told(first)[1 + len(string(first[0])):]
        want = expected(first)
        if want[8:16] != number(3) or any(account.held(1, size, packed(letters)) != letters for letters in texts):
            sys.exit(f"packed: the account of {size} letters differs from their packing")
        for i in range(0, len(texts), 50000):
            some = texts[i:i + 50000]
            got = run(command, b"".join(b"r" + head[:8] + packed(letters) + behind for letters in some))
            if got != want * len(some):
                sys.exit(f"packed: a reference of {size} letters, of those from {some[0]} on: another answer than {want!r}")
        count += len(texts)
    print(f"packed: every reference of up to 5 letters: {count} calls of each function")


def some_edits():
    yield IDENTITY
    yield account.Edit("substitution", ("", 5), ("", 5), "G")
    yield account.Edit("deletion", ("", 2), ("", 4))
    yield account.Edit("duplication", ("", 1), ("", 3))
    yield account.Edit("inversion", ("", 2), ("", 6))
    yield account.Edit("insertion", ("", 3), ("", 4), "TAGN")
    yield account.Edit("delins", ("", 4), ("", 6), "RAY")


def bytewise():
    """Every byte in each place of references of even and odd length, and of byte counts and sizes that fit and don't."""
    for letters, cs, ce in (("ATGTAA", 1, 6), ("ATGGCCTAA", 1, 9), ("CATGRAYTAAC", 2, 10)):
        data, size = packed(letters), len(letters)
        for place in range(len(data)):
            for b in range(256):
                changed = data[:place] + bytes([b]) + data[place + 1:]
                for edit in some_edits():
                    yield case(changed, 1, size, cs, ce, edit)
                yield case(changed, 1, size - 1, cs, ce, IDENTITY)
        for other in (0, 1, size - 2, size - 1, size + 1, size + 2, account.LONGEST, account.LONGEST + 1, 2**32 + size, 2**63, 2**64 - 2, 2**64 - 1):
            for n in range(len(data) + 3):
                yield case((data + data)[:n], 1, other, cs, ce, IDENTITY)
        for form in (0, 2, 3, 255, 256, 257, 2**32, 2**32 + 1, 2**64 - 1):
            yield case(data, form, size, cs, ce, IDENTITY)
            yield case(letters.encode(), form, size, cs, ce, IDENTITY)
            yield case(data, form, size, cs, ce, IDENTITY, longest=4097)
            yield case(letters.encode(), form, 2**64 - 1, cs, ce, IDENTITY)


def position(place, cs, ce):
    """The position of a place, counted from 0."""
    return ("*", place - ce + 1) if place >= ce else ("", place - cs + 2) if place >= cs - 1 else ("-", cs - 1 - place)


def fitted(chance, reference, edit):
    """Room in each buffer, plenty, exactly what an edit asks for or a byte less in one of them; and a proposal, the edit's own record or one near it."""
    size = len(reference.letters)
    plenty, nothing = (2 * size + 8, size // 3 + 2, size + 8), (1, "", "")
    try:
        ref = reference.check()
        record, altered = account.answer(ref, edit)
    except account.Refused:
        return plenty, nothing
    if altered is None:
        return chance.choice((plenty, (0, 0, 0))), nothing
    exact = [len(altered.transcript), len(ref.protein), -(-(len(altered.transcript) - ref.cs + 1) // 3)]
    short = chance.randrange(8)
    if short < 3 and exact[short]:
        exact[short] -= 1
    part = lambda protein, where: protein[where[0]:where[0] + where[1]]
    own = record.number, part(ref.protein, record.deleted), part(altered.protein, record.inserted)
    near = chance.choice((own, own, (own[0] + 1, own[1], own[2]), (own[0], own[1], own[2] + "W"), (own[0], own[1] + "x", own[2])))
    return (plenty if short == 3 else tuple(exact)), near


def randomly(count, seed):
    """Random references with ambiguity letters, ends and exceptions, and random edits of them, in both forms."""
    chance = random.Random(seed)
    for _ in range(count):
        before, codons, rest, behind = chance.randrange(4), chance.randrange(2, 40), chance.choice((0, 0, 0, 1, 2)), chance.randrange(9)
        end = 2 if rest else chance.choice((0, 0, 0, 1))
        plenty = "ACGT" * (1 if chance.random() < 0.5 else 12) + ("" if chance.random() < 0.5 else "".join(account.LETTERS))
        letters = "".join(chance.choice(plenty) for _ in range(before + 3 * codons + rest + (0 if end else behind)))
        cs, ce = before + 1, before + 3 * codons + rest
        if end == 0:
            letters = letters[:ce - 3] + chance.choice(("TAA", "TAG", "TGA", "TAR")) + letters[ce:]
        exceptions = sorted({(chance.randrange(1, codons), chance.choice("UKX")) for _ in range(chance.choice((0, 0, 1, 3)))}, key=lambda x: x[0])
        exceptions = [x for i, x in enumerate(exceptions) if i == 0 or exceptions[i - 1][0] != x[0]]
        first = chance.randrange(cs - 1, ce) if chance.random() < 0.8 else chance.randrange(cs)
        last = first + (chance.randrange(8) if chance.random() < 0.6 else chance.randrange(len(letters)))
        last = last if last < len(letters) or chance.random() < 0.1 else len(letters) - 1
        kind = chance.choice(account.KINDS)
        if kind == "substitution":
            last = first
        if kind == "insertion":
            last = first + 1
        bases = "".join(chance.choice("ACGTACGTACGTRYN") for _ in range({"substitution": 1, "delins": 5, "insertion": 7}.get(kind, 0)))
        edit = account.Edit(kind, position(first, cs, ce), position(last, cs, ce), bases)
        table, longest = chance.choice((0, 0, 0, 1, 2)), chance.choice((0, 0, 0, 0, 4, 5, 7, 4096, 4097))
        room, proposal = fitted(chance, account.Reference(letters, cs, ce, table, exceptions, end), edit)
        for form, data in ((1, packed(letters)), (0, letters.encode())):
            yield case(data, form, len(letters), cs, ce, edit, room, table, exceptions, end, proposal, longest)


def others(count, seed):
    """Random references in both forms, some of them damaged, for the functions that take two edits, a named base, two references, or write a stored form."""
    chance = random.Random(seed)
    cases = list(randomly(count, seed))
    for i, c in enumerate(cases):
        data, form, size, cs, ce = c[:5]
        if form == 1 and chance.random() < 0.2:
            place = chance.randrange(len(data))
            data = chance.choice((data[:place] + bytes([chance.randrange(256)]) + data[place + 1:], data[:-1], data + b"\0", data[:-1] + bytes([data[-1] & 240])))
            c = (data, form, size + chance.choice((0, 0, 0, 1, -1))) + c[3:]
        behind = min(c[8].end[1] + 2, ce - cs + 1)
        second = chance.choice((account.Edit("deletion", ("", behind), ("", behind)), account.Edit("identity", ("", 1), ("", 1)),
                                account.Edit("duplication", ("", behind), ("", behind)), account.Edit("substitution", ("", 1), ("", 1), "C")))
        other = chance.choice((c, cases[chance.randrange(len(cases))], cases[i ^ 1]))
        named = chance.choice(b"ACGTACGTN") if c[8].kind == "substitution" else 0
        listed = chance.choice((0, 4, 4096))
        yield c, second, named, other, (listed, chance.choice((0, len(data), 4096)))


def longest_ones(seed):
    """References of the greatest lengths, in one form, with edits at their beginning, in their middle and near their end."""
    chance = random.Random(seed)
    for size in (65537, account.LONGEST - 1, account.LONGEST):
        cs = 1 + size % 2
        ce = cs - 1 + (size - 8) // 3 * 3
        codons = [chance.choice(("GCC", "AAR", "TGG", "NNN", "CAY", "ATG")) for _ in range((ce - cs + 1) // 3 - 1)]
        letters = "C" * (cs - 1) + "".join(codons) + "TAA" + "G" * (size - ce)
        for kind, start, end, bases in (("substitution", 8, 8, "G"), ("inversion", 1000, ce - cs - 1000, ""), ("deletion", ce - cs - 9, ce - cs - 7, ""), ("duplication", 5, ce - cs, "")):
            edit = account.Edit(kind, ("", start), ("", end), bases)
            yield case(packed(letters), 1, size, cs, ce, edit, (account.LONGEST * 2, account.LONGEST // 3 + 1, account.LONGEST))


def long_others(seed):
    """The other functions on the longest of them, and on its other form with another letter."""
    first = list(longest_ones(seed))[-4]
    data, _, size, cs, ce = first[:5]
    letters = bytearray(account.held(1, size, data).encode())
    letters[70000] = ord("G") if letters[70000] != ord("G") else ord("C")
    other = case(bytes(letters), 0, 0, cs, ce, IDENTITY)
    behind = account.Edit("deletion", ("", ce - cs - 9), ("", ce - cs - 7))
    yield first, behind, ord("A"), other, (4096, size + 64)
    yield other[:8] + first[8:], behind, ord("A"), first, (4096, size + 64)


def packing(command):
    """The helper of the header: all bytes, all lengths to 40, and a letter that is none at each place."""
    texts = [bytes([b]) for b in range(256)] + [bytes("ACGTRYSWKMBDHVN" * 3, "ascii")[:n] for n in range(41)]
    texts += [b"ACGTN"[:i] + bytes([b]) + b"ACGTN"[i:] for i in range(6) for b in b"aUX?\0\xff"]
    got, at = run(command, b"".join(b"p" + string(t) for t in texts)), 0
    for t in texts:
        good, room = all(chr(b) in account.LETTERS for b in t), (len(t) + 1) // 2
        data = packed(t.decode()) if good else filled(room)
        want = number(0 if good else 2) + number(room if good else 0) + number(15 if t else 0) + number(0) + data + filled(room)
        if got[at:at + len(want)] != want:
            sys.exit(f"packed: garumbott_pack of {t!r}: {got[at:at + len(want)]!r}, not {want!r}")
        at += len(want)
    print(f"packed: {len(texts)} strings packed")


# BAM: blocks of gzip members with a field that tells their length

def block(data):
    squeezed = zlib.compressobj(6, zlib.DEFLATED, -15)
    body = squeezed.compress(data) + squeezed.flush()
    return (b"\x1f\x8b\x08\x04\0\0\0\0\0\xff\x06\0BC\x02\0" + struct.pack("<H", len(body) + 25) + body + struct.pack("<II", zlib.crc32(data), len(data)))


def reads(bam):
    """Of each read its name, its number of letters, where its packed letters stand in the file's bytes, and these."""
    head = struct.unpack_from("<i", bam, 4)[0] + 8
    count, at = struct.unpack_from("<i", bam, head)[0], head + 4
    for _ in range(count):
        at += 8 + struct.unpack_from("<i", bam, at)[0]
    while at < len(bam):
        size = struct.unpack_from("<i", bam, at)[0]
        name_len, cigars, letters = bam[at + 12], *struct.unpack_from("<H", bam, at + 16), struct.unpack_from("<i", bam, at + 20)[0]
        first = at + 36 + name_len + 4 * cigars
        yield bam[at + 36:at + 35 + name_len].decode(), letters, first, bam[first:first + (letters + 1) // 2]
        at += 4 + size


def bam(samtools, command):
    chance = random.Random(10)
    coding = "ATG" + "".join(chance.choice("ACGT" * 25 + "RYSWKMBDHVN") for _ in range(3 * 4994)).replace("TGA", "TGC").replace("TAA", "TAC").replace("TAG", "TAC")
    long = "GATTACA" + coding[:len(coding) // 3 * 3] + "TAA" + "ACGTNRY" * 50
    wanted = {"worked": WORKED[0], "long": long, "odd": long[:-1]}
    sam = "@HD\tVN:1.6\n" + "".join(f"{n}\t4\t*\t0\t0\t*\t*\t0\t0\t{s}\t*\n" for n, s in wanted.items())
    with tempfile.TemporaryDirectory() as work:
        path = os.path.join(work, "letters.bam")
        subprocess.run([samtools, "view", "-b", "-o", path, "-"], input=sam.encode(), check=True)
        with gzip.open(path) as f:
            whole = f.read()
        found = {name: (n, at, data) for name, n, at, data in reads(whole)}
        if sorted(found) != sorted(wanted):
            sys.exit("packed: the BAM has other reads")
        bounds = {"worked": WORKED[1:], "long": (8, 7 + len(coding) // 3 * 3 + 3), "odd": (8, 7 + len(coding) // 3 * 3 + 3)}
        calls = 0
        for name, letters in wanted.items():
            n, _, data = found[name]
            cs, ce = bounds[name]
            room = (2 * len(letters), len(letters), len(letters))
            edits = [account.Edit("substitution", ("", 8), ("", 8), "G"), account.Edit("deletion", ("", 5), ("", 5)), account.Edit("duplication", ("", 4), ("", 6)),
                     account.Edit("inversion", ("", 2), ("", 12)), account.Edit("insertion", ("", 9), ("", 10), "TAG"), IDENTITY]
            for edit in edits:
                as_bam = run(command, told(case(data, 1, n, cs, ce, edit, room)))
                as_text = run(command, told(case(letters.encode(), 0, 0, cs, ce, edit, room)))
                if as_bam != as_text or struct.unpack(">Q", as_bam[8:16])[0] != 0:
                    sys.exit(f"packed: {name} {vars(edit)}: the letters of the BAM get another answer than the text, or a refusal")
                calls += 1
        # the other way: letters that garumbott_pack packed, in the place of samtools' own, read by samtools
        other = {name: "".join(chance.choice("ACGTRYSWKMBDHVN") for _ in letters) for name, letters in wanted.items()}
        mixed = bytearray(whole)
        for name, letters in other.items():
            n, at, data = found[name]
            ours = run(command, b"p" + string(letters.encode()))[32:32 + len(data)]
            mixed[at:at + len(data)] = ours
        with open(path, "wb") as f:
            f.write(b"".join(block(bytes(mixed[i:i + 60000])) for i in range(0, len(mixed), 60000)) + block(b""))
        lines = subprocess.run([samtools, "view", path], stdout=subprocess.PIPE, check=True).stdout.decode().splitlines()
        back = {line.split("\t")[0]: line.split("\t")[9] for line in lines}
        if back != other:
            sys.exit("packed: samtools reads other letters than garumbott_pack packed")
    print(f"packed: {calls} edits of letters that samtools packed, {len(other)} transcripts that it read back")


if sys.argv[1] == "bam":
    bam(sys.argv[2], sys.argv[3:])
else:
    packing(sys.argv[1:])
    compare(sys.argv[1:], bytewise(), "every byte in each place, wrong sizes and forms")
    compare(sys.argv[1:], randomly(4000, 1), "random references in both forms")
    compare(sys.argv[1:], others(3000, 2), "two edits, the profile, two editions, a stored form", told_others, expected_others)
    compare(sys.argv[1:], longest_ones(3), "transcripts of up to 131,072 letters")
    compare(sys.argv[1:], long_others(3), "the others on the longest", told_others, expected_others)
    compare(sys.argv[1:], [case(b"", 1, 0, 1, 0, IDENTITY, room=(0, 0, 0))], "no letter")
    short(sys.argv[1:])
