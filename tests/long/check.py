"""Transcripts up to 131,072 bases through C (calls.c), against the second account of the documents (tests/account): around each length at which the stored form
changes, edits near both ends of a short CDS and of one that is nearly all letters, and of CDSs of 107,000 and 107,001 bases; stored forms of these references, with
buffers that are empty, a byte too short, exact and longer; the inputs that decide the request's clauses, with the answers that they must have; and forms in two and
three letter fields damaged in each field. Every number must be the account's, every buffer's content by its CRC-32, and no other byte may have changed.
Prints how much was compared; exits 1 at a difference, and tells the first.

    python3 tests/long/check.py COMMAND..    COMMAND is the compiled calls.c, behind an emulator where one is wanted
"""
import subprocess
import sys
import zlib

sys.path.insert(0, "tests/account")
import account

LENGTHS = [16383, 16384, 16385, 16386, 65534, 65535, 65536, 65537, 131069, 131070, 131071, 131072, 131073]
CLASSES = "start-lost extension stop-gained frameshift substitution deletion duplication insertion delins".split()
CODONS = "GCC AAA TGG TTC GAT CAG ACR CTG RAY GTA ATA AGC TGY".split()  # none of them a stop
FULL = account.FULL


# References

def coding(codons):
    """ATG, then so many codons but one, and no stop."""
    return "ATG" + ("".join(CODONS) * (codons // len(CODONS) + 1))[:3 * (codons - 1)]


def short_cds(size):
    return account.Reference("ATGTAA" + "C" * (size - 6), 1, 6, 0)


def long_cds(size):
    """A CDS over all letters but two to four: one before it, the others behind."""
    codons = (size - 2) // 3
    letters = "G" + coding(codons - 1) + "TAA"
    return account.Reference(letters + "C" * (size - len(letters)), 2, 3 * codons + 1, 0)


def edit(text):
    return account.edit_line(text) or far_edit(text)


def far_edit(text):
    """An edit whose positions have more than five digits: the text program's form without the limit of its numbers."""
    def position(part):
        sign = part[0] if part[0] in "-*" else ""
        return sign, int(part[len(sign):])
    at = next(i for i, c in enumerate(text) if c not in "0123456789-*_")
    start, _, end = text[:at].partition("_")
    like = account.edit_line("1_2" + text[at:] if text[at:].startswith("ins") else "1" + text[at:] if ">" in text[at + 1:] else "1_2" + text[at:])
    return account.Edit(like.kind, position(start), position(end or start), like.bases)


def short_edits(ref):
    behind = len(ref.letters) - ref.ce
    near = min(behind, 65535)
    return ["2T>C", "4T>C", "1_3del", "5del", f"4_*{near}del", f"1_*{near}dup", "1_6dup", f"4_*{behind}del", "6_*1del", "1_*65535dup", "3_4insTAG"]


def long_edits(ref):
    n = ref.ce - ref.cs + 1
    return ["5C>T", "4_6del", "5del", "4_6dup", "1_2dup", f"{n - 3}A>G", f"{n - 2}T>C", f"{n - 5}_{n - 3}del", f"{n - 4}del", f"{n - 5}_{n - 3}dup", f"1_{n - 3}dup",
            f"-1_{n}del", f"{n}_*1del", f"{n + 1}A>C"]


def middle():
    """CDSs of 107,001 bases, the last codon a stop, with letters before and behind; and of 107,000, cut in a codon."""
    whole = coding(35666) + "TAA"
    yield account.Reference("G" * 12000 + whole + "C" * (131072 - 12000 - len(whole)), 12001, 12000 + len(whole), 0), 107001
    yield account.Reference("G" * 7 + coding(35667)[:107000], 8, 107007, 0, [], account.CUT_CODON), 107000
    exceptions = [(2, "U"), (21844, "K"), (35666, "X")]
    yield account.Reference("G" * 12000 + whole + "C" * 71, 12001, 12000 + len(whole), 2, exceptions), 107001


def middle_edits(ref):
    n = ref.ce - ref.cs + 1
    return ["2T>C", "7del", "4_6dup", f"{n - 6}_{n - 4}del", f"{n - 8}_{n - 6}dup", f"{n - 4}A>G", f"{n - 1}_{n}insCA", f"{n}_*1del"]


# What the account answers to an edit

def numbers_of(ref, checked, e):
    """The fourteen numbers, and the bytes of the three buffers."""
    try:
        if isinstance(checked, int):
            raise account.Refused(checked)
        record, altered = account.answer(ref, e)
    except account.Refused as refusal:
        return [0, refusal.number] + [0] * 12, (b"", b"", b"")
    if altered is None:
        return [1] + [0] * 13, (b"", b"", b"")
    buffers = tuple(x.encode() for x in (altered.transcript, ref.protein, altered.protein))
    kind = {"no-protein": 2, "silent": 3}.get(record.word, 4)
    change = CLASSES.index(record.word) + 1 if kind == 4 else 0
    codons = altered.looked_up(ref) if kind > 2 else 0
    return [kind, 0, int(altered.flag), *map(len, buffers), change, record.number, *record.deleted, *record.inserted, record.first, codons], buffers


# Stored forms

def field(tag, content):
    return bytes([tag, len(content) >> 8, len(content) & 255]) + content


def bounds(tag, cs, ce):
    return field(tag, b"".join(n.to_bytes(4 if tag == 7 else 2, "big") for n in (cs, ce)))


def letter_fields(letters):
    """Tags 1, 5 and 6, each full before the next."""
    data = letters.encode("latin-1")
    return field(1, data[:FULL]), (field(5, data[FULL:2 * FULL]) if len(data) > FULL else b""), (field(6, data[2 * FULL:]) if len(data) > 2 * FULL else b"")


def form(letters, cs, ce, tag=None, rest=b""):
    """As document 02 writes it, with bounds under a tag of one's choice."""
    one, five, six = letter_fields(letters)
    tag = tag or (7 if len(letters) > 16384 else 2)
    table = field(3, b"\0")
    return one + (bounds(2, cs, ce) if tag == 2 else b"") + table + five + six + (bounds(7, cs, ce) if tag == 7 else b"") + rest


def rows():
    """Bytes, room, and what must be answered: a refusal's number, or 0 and whether the letters are joined."""
    plain = lambda size: "ATGTAA" + "C" * (size - 6)
    table, full = field(3, b"\0"), field(1, b"ATGTAA" + b"C" * (FULL - 6))
    yield form(plain(65535), 1, 6), 0, (0, 0)
    yield form(plain(65536), 1, 6), 65535, 29
    yield form(plain(65536), 1, 6), 65536, (0, 1)
    yield form(plain(65535) + "?", 1, 6), 0, 2
    yield form("C" * 65528 + "ATGGCCTCACC", 65529, 65537), 0, 6
    yield form("C" * 65528 + "ATGGCCTAACC", 65529, 65537), 0, 29
    yield form("C" * 65528 + "ATGGCCTAACC", 65529, 65537), 65539, (0, 1)
    yield form("C" * 65527 + "ATGGCCTAACC", 65528, 65536), 65538, (0, 1)
    yield form("C" * 65527 + "ATGGCCTACCC", 65528, 65536), 65538, 6
    yield form("C" * 131063 + "ATGGCCTAA", 131064, 131072), 131072, (0, 1)
    yield form("C" * 131063 + "ATGGCCTAC", 131064, 131072), 131072, 6
    yield form("C" * 131062 + "ATGGCCTAAC", 131063, 131071), 131072, (0, 1)
    yield field(1, b"") + table + bounds(7, 1, 6), 0, 25
    yield field(1, b"") + bounds(2, 1, 6) + table, 0, 1
    yield form(plain(131073), 1, 6), 131073, 1
    yield form(plain(16385), 1, 6, 2), 0, 25
    yield form(plain(16385), 1, 6, 7), 0, (0, 0)
    yield form(plain(16384), 1, 6, 7), 0, 25
    yield form(plain(16384), 1, 6, 2), 0, (0, 0)
    yield form(plain(65536), 1, 6, 2), 65536, 25
    yield field(1, b"ATG") + bounds(2, 1, 6) + table + field(5, b"TAA"), 100, 25
    yield full + table + field(6, b"CC") + bounds(7, 1, 6), 131072, 25
    yield full[:1] + b"\xff\xfe" + full[3:-1] + table + field(5, b"CC") + bounds(7, 1, 6), 131072, 25
    yield full + table + field(5, b"C" * (FULL - 1)) + field(6, b"CC") + bounds(7, 1, 6), 131072, 25
    yield field(1, b"ATGTAA") + bounds(2, 1, 6) + table + bounds(7, 1, 6), 0, 25
    yield field(1, b"ATGTAA") + table, 0, 22
    yield full + field(5, b"CC") + bounds(7, 1, 6), 131072, 22
    yield table + field(5, b"CC") + bounds(7, 1, 6), 131072, 22
    yield full + table + field(5, b"") + bounds(7, 1, 6), 131072, 23
    yield full + table + field(5, b"C" * FULL) + field(6, b"") + bounds(7, 1, 6), 131072, 23
    yield field(1, plain(20000).encode()) + table + field(7, b"\0\1\0\6"), 0, 23
    for cs, ce in ((65537, 65542), (2 ** 24 + 1, 2 ** 24 + 6), (2 ** 32 - 6, 2 ** 32 - 1), (1, 65542), (65537, 6), (2 ** 31 + 1, 2 ** 31 + 6)):
        yield form(plain(20000), cs, ce), 0, 3
    yield form("C" * 66000 + "ATGTAA", 66001, 66006), 66006, (0, 1)
    yield form("C" * 66000 + "ATGTAA", 66001 - 65536, 66006 - 65536), 66006, 6
    late = "ATG" + "C" * 16383
    yield form(late, 1, len(late), rest=field(8, b"\1")), 0, (0, 0)
    yield field(1, late.encode()) + table + field(8, b"\1") + bounds(7, 1, len(late)), 0, 21
    stop = "ATG" + "C" * 65532 + "TAA"
    yield form(stop, 1, len(stop), rest=field(8, b"\1")), 0, 28
    yield form(stop, 1, len(stop)), 0, 29
    stop = "ATG" + "C" * 131064 + "TAA"
    yield form(stop, 1, len(stop), rest=field(8, b"\1")), 131069, 28
    yield form(stop + "C", 1, len(stop) + 1, rest=field(8, b"\2")), 131070, 28
    yield form("ATG" + "C" * 131069, 1, 131072, rest=field(8, b"\2")), 131071, 29
    yield form("ATG" + "C" * 131069, 1, 131072, rest=field(8, b"\2")), 131072, (0, 1)


def at_lengths():
    for size in LENGTHS:
        for ref in (short_cds(size), long_cds(size)):
            for room in (0, size - 1, size, size + 60):
                yield account.stored_form(ref), room


def split(data):
    """The fields of a form that isn't cut off."""
    out, at = [], 0
    while at < len(data):
        size = 3 + data[at + 1] * 256 + data[at + 2]
        out.append(data[at:at + size])
        at += size
    return out


def damaged():
    two, three = long_cds(65540), long_cds(131072)
    two.exceptions = three.exceptions = [(2, "U"), (300, "K")]
    cut = account.Reference("GG" + coding(21850)[:65539], 3, 65541, 0, [(7, "U")], account.CUT_CODON)
    for ref, many in ((two, True), (three, False), (cut, False)):
        ref.check()
        size = len(ref.letters)
        fields = split(account.stored_form(ref))
        whole = b"".join(fields)
        for i, f in enumerate(fields):
            before, behind = b"".join(fields[:i]), b"".join(fields[i + 1:])
            for tag in range(10) if many else (0, 2, 5, 6, 7, 8, 9):
                yield before + bytes([tag]) + f[1:] + behind, size
            for place in (1, 2):
                for change in ((1, -1, 2, 3, 128, 255 - f[place]) if many else (1, -1, 128)):
                    yield before + f[:place] + bytes([(f[place] + change) % 256]) + f[place + 1:] + behind, size
            for length in sorted({0, 1, 2, 3, 4, len(f) // 2, len(f) - 1}):
                yield before + f[:length], size  # cut, and nothing behind
                yield before + f[:length] + behind, size  # cut, and the others behind
            content = f[3:]
            if f[0] in (1, 5, 6):
                for content in (content[:-1], content[:-3], content[1:], content[:1], b""):
                    yield before + field(f[0], content) + behind, size
                for place in (3, len(f) - 1):
                    for letter in b"?Uac*\0\xff":
                        yield before + f[:place] + bytes([letter]) + f[place + 1:] + behind, 0
            else:
                for place in range(3, len(f)):
                    for value in (0, 1, 2, 3, 42, 255):
                        yield before + f[:place] + bytes([value]) + f[place + 1:] + behind, size
            yield before + behind, size
            yield before + f + f + behind, size
            yield whole + f, size
            for j in range(i):
                swapped = fields[:]
                swapped[i], swapped[j] = fields[j], fields[i]
                yield b"".join(swapped), size
        yield whole, size
        yield whole, size - 1
        yield whole + b"\x09", size
        yield whole + b"\x08\0", size


def read(data, room):
    """The ten numbers, the letters, the exceptions, the buffer's state and the form written again."""
    try:
        ref = account.stored(data, room)
    except account.Refused as refusal:
        return [refusal.number] + [0] * 9, b"", b"", 0, b""
    places, at = {}, 0
    for f in split(data):
        places[f[0]], at = (at + 3, len(f) - 3), at + len(f)
    joined, listed = int(5 in places), places.get(4, (0, 0))
    numbers = [0, ref.cs, ref.ce, ref.table, 0 if joined else places[1][0], len(ref.letters), *listed, ref.end, joined]
    return numbers, ref.letters.encode(), data[listed[0]:listed[0] + listed[1]], joined, account.stored_form(ref)


# The comparison

def eight(n):
    return (n % 2 ** 64).to_bytes(8, "big")


def text(s):
    return eight(len(s)) + s


def sent_reference(ref):
    listed = b"".join(n.to_bytes(2, "big") + x.encode() for n, x in ref.exceptions)
    return b"".join([eight(1), text(ref.letters.encode()), eight(ref.cs), eight(ref.ce), eight(ref.table), text(listed), eight(ref.end)])


def sent_edit(e):
    ends = b"".join(eight(sign == "*") + eight(-n if sign == "-" else n) for sign, n in (e.start, e.end))
    return eight(2) + eight(account.KINDS.index(e.kind) + 1) + ends + text(e.bases.encode())


def shown(data):
    parts, at = [], 0
    while at < len(data) and len(parts) < 9:
        size = int.from_bytes(data[at + 1:at + 3], "big")
        parts.append(f"tag {data[at]} of {size}" + (f" {data[at + 3:at + 3 + size].hex()}" if size < 13 else ""))
        at += 3 + size
    return f"{len(data)} bytes: " + ", ".join(parts)


def jobs():
    """What is sent, and how the answer is named and judged: a list of the numbers wanted, and what counts it."""
    sum_of = zlib.crc32
    references = [(short_cds(size), short_edits, "edits of a short CDS") for size in LENGTHS] + [(long_cds(size), long_edits, "edits of a long CDS") for size in LENGTHS]
    for ref, size in middle():
        if ref.ce - ref.cs + 1 != size:
            sys.exit(f"a CDS of {ref.ce - ref.cs + 1} bases, not {size}")
        references.append((ref, middle_edits, "edits of CDSs of 107,000 bases"))
    references.append((account.Reference("ATG" + "C" * 131064 + "TAACC", 1, 131070, 0), lambda ref: ["1_*2dup"], "edits of a long CDS"))
    for ref, edits, part in references:
        turn = LENGTHS.index(len(ref.letters)) % 4 if len(ref.letters) in LENGTHS[4:12] and edits is not middle_edits else None
        try:
            checked = ref.check()
        except account.Refused as refusal:
            checked = refusal.number
        yield sent_reference(ref), None, None, None
        for i, name in enumerate(edits(ref)):
            if turn is not None and i % 4 != turn and name != "1_*2dup":
                continue  # the four lengths of a group share the edits out
            e = edit(name)
            numbers, buffers = numbers_of(ref, checked, e)
            if name == "1_*2dup" and numbers[3] != 262144:
                sys.exit(f"the account makes {numbers[3]} letters of 131,072 by 1_*2dup")
            want = numbers + [n for b in buffers for n in (sum_of(b), 1)] + [1]
            yield sent_edit(e), want, part, f"{len(ref.letters)} letters, cs {ref.cs}, ce {ref.ce}, {name}"
    stored = [(data, room, "stored forms at the lengths", None) for data, room in at_lengths()]
    stored += [(data, room, "rows", want) for data, room, want in rows()]
    stored += [(data, room, "damaged forms", None) for data, room in damaged()]
    for data, room, part, decided in stored:
        numbers, letters, exceptions, state, again = read(data, room)
        if decided is not None and decided != (numbers[0] or (0, numbers[9])):
            sys.exit(f"the account answers {numbers} to {shown(data)}, room {room}; {decided} is decided")
        want = numbers + [sum_of(letters), sum_of(exceptions), state, len(again), sum_of(again)]
        yield eight(3) + text(data) + eight(room), want, part, f"{shown(data)}, room {room}"
    for size in (16384, 16385):
        line = f"ref 1 6 0 {short_cds(size).letters}\n2T>C\n".encode()
        out = account.run(line)
        if (out == b"refused 1\n") != (size == 16385):
            sys.exit(f"the account's text program answers {out[:60]!r} to {size} letters")
        yield eight(4) + text(line), [0, len(out), sum_of(out)], "texts", f"a text with {size} letters"


def main(command):
    program = subprocess.Popen(command, stdin=subprocess.PIPE, stdout=subprocess.PIPE)
    counts, met, differences = {}, {}, 0
    for data, want, part, name in jobs():
        program.stdin.write(data)
        if want is None:
            continue
        program.stdin.flush()
        got = program.stdout.read(8 * len(want))
        got = [int.from_bytes(got[i:i + 8], "big") for i in range(0, len(got), 8)]
        if got != want:
            print(f"{part}: {name}\n  the library: {got}\n  the account: {want}", flush=True)
            differences += 1
            if len(got) < len(want) or differences == 5:
                return 1
        counts[part] = counts.get(part, 0) + 1
        refusal = want[1] if "edits" in part else want[0]
        met.setdefault(part, {}).setdefault(refusal, []).append(name)
    program.stdin.close()
    if program.stdout.read() or program.wait() != 0:
        sys.exit("the program failed, or wrote more than it was asked")
    for part, n in counts.items():
        print(f"{n} {part}: " + ", ".join((f"{len(names)} refused {r}" if r else f"{len(names)} answered") for r, names in sorted(met[part].items())))
    missing = [n for n in (1, 2, 3, 4, 5, 6, 20, 21, 22, 23, 25, 28, 29) if n not in met["damaged forms"] and n not in met["rows"]]
    if missing:
        sys.exit(f"not met: {missing}")
    return 1 if differences else 0


sys.exit(main(sys.argv[1:]))
