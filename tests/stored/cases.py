"""The cases of the program vectors_stored, and what the second account of documents 01 and 02 (tests/account) says of them.

cases.py stdin    the program's input: names, stored bytes and edits, each string behind the two bytes of its length
cases.py stdout   what the program must print
"""
import sys

sys.path.insert(0, "tests/account")
import account


def field(tag, content):
    return bytes([tag, len(content) // 256, len(content) % 256]) + content


def bounds(cs, ce):
    return field(2, bytes([cs // 256, cs % 256, ce // 256, ce % 256]))


def form(letters, cs, ce, table=0, exceptions=None, end=None):
    """A stored reference; exceptions are pairs of a codon and a residue's byte."""
    data = field(1, letters) + bounds(cs, ce) + field(3, bytes([table]))
    if exceptions is not None:
        data += field(4, b"".join(bytes([codon // 256, codon % 256, residue]) for codon, residue in exceptions))
    return data if end is None else data + field(8, bytes([end]))


WHOLE = form(b"CCATGTGAAAATACG", 3, 14, 1, [(2, ord("W")), (4, ord("*"))])
FIELDS = {1: field(1, b"ATGTAA"), 2: bounds(1, 6), 3: field(3, b"\0"), 4: field(4, b"\0\1U")}


def changed():
    """One stored reference: cut at each byte, changed in each byte, with bytes behind it, and damaged in three places."""
    for n in range(len(WHOLE) + 1):
        yield f"cut {n}", WHOLE[:n]
    for i, b in enumerate(WHOLE):
        for value in sorted(set(range(7)) | {255, (b + 1) % 256, (b - 1) % 256}):
            yield f"byte {i} is {value}", WHOLE[:i] + bytes([value]) + WHOLE[i + 1:]
    for value in (0, 1, 4, 5, 255):
        for more in range(1, 7):
            yield f"behind it {more} of {value}", WHOLE + bytes([value]) * more
    state = 1
    for number in range(200):
        data = bytearray(WHOLE)
        for _ in range(3):
            state = (state * 1103515245 + 12345) % 2**31
            data[state // 65536 % len(data)] = (0, 1, 2, 3, 4, 6, 65, 84)[state // 4096 % 8]
        yield f"damaged {number}", bytes(data)


def built():
    """Fields in every order, of every length, with such exceptions, between such bounds, of such a size."""
    for count in range(5):
        for number in range(4**count):
            tags = [number // 4**i % 4 + 1 for i in range(count)]
            yield "order" + "".join(f" {t}" for t in tags), b"".join(FIELDS[t] for t in tags)
    sized = {1: b"ATGTAAAA", 2: b"\0\1\0\6\0\1\0\6", 3: b"\0\1\2\3\4\5\6\7", 4: b"\0\1U\0\2*\0\3"}
    for tag, content in sized.items():
        for n in range(9):
            yield f"length of {tag} is {n}", b"".join(field(tag, content[:n]) if t == tag else FIELDS[t] for t in FIELDS)
    for count in range(19):
        yield f"exceptions {count}", form(b"ATG" + b"AAA" * 16 + b"TAA", 1, 54, 0, [(i + 1, ord("U")) for i in range(count)])
    singles = [[(codon, r)] for codon in (0, 1, 2, 3, 4, 256, 257) for r in b"()*+,?@ABUYZ[`az"]
    pairs = [[(a, r), (b, ord("*"))] for a in range(5) for b in range(5) for r in b"U*"]
    triples = [[(a, ord("U")), (b, ord("W")), (c, ord("*"))] for a in range(4) for b in range(4) for c in range(4)]
    for exceptions in singles + pairs + triples:
        yield "codons" + "".join(f" {n} {chr(r)}" for n, r in exceptions), form(b"ATGAAATAA", 1, 9, 0, exceptions)
    for cs in list(range(11)) + [256, 257, 65535]:
        for ce in list(range(11)) + [256, 265, 65535]:
            yield f"bounds {cs} {ce}", form(b"ATGATGTAA", cs, ce)
    for letters in ("ATGTAA", "ATGTGA", "ATGAGA", "ATGTRA", "ATGAGR", "ATGTAN", "ATGTUA", "ATGtaa"):
        for table in (0, 1, 2, 3, 4, 255):
            yield f"table {table} of {letters}", form(letters.encode(), 1, 6, table)
    for size in (6, 255, 256, 257, 16383, 16384, 16385):
        yield f"size {size}", form(b"A" * (size - 3) + b"TAA", size % 3 + 1, size)


def spelled():
    """One byte string after another: fields cut off, unknown tags, fields missing, wrong lengths, the order of these; then references that break a rule."""
    one, two, three = FIELDS[1], FIELDS[2], FIELDS[3]
    whole, empty = one + two + three, field(4, b"")
    head = lambda tag, size: bytes([tag, size // 256, size % 256])
    cut = [head(1, 1), head(1, 256), one[:-1], one + b"\2", one + head(2, 4), one + two + head(3, 1)]
    cut += [whole + b for b in (b"\5", b"\3", b"\4", b"\0", b"\1", b"\377", b"\4\0", b"\5\0", head(4, 3), head(4, 3) + b"\0\1", head(5, 3))]
    tags = [b"\0", b"\5", head(0, 0), head(5, 0), whole + empty + empty, whole + head(5, 0), whole + head(0, 0), whole + empty + b"\n"]
    missing = [two + three + empty, empty, one + two + empty]
    sizes = [one + field(2, b"\0\1\0") + three, one + field(2, b"\0\1\0\6\0") + three, one + head(2, 5) + two[3:], one + field(2, b"\0\1\0\6\0")]
    sizes += [one + head(2, 0) + three, one + two + head(3, 0), one + two + field(3, b"\0\0"), whole + field(4, b"\0\1M\0"), head(2, 0)]
    order = [one + head(2, 0) + b"\5", one + head(2, 0) + b"\3", one + head(3, 0) + two, three + b"\2", head(2, 9 * 257), one + head(1, 9 * 257)]
    order += [one + head(5, 0) + b"\2"]
    rules = [field(1, letters) + two + three for letters in (b"", b"ATGUAA", b"ATGtAA")]
    rules += [one + bounds(cs, ce) + three for cs, ce in ((0, 6), (256, 1536), (6, 1), (1, 262))]
    rules += [field(1, b"ATGUAA") + bounds(0, 6) + three]
    rules += [form(b"ATGTAA", 1, 6, 0, [(n, ord("W")) for n in range(1, 18)])]
    rules += [form(b"ATGTAA", 1, 6, 0, [(n, ord(r)) for n, r in es]) for es in
              ([(2, "*")], [(0, "U")], [(3, "U")], [(257, "U")], [(1, "a")], [(2, "U")], [(2, "*"), (1, "U")], [(1, "U"), (1, "U")])]
    for data in cut + tags + missing + sizes + order + rules:
        yield f"spelled {data.hex()}", data
    yield "high bytes", form(b"C" * 256 + b"ATG" + b"A" * 768 + b"TAA", 257, 1030, 2, [(255, ord("U")), (257, ord("O"))])


def ended():
    """Tag 8: a reference cut at each byte and changed in each; its field in every place, of every length and content, beside unknown tags; and ends that fit and don't."""
    whole = form(b"CATGTGAAAATA", 2, 12, 1, [(2, ord("W"))], 2)
    for n in range(len(whole) + 1):
        yield f"cut {n} of an end", whole[:n]
    for i, b in enumerate(whole):
        for value in sorted({0, 1, 2, 3, 4, 5, 8, 255, (b + 1) % 256, (b - 1) % 256}):
            yield f"byte {i} of an end is {value}", whole[:i] + bytes([value]) + whole[i + 1:]
    fields = {1: field(1, b"ATGGCC"), 2: bounds(1, 6), 3: field(3, b"\0"), 4: field(4, b"\0\1U"), 8: field(8, b"\1")}
    for count in range(1, 4):
        for number in range(5**count):
            tags = [(1, 2, 3, 4, 8)[number // 5**i % 5] for i in range(count)]
            if 8 in tags:
                yield "order" + "".join(f" {t}" for t in tags), b"".join(fields[t] for t in tags)
    for order in ((1, 2, 3, 8), (1, 2, 8, 3), (8, 1, 2, 3), (1, 2, 4, 8), (1, 2, 3, 8, 8), (1, 2, 3, 4, 8), (1, 2, 3, 8, 4), (1, 2, 3, 4, 8, 8), (8, 1, 2, 3, 4)):
        yield "order" + "".join(f" {t}" for t in order), b"".join(fields[t] for t in order)
    six, seven = form(b"ATGGCC", 1, 6), form(b"ATGGCCA", 1, 7)
    for n in range(5):
        for byte in range(4):
            yield f"length of 8 is {n}, of {byte}", six + field(8, bytes([byte]) * n)
    for content in list(range(12)) + [49, 50, 127, 128, 129, 254, 255]:
        yield f"8 is {content} of ATGGCC", six + field(8, bytes([content]))
        yield f"8 is {content} of ATGGCCA", seven + field(8, bytes([content]))
    for tag in (5, 6, 7, 9, 16, 136, 255):
        for content in (b"", b"\1"):
            yield f"tag {tag} of {len(content)}", six + field(tag, content)
            yield f"tag {tag} of {len(content)} before 8", six + field(tag, content) + field(8, b"\1")
            yield f"tag {tag} of {len(content)} behind 8", six + field(8, b"\1") + field(tag, content)
    for end in (None, 1, 2):
        for letters in (b"ATGTAA", b"ATGGCC", b"ATGGCCA", b"ATGGCCAA", b"ATGTAAGCC", b"TAAGCCAA", b"ATGTRA", b"ATGAGR", b"ATGNNN", b"ATGGCU", b"ATGGC", b""):
            for table in range(4):
                yield f"end {end} of {letters.decode()} table {table}", form(letters, 1, len(letters), table, None, end)
        for cs in range(5):
            for ce in range(5, 11):
                yield f"end {end} of bounds {cs} {ce}", form(b"ATGATGATG", cs, ce, 0, None, end)
        for letters in (b"ATGTAA", b"ATGGCC", b"ATGTAAC"):
            for es in ([], [(1, "U")], [(2, "K")], [(2, "*")], [(1, "*")], [(3, "K")], [(1, "U"), (2, "K")], [(2, "K"), (1, "U")]):
                name = " ".join(f"{n} {x}" for n, x in es)
                yield f"end {end} of {letters.decode()} codons {name}", form(letters, 1, len(letters), 0, [(n, ord(x)) for n, x in es], end)
    for size, end in ((255, 1), (256, 1), (256, 2), (257, 2), (16383, 1), (16384, 2), (16385, 2)):
        yield f"end {end} of size {size}", form(b"A" * size, 1, size, 0, None, end)
    yield "a stop far within", form(b"A" * 9000 + b"TAA" + b"A" * 7381, 1, 16384, 0, None, 2)


def read(data):
    """The reference's numbers, and where its letters and its exceptions stand: letters behind the first head, exceptions behind the fourth."""
    try:
        ref = account.stored(data)
    except account.Refused as refusal:
        return f"refused {refusal.number}"
    size = len(ref.letters)
    at = (14 if size <= 16384 else 7) + size  # behind tags 1, 2 and 3, or 1 and 3: tag 7 comes behind the exceptions
    exceptions = (at + 3, 3 * len(ref.exceptions)) if data[at:at + 1] == b"\4" else (0, 0)
    end = f" end {ref.end}" if ref.end else ""
    return f"cs {ref.cs} ce {ref.ce} table {ref.table} letters 3+{size} exceptions {exceptions[0]}+{exceptions[1]}{end}"


def edited():
    """Document 01's run, edits of references with exceptions, and edits of references that are refused."""
    run = form(b"GGATGGCCAAATGGTAACCTGAC", 3, 17)
    for line in "8A>G 5del 4_6dup 12G>A 13T>C 6C>T 4_6inv 1A>G 9_10insTAGC 1_*6del 1_*7del 16del -2_2del 4_6delinsTTT 4= 0=".split():
        yield line, run, line
    two = form(b"ATGAAATAA", 1, 9, 0, [(2, ord("U"))])
    three = form(b"ATGAAAAAA", 1, 9, 0, [(3, ord("*"))])
    for line in "1= 4A>G 6A>G 4_6del 3_4insAAA 4_6dup 7_9inv 3del".split():
        yield f"{line} 2 U", two, line
        yield f"{line} 3 *", three, line
    wrong = {
        "cut off": run[:-1],
        "a byte behind it": run + b"\0",
        "no table": run[:-4],
        "two bytes of exceptions": run + field(4, b"\0\1"),
        "no letters": form(b"", 1, 6),
        "letter U": form(b"ATGUAA", 1, 6),
        "bounds 1 7": form(b"ATGTAA", 1, 7),
        "table 3": form(b"ATGTAA", 1, 6, 3),
        "17 exceptions": form(b"ATGTAA", 1, 6, 0, [(1, ord("U"))] * 17),
        "no stop": form(b"ATGAAA", 1, 6),
        "two stops": form(b"ATGTAATAA", 1, 9),
    }
    for name, data in wrong.items():
        for line in ("0=", "1="):
            yield f"{line} {name}", data, line


def edited_ends():
    """Edits of references that are cut short, and of some that are refused for their end."""
    six, seven = form(b"ATGGCC", 1, 6, 0, None, 1), form(b"GATGGCCA", 2, 8, 0, None, 2)
    for line in "1= 6= 4G>C 5_6insC 3_4insGCCTAA 3_4insTAAGCC 4_6dup 1_6dup 1_*1dup 4_*1del 6_*1insA 6del 4_6del 1_6del 4_6inv 6delinsCTAA 6delinsCAAA 7del 0=".split():
        yield f"{line} without a stop", six, line
    for line in "1= 7= 7A>G 7del 7dup 6_7insAA 6_7insTA 6_7insTAA 6_7insAAA 4_6dup 4_6del -1_2del -1_7= -1_7dup 1_7del 1_7inv 7_*1= 8del 0=".split():
        yield f"{line} in a cut codon", seven, line
    kept = form(b"ATGTAAT", 1, 7, 0, [(1, ord("U")), (2, ord("K"))], 2)
    for line in "1= 7= 3G>A 6A>G 3_4insAAA 3_4insA 4_6del 4_6dup 6_7insAA".split():
        yield f"{line} U K", kept, line
    wrong = {
        "a stop": form(b"ATGTAA", 1, 6, 0, None, 1),
        "a stop within": form(b"ATGTAAC", 1, 7, 0, None, 2),
        "a base behind": form(b"ATGGCCC", 1, 6, 0, None, 1),
        "whole codons": form(b"ATGGCC", 1, 6, 0, None, 2),
        "no whole codons": form(b"ATGGCCA", 1, 7, 0, None, 1),
        "an exception of the rest": form(b"ATGGCCA", 1, 7, 0, [(3, ord("K"))], 2),
        "end 0": form(b"ATGTAA", 1, 6, 0, None, 0),
        "end 3": form(b"ATGGCC", 1, 6, 0, None, 3),
    }
    for name, data in wrong.items():
        for line in ("0=", "1="):
            yield f"{line} {name}", data, line


ROOM = (32, 8, 16)


def answered(data, edit):
    """The answer, and what the three buffers of dots hold."""
    texts = ("", "", "")
    try:
        ref = account.stored(data)
        record, altered = account.answer(ref, edit)
        if altered:
            account.check_room(ref, altered, *ROOM)
            texts = (altered.transcript, ref.protein, altered.protein)
        if record.word in ("unknown", "no-protein"):
            words = record.word
        elif record.word == "silent":
            words = f"silent {record.number}"
        else:
            words = f"changed {record.number} {record.deleted[1]} {record.inserted[1]}"
    except account.Refused as refusal:
        words = f"refused {refusal.number}"
    return " ".join([words] + [text.ljust(room, ".") for text, room in zip(texts, ROOM)])


def packed(edit):
    """An edit: its kind's number, two positions, each a sign and two bytes, and the new bases."""
    places = b"".join((sign or "+").encode() + bytes([n // 256, n % 256]) for sign, n in (edit.start, edit.end))
    return bytes([account.KINDS.index(edit.kind) + 1]) + places + edit.bases.encode()


def cases():
    for name, data in list(changed()) + list(built()):
        yield name, data, b"", read(data)
    for name, data, line in edited():
        edit = account.edit_line(line)
        yield name, data, packed(edit), answered(data, edit)
    for name, data in list(spelled()) + list(ended()):
        yield name, data, b"", read(data)
    for name, data, line in edited_ends():
        edit = account.edit_line(line)
        yield name, data, packed(edit), answered(data, edit)


for name, data, edit, words in cases():
    if sys.argv[1:] == ["stdin"]:
        for part in (name.encode(), data, edit):
            sys.stdout.buffer.write(bytes([len(part) // 256, len(part) % 256]) + part)
    else:
        print(f"{name}: {words}")
