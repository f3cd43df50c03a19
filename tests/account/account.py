"""A second account of documents 01 and 02 (E1, E2, E4, E5, E7, E8, E9, E10, E11, E12, E13), in Python, written from their text and not from the definitions or the code.

What the programs print is compared with it. It is only as good as its reading of the documents: where it and the proved module differ, one of
the two is wrong. `python3 account.py < input` prints what the text program prints, `python3 account.py records < input` what check-records does.
"""
import itertools
import sys

LETTERS = {"A": "A", "C": "C", "G": "G", "T": "T", "R": "AG", "Y": "CT", "S": "CG", "W": "AT", "K": "GT", "M": "AC",
           "B": "CGT", "D": "AGT", "H": "ACT", "V": "ACG", "N": "ACGT"}
COMPLEMENTS = dict(zip("ACGTRYKMBVDHSWN", "TGCAYRMKVBHDSWN"))
TABLE_0 = "FFLLSSSSYY**CC*WLLLLPPPPHHQQRRRRIIIMTTTTNNKKSSRRVVVVAAAADDEEGGGG"
OTHER_CODONS = [{}, {"TGA": "U"}, {"TGA": "W", "ATA": "M", "AGA": "*", "AGG": "*"}]
MIXES = {"DN": "B", "EQ": "Z"}
KINDS = ["substitution", "deletion", "delins", "insertion", "duplication", "inversion", "identity"]
WITH_BASES = ["substitution", "delins", "insertion"]
LONGEST, MOST_BASES, MOST_EXCEPTIONS = 131072, 4096, 16
TEXT_LONGEST, LONGEST_LINE = 16384, 20480
FULL = 65535  # letters of a full field (E6)


class Refused(Exception):
    """One numbered refusal."""

    def __init__(self, number):
        super().__init__(number)
        self.number = number


def refuse(number, wrong):
    if wrong:
        raise Refused(number)


# Letters and codons

def plain_codon(table, codon):
    place = ["TCAG".index(base) for base in codon]
    return OTHER_CODONS[table].get(codon, TABLE_0[place[0] * 16 + place[1] * 4 + place[2]])


codons = {}


def residue(table, codon):
    if (table, codon) not in codons:
        a, b, c = (LETTERS[letter] for letter in codon)
        found = "".join(sorted({plain_codon(table, x + y + z) for x in a for y in b for z in c}))
        codons[table, codon] = found if len(found) == 1 else MIXES.get(found, "X")
    return codons[table, codon]


def translated(table, letters, exceptions=()):
    whole = len(letters) // 3
    residues = [residue(table, letters[3 * i:3 * i + 3]) for i in range(whole)]
    for number, other in exceptions:
        if number <= whole:
            residues[number - 1] = other
    return "".join(residues) + ("X" if len(letters) % 3 else "")


def reverse_complement(letters):
    return "".join(COMPLEMENTS[letter] for letter in reversed(letters))


def shared_first(a, b):
    return next((i for i, (x, y) in enumerate(zip(a, b)) if x != y), min(len(a), len(b)))


def shared_last(a, b):
    return shared_first(a[::-1], b[::-1])


# Reference

AT_STOP, NO_STOP, CUT_CODON = 0, 1, 2  # how a CDS ends (E8); any other number is an unknown end


class Reference:
    def __init__(self, letters, cs, ce, table, exceptions=(), end=AT_STOP):
        self.letters, self.cs, self.ce, self.table, self.exceptions, self.end = letters, cs, ce, table, list(exceptions), end

    def check(self, longest=LONGEST):
        size, codon_count = self.ce - self.cs + 1, (self.ce - self.cs + 1) // 3
        refuse(1, not 1 <= len(self.letters) <= longest)
        refuse(2, any(letter not in LETTERS for letter in self.letters))
        refuse(3, not (1 <= self.cs <= self.ce <= len(self.letters) and (size % 3 != 0) == (self.end == CUT_CODON) and size >= 6))
        refuse(4, self.table not in (0, 1, 2))
        numbers = [number for number, _ in self.exceptions]
        refuse(5, len(numbers) > MOST_EXCEPTIONS or numbers != sorted(set(numbers)))
        refuse(5, any(not (1 <= number <= codon_count and is_residue(x)) for number, x in self.exceptions))
        self.protein = translated(self.table, self.letters[self.cs - 1:self.ce], self.exceptions)
        if self.end == AT_STOP:
            refuse(6, self.protein[-1] != "*")
        else:
            refuse(28, self.end not in (NO_STOP, CUT_CODON) or self.ce != len(self.letters) or "*" in self.protein)
        return self


# Four bits a base (E10)

SETS = {sum({"A": 1, "C": 2, "G": 4, "T": 8}[base] for base in bases): letter for letter, bases in LETTERS.items()}


def held(form, size, data):
    """The letters of a reference's bytes: a byte each (form 0), or two to a byte, the first in the high half, so many in all (form 1)."""
    refuse(1, form not in (0, 1))
    if form == 0:
        return data.decode("latin-1")
    refuse(1, not 1 <= size <= LONGEST or len(data) != (size + 1) // 2)
    halves = [half for b in data for half in (b >> 4, b & 15)]
    refuse(2, any(half != 0 for half in halves[size:]) or 0 in halves[:size])
    return "".join(SETS[half] for half in halves[:size])


def is_residue(x):
    return x == "*" or "A" <= x <= "Z"


# Positions and edits: a position is a sign ("" for none) and a number

class Edit:
    def __init__(self, kind, start, end, bases=""):
        self.kind, self.start, self.end, self.bases = kind, start, end, bases


def is_outside(ref, position):
    sign, n = position
    if sign == "*":
        return not 1 <= n <= 65535
    return n == 0 or (n > ref.ce - ref.cs + 1 if sign == "" else ref.cs - 1 - n < 0)


def place(ref, position):
    sign, n = position
    return {"": ref.cs + n - 2, "-": ref.cs - 1 - n, "*": ref.ce + n - 1}[sign]


def index(ref, position):
    sign, n = position
    return {"": ref.cs + n - 2, "-": ref.cs - 1, "*": min(ref.ce + n - 1, len(ref.letters))}[sign]


def most_bases(longest):
    """Refusal 10's limit by the longest edit of a call (E12): 0 is 4,096."""
    refuse(62, longest > MOST_BASES)
    return longest or MOST_BASES


def check_edit(ref, edit, longest=0):
    refuse(7, is_outside(ref, edit.start) or is_outside(ref, edit.end))
    first, last = place(ref, edit.start), place(ref, edit.end)
    refuse(7, edit.kind == "duplication" and last >= len(ref.letters))
    refuse(8, first > last or edit.kind == "insertion" and last != first + 1 or edit.kind == "substitution" and first != last)
    signs = edit.start[0] + edit.end[0]
    refuse(9, signs in ("--", "**") or edit.kind == "insertion" and edit.start[0] == "-")
    refuse(10, edit.kind not in KINDS)
    most = {"substitution": 1}.get(edit.kind, most_bases(longest)) if edit.kind in WITH_BASES else 0
    refuse(10, not (edit.kind in WITH_BASES) <= len(edit.bases) <= most or any(base not in LETTERS for base in edit.bases))


class Altered:
    """What an accepted edit makes: the transcript, whether it is a frameshift, and the altered protein."""

    def __init__(self, ref, edit):
        letters = ref.letters
        start, end = index(ref, edit.start), min(index(ref, edit.end) + 1, len(letters))
        at, to, put = start, end, edit.bases
        if edit.kind == "insertion":
            at = to = start + 1
        elif edit.kind == "duplication":
            at = to = end
            put = letters[start:end]
        elif edit.kind == "inversion":
            put = reverse_complement(letters[start:end])
        elif edit.kind == "identity":
            put = letters[start:end]
        kept, stops = put, False
        if edit.kind in ("insertion", "duplication"):
            frame = (at - (ref.cs - 1)) % 3
            stop = translated(ref.table, "N" * frame + put).find("*")
            if stop >= 0:
                kept, stops = put[:3 * (stop + 1) - frame], True
        self.transcript = letters[:at] + kept + letters[to:]
        places = list(range(len(letters)))  # of each base of the transcript: where it stands in the reference, None for one that the edit put there
        self.sources = places if edit.kind == "identity" else places[:at] + [None] * len(kept) + places[to:]
        self.edited_at = at
        gives_way = edit.kind in ("deletion", "delins", "substitution")
        self.flag = (len(put) - (to - at)) % 3 != 0 or gives_way and start < ref.ce < end
        if letters[at:to] == put or stops or edit.kind in ("inversion", "identity"):
            self.flag = False
        self.protein = translated(ref.table, self.transcript[ref.cs - 1:], self.moved(ref))
        self.protein = self.protein[:self.protein.find("*") + 1] or self.protein

    def moved(self, ref):
        old, new, first = ref.letters, self.transcript, ref.cs - 1
        prefix = shared_first(old, new)
        suffix = shared_last(old[prefix:], new[prefix:])
        for number, x in ref.exceptions:
            codon = first + 3 * (number - 1)
            to = codon + len(new) - len(old)
            if codon + 3 <= prefix:
                yield number, x
            elif codon >= len(old) - suffix and to >= first and (to - first) % 3 == 0:
                yield (to - first) // 3 + 1, x

    def is_reused(self, ref, first):
        """Whether the whole codon that begins at an index is reused (E4): its three bases stand side by side in the reference too, before the edit, or
        behind it and there as a codon of the CDS. An identity put none of them there."""
        sources = self.sources[first:first + 3]
        if ref.exceptions or None in sources or sources != list(range(sources[0], sources[0] + 3)):
            return False
        codons_of_cds = range(ref.cs - 1, ref.ce - 2, 3)
        return sources[2] < self.edited_at or sources[0] in codons_of_cds

    def looked_up(self, ref):
        """How many codons are looked up (E4): the whole codons, up to and with the first stop, that aren't reused."""
        whole = (len(self.transcript) - ref.cs + 1) // 3
        return sum(not self.is_reused(ref, ref.cs - 1 + 3 * i) for i in range(min(whole, len(self.protein))))


# The record: a word, a number, the deleted and the inserted part by place and length, and a duplication's first residue

class Record:
    def __init__(self, word, number=0, deleted=(0, 0), inserted=(0, 0), first=0):
        self.word, self.number, self.deleted, self.inserted, self.first = word, number, deleted, inserted, first


def is_unknown(ref, edit):
    return ref.protein.count("*") > 1 or place(ref, edit.end) >= len(ref.letters)


def silent_number(ref, edit):
    sign, n = edit.end if edit.kind == "duplication" else edit.start
    n = 1 if sign == "-" else n
    number = n // 3 + 1 if edit.kind == "duplication" else -(-n // 3)
    return max(1, min(number, len(ref.protein)))


def record_of(ref, edit, altered):
    r, a = ref.protein, altered.protein
    if not a:
        return Record("no-protein")
    if r == a:
        n = silent_number(ref, edit)
        return Record("silent", n, (n - 1, 1), (n - 1, 1))
    s = shared_first(r, a)
    ending = 0 if altered.flag else shared_last(r[s:], a[s:])
    deleted, inserted = r[s:len(r) - ending], a[s:len(a) - ending]
    number, n = s + 1, len(inserted)
    copies = not deleted and n < number and r[s - n:s] == inserted
    if number == 1:
        word = "start-lost"
    elif deleted and r[s] == "*":
        word = "extension"
    elif a[s:s + 1] == "*":
        word = "stop-gained"
    elif altered.flag:
        word = "frameshift"
    elif len(deleted) == n == 1:
        word = "substitution"
    elif n == 0:
        word = "deletion"
    elif copies:
        word = "duplication"
    elif not deleted:
        word = "insertion"
    else:
        word = "delins"
    return Record(word, number, (s, len(deleted)), (s, n), number - n if word == "duplication" else 0)


def check_panel(ref, edit, named):
    """What the panel profile refuses of an edit that isn't refused (E9); `named` is the base that a substitution names, as a number."""
    refuse(40, any(letter not in "ACGT" for letter in ref.letters + edit.bases))
    refuse(41, edit.kind not in ("substitution", "deletion", "duplication", "insertion") or edit.start[0] + edit.end[0] != "")
    first, last = place(ref, edit.start), place(ref, edit.end)
    refuse(42, {"substitution": 0, "insertion": len(edit.bases)}.get(edit.kind, last - first + 1) % 3 != 0)
    refuse(43, edit.kind == "substitution" and named != ord(ref.letters[first]))


def answer(ref, edit, longest=0, named=None):
    """The record of an edit of a checked reference, and what it makes; None for Unknown. Where a base is named, under the panel profile."""
    check_edit(ref, edit, longest)
    if named is not None:
        check_panel(ref, edit, named)
    if is_unknown(ref, edit):
        return Record("unknown"), None
    altered = Altered(ref, edit)
    return record_of(ref, edit, altered), altered


def check_room(ref, altered, transcript, reference, protein):
    refuse(11, transcript < len(altered.transcript))
    behind = len(altered.transcript) - ref.cs + 1
    refuse(12, reference < -(-(ref.ce - ref.cs + 1) // 3) or protein < -(-behind // 3))


# Records from elsewhere (E7): a proposal is a number, deleted residues and inserted residues

def replays(r, a, number, deleted, inserted):
    """Whether the deleted residues stand in R at that number, and replacing them gives A."""
    before, there, behind = r[:number - 1], r[number - 1:number - 1 + len(deleted)], r[number - 1 + len(deleted):]
    return there == deleted and before + inserted + behind == a


def least_deleted(r, a):
    """How many residues are deleted by the shortest of all the proposals that begin where the proteins part and replay. Between two of these, as many more
    are inserted as are deleted."""
    s = shared_first(r, a)
    return next(d for d in range(max(0, len(r) - len(a)), len(r) - s + 1) if r[s + d:] == a[s + d + len(a) - len(r):])


def proposal_answers(r, a, number, deleted, inserted):
    """The two answers, where the edit's answer is Changed."""
    refuse(27, not 1 <= number <= len(r) + 1 or any(not is_residue(x) for x in deleted + inserted))
    first = replays(r, a, number, deleted, inserted)
    return first, first and number == shared_first(r, a) + 1 and len(deleted) == least_deleted(r, a)


def checked(ref, edit, number, deleted, inserted, room=None, longest=0):
    """The two answers to a proposal for an edit of a checked reference, and what the edit makes."""
    record, altered = answer(ref, edit, longest)
    refuse(26, record.word == "unknown")
    if room is not None:
        check_room(ref, altered, *room)
    refuse(26, record.word in ("no-protein", "silent"))
    return proposal_answers(ref.protein, altered.protein, number, deleted, inserted), altered


# Two edits on one transcript (E13)

def touched(ref, edit):
    """The indices of the bases that an edit touches, as a first and a last half place: a gap lies between two bases."""
    start, end = index(ref, edit.start), min(index(ref, edit.end) + 1, len(ref.letters))
    return (2 * start + 1, 2 * start + 1) if edit.kind == "insertion" else (2 * start, 2 * (end - 1))


def made_by(ref, edit):
    """What an edit puts where each base stands and before it: a dictionary from a base's index to what takes its place, and one from a gap, by the index of
    the base behind it, to what goes in there."""
    letters = ref.letters
    start, end = index(ref, edit.start), min(index(ref, edit.end) + 1, len(letters))
    if edit.kind == "insertion":
        return {}, {start + 1: edit.bases}
    if edit.kind == "duplication":
        return {}, {end: letters[start:end]}
    if edit.kind == "identity":
        return {}, {}
    put = reverse_complement(letters[start:end]) if edit.kind == "inversion" else edit.bases
    return {i: put if i == start else "" for i in range(start, end)}, {}


def paired(ref, first, second, room=None, longest=(0, 0)):
    """The transcript of two edits of a checked reference, and its protein, read without exceptions; `room` is that of the two buffers, `longest` each edit's (E12)."""
    check_edit(ref, first, longest[0])
    check_edit(ref, second, longest[1])
    (a, b), (c, d) = sorted((touched(ref, first), touched(ref, second)))
    refuse(51, not any(b < 2 * i < c for i in range(len(ref.letters))))
    refuse(52, is_unknown(ref, first) or is_unknown(ref, second))
    refuse(53, any(edit.kind in ("insertion", "duplication") and stops_in(ref, edit) for edit in (first, second)))
    bases, gaps = {}, {}
    for edit in (first, second):
        bases.update(made_by(ref, edit)[0])
        gaps.update(made_by(ref, edit)[1])
    places = range(len(ref.letters) + 1)
    transcript = "".join(gaps.get(i, "") + bases.get(i, ref.letters[i:i + 1]) for i in places)
    protein = translated(ref.table, transcript[ref.cs - 1:])
    if room is not None:
        refuse(11, room[0] < len(transcript))
        refuse(12, room[1] < len(protein))
    return transcript, protein[:protein.find("*") + 1] or protein


def stops_in(ref, edit):
    """Whether the stop cut of an insertion or a duplication finds a stop."""
    (at, put), = made_by(ref, edit)[1].items()
    return "*" in translated(ref.table, "N" * ((at - (ref.cs - 1)) % 3) + put)


# Two editions of a transcript (E11)

def cds_codons(ref):
    """The codons of a checked reference's CDS: their letters, one or two for a cut one, each with its residue."""
    letters = ref.letters[ref.cs - 1:ref.ce]
    return [(letters[3 * i:3 * i + 3], x) for i, x in enumerate(ref.protein)]


def compared(first, second, room=None):
    """The differences of two references that weren't checked: a codon's number and both residues, None for a codon that isn't there."""
    first.check()
    try:
        second.check()
    except Refused as refusal:
        raise Refused(100 + refusal.number)
    pairs = enumerate(itertools.zip_longest(cds_codons(first), cds_codons(second), fillvalue=("", None)), 1)
    differences = [(n, a[1], b[1]) for n, (a, b) in pairs if a != b]
    refuse(50, room is not None and room < 4 * len(differences))
    return differences


def difference_bytes(differences):
    return b"".join(bytes([n // 256, n % 256, ord(a or "\0"), ord(b or "\0")]) for n, a, b in differences)


# The functions that stand alone

NAMES = dict(zip("ARNDCQEGHILKMFPSTWYVUXBZ*", "Ala Arg Asn Asp Cys Gln Glu Gly His Ile Leu Lys Met Phe Pro Ser Thr Trp Tyr Val Sec Xaa Asx Glx Ter".split()))


def plain_translation(table, exceptions, full, text, room):
    refuse(4, table not in (0, 1, 2))
    refuse(5, len(exceptions) > MOST_EXCEPTIONS or any(number < 1 or not is_residue(x) for number, x in exceptions))
    refuse(14, full and len(text) % 3 != 0)
    refuse(15, room < -(-len(text) // 3))
    letters = "".join(chr(ord(c) - 32) if "a" <= c <= "z" else c for c in text).replace("U", "T")
    refuse(2, any(letter not in LETTERS for letter in letters[:len(text) // 3 * 3]))
    return translated(table, letters, exceptions)


def names_of(residues, room):
    refuse(15, any(x not in NAMES for x in residues) or room < 3 * len(residues))
    return "".join(NAMES[x] for x in residues)


def residues_of(names, room):
    back = {name: x for x, name in NAMES.items()}
    each = [names[i:i + 3] for i in range(0, len(names), 3)]
    refuse(15, any(name not in back for name in each) or room < len(each))
    return "".join(back[name] for name in each)


def complement_alone(text, room):
    refuse(15, room < len(text))
    refuse(2, any(letter not in LETTERS for letter in text))
    return reverse_complement(text)


# Stored reference

def stored(data, room=LONGEST):
    """The reference that bytes store, where `room` bytes are lent for letters in more than one field."""
    fields, last, at = {}, 0, 0
    while at < len(data):
        tag, header = data[at], data[at + 1:at + 3]
        refuse(21, not 1 <= tag <= 8 or tag <= last)
        refuse(20, len(header) < 2)
        size = header[0] * 256 + header[1]
        content = data[at + 3:at + 3 + size]
        refuse(20, len(content) < size)
        refuse(23, tag == 2 and size != 4 or tag == 3 and size != 1 or tag == 4 and size % 3 != 0)
        refuse(23, tag in (5, 6) and size == 0 or tag == 7 and size != 8)
        refuse(23, tag == 8 and content not in (b"\1", b"\2"))
        fields[tag], last, at = content, tag, at + 3 + size
    refuse(22, not {1, 3} <= fields.keys() or not {2, 7} & fields.keys())
    letters = fields[1] + fields.get(5, b"") + fields.get(6, b"")
    refuse(25, {2, 7} <= fields.keys() or (7 in fields) != (len(letters) > TEXT_LONGEST))
    refuse(25, any(tag in fields and len(fields.get(before, b"")) != FULL for before, tag in ((1, 5), (5, 6))))
    bounds, exceptions = fields[7] if 7 in fields else fields[2], fields.get(4, b"")
    cs, ce = (int.from_bytes(half, "big") for half in (bounds[:len(bounds) // 2], bounds[len(bounds) // 2:]))
    listed = [(exceptions[i] * 256 + exceptions[i + 1], chr(exceptions[i + 2])) for i in range(0, len(exceptions), 3)]
    end = fields[8][0] if 8 in fields else AT_STOP
    ref = Reference(letters.decode("latin-1"), cs, ce, fields[3][0], listed, end).check()
    refuse(29, 5 in fields and room < len(letters))
    return ref


def stored_form(ref):
    """A reference that isn't refused, as bytes (E1): fields in rising tags, none of them empty."""
    field = lambda tag, content: bytes([tag, len(content) >> 8, len(content) & 255]) + content if content else b""
    letters, long = ref.letters.encode(), len(ref.letters) > 16384
    bounds = b"".join(n.to_bytes(4 if long else 2, "big") for n in (ref.cs, ref.ce))
    listed = b"".join(number.to_bytes(2, "big") + residue.encode() for number, residue in ref.exceptions)
    contents = {1: letters[:65535], 2: b"" if long else bounds, 3: bytes([ref.table]), 4: listed, 5: letters[65535:131070], 6: letters[131070:],
                7: bounds if long else b"", 8: bytes([ref.end] if ref.end != AT_STOP else [])}
    return b"".join(field(tag, content) for tag, content in contents.items())


def written(ref, room):
    """What a reference that may be refused is written as, in so many bytes."""
    form = stored_form(ref.check())
    refuse(24, room < len(form))
    return form


# Settings (E12): version, table, profile, width and longest edit

FORMS = {1: ((1, 1), (2, 1), (3, 1), (4, 1)), 2: ((1, 1), (2, 1), (3, 1), (4, 1), (5, 2))}  # of each version: tags, and the bytes of each content


class Newer(Refused):
    """60 with the mark of a newer version."""

    def __init__(self):
        super().__init__(60)


def check_settings(version, table, profile, width, longest):
    refuse(62, table not in (0, 1, 2) or profile not in (0, 1) or width not in (1, 3) or not 1 <= longest <= MOST_BASES)
    refuse(62, version == 1 and longest != MOST_BASES)


def read_settings(newest, data):
    """What a reader that knows the versions up to `newest` reads."""
    refuse(60, newest not in FORMS or len(data) < 4 or data[:3] != b"\1\0\1" or data[3] == 0)
    version = data[3]
    if version > newest:
        raise Newer
    contents, at = [], 0
    for tag, size in FORMS[version]:
        refuse(61, data[at:at + 3] != bytes([tag, 0, size]) or len(data) < at + 3 + size)
        contents.append(int.from_bytes(data[at + 3:at + 3 + size], "big"))
        at += 3 + size
    refuse(61, at != len(data))
    settings = tuple(contents) + (MOST_BASES,) * (version == 1)
    check_settings(*settings)
    return settings


def write_settings(version, table, profile, width, longest, room):
    refuse(60, version not in FORMS)
    check_settings(version, table, profile, width, longest)
    store = b"".join(bytes([tag, 0, size]) + n.to_bytes(size, "big") for (tag, size), n in zip(FORMS[version], (version, table, profile, width, longest)))
    refuse(63, room < len(store))
    return store


# Text program

def number(text, at):
    """A number in the form, and the place behind it; None otherwise."""
    end = at
    while end < len(text) and "0" <= text[end] <= "9":
        end += 1
    digits = text[at:end]
    if not 1 <= len(digits) <= 5 or len(digits) > 1 and digits[0] == "0":
        return None
    return int(digits), end


def are_capitals(text):
    return text != "" and all("A" <= c <= "Z" for c in text)


def reference_line(text):
    if not text.startswith("ref "):
        return None
    values, at = [], 4
    for _ in range(3):
        found = number(text, at)
        if found is None or text[found[1]:found[1] + 1] != " ":
            return None
        values.append(found[0])
        at = found[1] + 1
    return Reference(text[at:], *values) if are_capitals(text[at:]) else None


def position(text, at):
    sign = text[at:at + 1] if text[at:at + 1] in ("-", "*") else ""
    found = number(text, at + len(sign))
    return found and ((sign, found[0]), found[1])


def edit_line(text):
    found = position(text, 0)
    if found is None:
        return None
    start, at = found
    end = start
    if text[at:at + 1] == "_":
        found = position(text, at + 1)
        if found is None:
            return None
        end, at = found
    verb = text[at:]
    alone = {"del": "deletion", "dup": "duplication", "inv": "inversion", "=": "identity"}
    if verb in alone:
        return Edit(alone[verb], start, end)
    for word, kind in (("delins", "delins"), ("ins", "insertion")):
        if verb.startswith(word) and are_capitals(verb[len(word):]):
            return Edit(kind, start, end, verb[len(word):])
    if len(verb) == 3 and verb[1] == ">" and are_capitals(verb[0] + verb[2]):
        return Edit("substitution", start, end, verb[2])
    return None


def answer_line(ref, edit):
    record, altered = answer(ref, edit)
    if record.word in ("unknown", "no-protein"):
        return record.word
    part = lambda protein, where: protein[where[0]:where[0] + where[1]] or "-"
    words = [record.word, str(record.number), part(ref.protein, record.deleted), part(altered.protein, record.inserted)]
    return " ".join(words + ([str(record.first)] if record.first else []))


def run(data):
    """What the text program prints on an input."""
    if not data:
        return b""
    lines = data.decode("latin-1").split("\n")
    if lines[-1] == "":
        lines.pop()
    ref, out = None, []
    for line in lines:
        try:
            parsed = None if len(line) > LONGEST_LINE else reference_line(line) if ref is None else edit_line(line)
            refuse(30, parsed is None)
            if ref is None:
                ref = parsed.check(TEXT_LONGEST)
                out.append("reference " + ref.protein)
            else:
                out.append(answer_line(ref, parsed))
        except Refused as refusal:
            out.append(f"refused {refusal.number}")
            if ref is None:
                break
    return ("\n".join(out) + "\n").encode()


# check-records: the text program's reference and edits, with a proposal behind each edit

def proposal_line(text):
    """An edit, a number, deleted and inserted residues; None where the line isn't in the form."""
    parts = text.split(" ")
    if len(parts) != 4 or any(not part or any(not "!" <= c <= "~" for c in part) for part in parts[2:]):
        return None
    edit, found = edit_line(parts[0]), number(parts[1], 0)
    if edit is None or found is None or found[1] != len(parts[1]):
        return None
    return edit, found[0], *("" if part == "-" else part for part in parts[2:])


def check_run(data):
    """What check-records prints on an input, and how often each answer behind the reference's; None where that is refused."""
    counts = {"yes yes": 0, "yes no": 0, "no no": 0}
    if not data:
        return b"", counts
    lines = data.decode("latin-1").split("\n")
    if lines[-1] == "":
        lines.pop()
    try:
        parsed = None if len(lines[0]) > LONGEST_LINE else reference_line(lines[0])
        refuse(30, parsed is None)
        ref = parsed.check(TEXT_LONGEST)
    except Refused as refusal:
        return f"refused {refusal.number}\n".encode(), None
    out = ["reference " + ref.protein]
    for line in lines[1:]:
        try:
            parsed = None if len(line) > LONGEST_LINE else proposal_line(line)
            refuse(30, parsed is None)
            out.append(" ".join("yes" if yes else "no" for yes in checked(ref, *parsed)[0]))
        except Refused as refusal:
            out.append(f"refused {refusal.number}")
        counts[out[-1]] = counts.get(out[-1], 0) + 1
    return ("\n".join(out) + "\n").encode(), counts


if __name__ == "__main__":
    given = sys.stdin.buffer.read()
    sys.stdout.buffer.write(check_run(given)[0] if sys.argv[1:] == ["records"] else run(given))
