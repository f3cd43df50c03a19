"""The codons that the Rust reads in its tables (SameCodons, same_codons, translate_until_stop), beside those that request E4 has looked up, for the references and
edits of tests/ends. The first are counted by the stand-in for the generated tables, which reads what the Rust's unchanged text asks it for; the second are the
account's (tests/account), to which tests/ends holds the module. Each codon that only one of the two reads must have its row in docs/DIFFERENCES.md. Prints how much
was compared, and the smallest input of each row; exits 1 where a difference is unexplained.

    python3 tests/oracle/reuse.py OUT    OUT is what tests/oracle/build SRC OUT counted made
"""
import ctypes
import sys

sys.path[:0] = ["tests/account", "tests/ends"]
import account
import ends

CHUNK = 64  # translate_until_stop goes on by so many codons behind the moved CDS
IDENTITY, BEHIND_STOP, CHUNKS, BEFORE = "an identity", "behind A's stop, within the moved CDS", "behind A's stop, up to 64 at a time", "before the edit, behind the moved CDS"
NOTHING = "cut short: nothing is built"


def rust(path):
    library, word, number, bytes_, any_ = ctypes.CDLL(path), ctypes.c_uint64, ctypes.c_int64, ctypes.c_char_p, ctypes.c_void_p
    for name, result, parameters in (("reference_new", any_, [bytes_, word, number, number, word, bytes_, word]), ("reference_end", word, [any_]), ("reference_free", None, [any_]),
                                     ("edit_new", any_, [word, word, number, word, number, bytes_, word]), ("edit_free", None, [any_]), ("codons_read", number, [any_, any_])):
        function = getattr(library, "oracle_" + name)
        function.restype, function.argtypes = result, parameters
    return library


def references():
    """Those of tests/ends that get all edits, and some that end at a stop with bases behind it."""
    yield from ends.edited()
    for first in ("ATG", "TAT", "TTA", "AAA"):
        for behind in ("", "C", "CC", "CCC", "TAA", "TAACCC", "CTAATAA"):
            yield first + "TAA" + behind, 1, 6, 0, (), (0,)
            yield first + "AAATAA" + behind, 1, 9, 0, (), (0,)


def looked_up(ref, altered):
    """The codons of the altered transcript, from 0, that E4 has looked up."""
    whole = (len(altered.transcript) - ref.cs + 1) // 3
    return {k for k in range(min(whole, len(altered.protein))) if not altered.is_reused(ref, ref.cs - 1 + 3 * k)}


def moved_cds(ref, altered):
    """Whole codons of the CDS, its last base moved by the length change; None below zero, where the Rust's sum wraps."""
    size = ref.ce + len(altered.transcript) - len(ref.letters) - ref.cs + 1
    return None if size < 0 else size // 3


def read_by_rust(ref, edit, altered):
    """The codons that the Rust's text reads."""
    first, change = ref.cs - 1, len(altered.transcript) - len(ref.letters)
    letters, codons = altered.transcript[first:], moved_cds(ref, altered)
    whole, residues = len(letters) // 3, account.translated(ref.table, letters, altered.moved(ref))
    if codons is None:
        return set(range(whole))
    at, behind = altered.edited_at, altered.edited_at + altered.sources.count(None)
    if edit.kind == "identity":  # an insertion of nothing behind its first base
        at = behind = min(account.index(ref, edit.start) + 1, len(ref.letters))
    own, prefix, tail = (ref.ce - first) // 3, 0, codons
    if not ref.exceptions:
        prefix = min((at - first) // 3, own, codons)
        start = max(-(-(behind - first) // 3), prefix)
        from_own = start - change // 3
        if change % 3 == 0 and from_own >= 0 and start < codons and from_own + codons - start <= own:  # all of the tail, or none
            tail = start
    read, end, stop = set(range(prefix, tail)), codons, "*" in residues[:codons]
    while not stop and 3 * end < len(letters):
        read |= set(range(end, min(end + CHUNK, whole)))
        stop, end = "*" in residues[end:end + CHUNK], end + CHUNK
    return read


def rows(ref, edit, altered, own, theirs):
    """The rows of docs/DIFFERENCES.md for the codons that only the Rust reads."""
    codons = moved_cds(ref, altered)
    for k in theirs - own:
        if k >= len(altered.protein):
            yield CHUNKS if codons is None or k >= codons else BEHIND_STOP
        else:
            yield IDENTITY if edit.kind == "identity" else BEFORE if k >= codons else "unexplained"


class Comparison:
    def __init__(self, library):
        self.library, self.edits, self.equal, self.met, self.faults = library, 0, 0, {}, 0

    def note(self, row, ref, edit, own, theirs):
        places = "_".join(sign + str(n) for sign, n in (edit.start, edit.end))
        size = ref.end, len(ref.exceptions), len(ref.letters), len(edit.bases), edit.start[1] + edit.end[1]
        said = f"{ref.letters} cs {ref.cs} ce {ref.ce} table {ref.table} exceptions {ref.exceptions} end {ref.end}, {edit.kind} {places} {edit.bases}: {own}, in the Rust {theirs}"
        count, smallest = self.met.get(row, (0, (size, said)))
        self.met[row] = count + 1, min(smallest, (size, said))

    def one(self, ref, reference, edit):
        try:
            altered = account.answer(ref, edit)[1]
        except account.Refused:
            return
        if altered is None:
            return
        places = [n for sign, number in (edit.start, edit.end) for n in (sign == "*", -number if sign == "-" else number)]
        held = self.library.oracle_edit_new(account.KINDS.index(edit.kind) + 1, *places, edit.bases.encode(), len(edit.bases))
        count = self.library.oracle_codons_read(reference, held)
        self.library.oracle_edit_free(held)
        own, theirs = looked_up(ref, altered), read_by_rust(ref, edit, altered)
        self.edits += 1
        if ref.end and altered.transcript.startswith(ref.letters) and count <= 0:
            self.note(NOTHING, ref, edit, len(own), count)
        elif count != len(theirs) or own - theirs:
            self.note("unexplained", ref, edit, len(own), count)
        elif own == theirs:
            self.equal += 1
        else:
            for row in set(rows(ref, edit, altered, own, theirs)):
                self.note(row, ref, edit, len(own), count)

    def reference(self, letters, cs, ce, table, exceptions, end):
        try:
            ref = account.Reference(letters, cs, ce, table, exceptions, end).check()
        except account.Refused:
            return
        listed = b"".join(bytes([n // 256, n % 256]) + x.encode() for n, x in exceptions)
        reference = self.library.oracle_reference_new(letters.encode(), len(letters), cs, ce, table, listed, len(listed))
        if reference and self.library.oracle_reference_end(reference) == end:  # another where it completes a mitochondrial stop
            for edit, _ in ends.all_edits(cs, ce):
                self.one(ref, reference, edit)
        self.library.oracle_reference_free(reference)


def main(folder):
    compared = Comparison(rust(f"{folder}/liboracle.so"))
    for *reference, stated in references():
        for end in stated:
            compared.reference(*reference, end)
    print(f"{compared.edits} edits: the same codons read in {compared.equal}")
    for row, (count, (_, smallest)) in sorted(compared.met.items()):
        print(f"{count:9} differ as docs/DIFFERENCES.md says: {row}\n          smallest: {smallest}" if row != "unexplained" else f"{count} UNEXPLAINED, as {smallest}")
    missing = {IDENTITY, BEHIND_STOP, CHUNKS, BEFORE, NOTHING} - compared.met.keys()
    if missing or "unexplained" in compared.met or compared.edits < 100000:
        print(f"not met: {sorted(missing)}")
        return 1
    return 0


if __name__ == "__main__":
    sys.exit(main(sys.argv[1]))
