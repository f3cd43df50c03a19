"""Records of bcftools csq through ./check-records. Some thousand random edits of random references are handed to `bcftools csq -l` as variants; the residues that it
reports ("3K>3R") are turned into a record as they stand (3 K R). Prints by csq's own words what the records get, and why; exits 1 where a record gets what it
shouldn't, or gets a no for none of the reasons below.

    python3 tests/outside/records.py FOLDER

A substitution or an in-frame change inside the CDS, with no stop in it, must get a first yes. A first no has one of three reasons:
  stop     csq reports a new stop and says nothing of what R has behind the residues that it names ("4W>4*"): it is left there. Cut behind that stop, the record gives A.
  end      csq reads no base behind the CDS's last: a frameshift or a lost stop goes on there in A, and the record gives the beginning of A.
  last     the frame shifts within the CDS's last codon, and csq reads the codon across its end otherwise than the letters are.
And 26: the proteins are the same. For some edits, as those of the first codon, csq reports no residues.

csq is handed variants as far to the left as can be, with the base before them where the lengths differ. Without these it reads some in another frame: the
last line tells how many of the same edits get a no then, and these aren't held to anything.
"""
import os
import random
import subprocess
import sys

sys.path.insert(0, "tests/account")
import account

IN_FRAME = {"missense", "inframe_insertion", "inframe_deletion", "inframe_altering"}
REFERENCES, EDITS, APART = 60, 60, 60


def random_letters(rand, n):
    return "".join(rand.choice("ACGT") for _ in range(n))


def random_reference(rand):
    """Letters, cs and ce: a CDS from ATG to its only stop."""
    before, behind, codons = rand.randint(0, 30), rand.randint(0, 40), ["ATG"]
    while len(codons) < rand.randint(4, 80):
        codon = random_letters(rand, 3)
        if account.residue(0, codon) != "*":
            codons.append(codon)
    cds = "".join(codons) + rand.choice(("TAA", "TAG", "TGA"))
    return random_letters(rand, before) + cds + random_letters(rand, behind), before + 1, before + len(cds)


def random_edit(rand, letters, cs, ce):
    """An edit of the CDS as a line of the text program, and the letters from one index to another that give way to others."""
    size = ce - cs + 1
    kind = rand.choice(("sub", "sub", "sub", "del", "dup", "ins", "delins", "inv"))
    length = 1 if kind == "sub" else rand.choice((1, 2, 3, 3, 3, 6, 6, 9, rand.randint(1, min(30, size))))
    start = rand.randint(1, size + 1 - length)
    at, end = cs - 1 + start - 1, cs - 1 + start - 1 + length
    old, place = letters[at:end], f"{start}_{start + length - 1}"
    if kind == "sub":
        new = rand.choice([b for b in "ACGT" if b != old])
        return f"{start}{old}>{new}", at, end, new
    if kind == "ins":
        start = min(start, size - 1)
        new = random_letters(rand, length)
        return f"{start}_{start + 1}ins{new}", cs - 1 + start, cs - 1 + start, new
    if kind == "dup":
        return f"{place}dup", end, end, old
    if kind == "inv":
        return f"{place}inv", at, end, account.reverse_complement(old)
    if kind == "del":
        return f"{place}del", at, end, ""
    new = random_letters(rand, rand.choice((1, 2, 3, 3, 6, 9)))
    return f"{place}delins{new}", at, end, new


def variant(chromosome, at, end, new, anchored):
    """Position, old and new letters as a VCF has them: no base shared, but, where the lengths differ, the one before; as far to the left as can be. If not
    anchored, that base only where one would have no letter, and where the edit says."""
    old = chromosome[at:end]
    while old and new and old[-1] == new[-1]:
        old, new = old[:-1], new[:-1]
    while old and new and old[0] == new[0]:
        at, old, new = at + 1, old[1:], new[1:]
    while anchored and (not old) != (not new) and chromosome[at - 1] == (old or new)[-1]:
        at, old, new = at - 1, (chromosome[at - 1] + old)[:len(old)], (chromosome[at - 1] + new)[:len(new)]
    if not old or not new or anchored and len(old) != len(new):
        at, old, new = at - 1, chromosome[at - 1] + old, chromosome[at - 1] + new
    return at + 1, old, new


def laid_out(references):
    """References side by side on one chromosome: its letters, the place of each, and the lines of a GFF that says so."""
    chromosome, places, gff = random_letters(random.Random(3), APART), [], ["##gff-version 3"]
    for i, (letters, cs, ce) in enumerate(references):
        at = len(chromosome)
        places.append(at)
        chromosome += letters + random_letters(random.Random(len(places)), APART)
        rows = [("gene", 1, len(letters), ".", f"ID=gene:G{i};biotype=protein_coding;Name=G{i}"),
                ("mRNA", 1, len(letters), ".", f"ID=transcript:T{i};Parent=gene:G{i};biotype=protein_coding"),
                ("exon", 1, len(letters), ".", f"Parent=transcript:T{i}"),
                ("CDS", cs, ce, "0", f"ID=CDS:P{i};Parent=transcript:T{i}")]
        if cs > 1:
            rows.append(("five_prime_UTR", 1, cs - 1, ".", f"Parent=transcript:T{i}"))
        if ce < len(letters):
            rows.append(("three_prime_UTR", ce + 1, len(letters), ".", f"Parent=transcript:T{i}"))
        gff += [f"1\t.\t{word}\t{at + first}\t{at + last}\t.\t+\t{phase}\t{more}" for word, first, last, phase, more in rows]
    return chromosome, places, gff


def csq(folder, chromosome, gff, lines, arguments=(), sample=""):
    """What `bcftools csq` says of variants, lines of a VCF beside their positions: for each line that it prints its identifier and its BCSQ."""
    head = ["##fileformat=VCFv4.2", f"##contig=<ID=1,length={len(chromosome)}>"]
    if sample:
        head.append('##FORMAT=<ID=GT,Number=1,Type=String,Description="Genotype">')
    head.append("#CHROM\tPOS\tID\tREF\tALT\tQUAL\tFILTER\tINFO" + (f"\tFORMAT\t{sample}" if sample else ""))
    for name, text in (("ref.fa", [">1", chromosome]), ("ref.gff", gff), ("in.vcf", head + [line for _, line in sorted(lines)])):
        with open(f"{folder}/{name}", "w", encoding="ascii") as f:
            f.write("\n".join(text) + "\n")
    if os.path.exists(f"{folder}/ref.fa.fai"):  # csq's index of another ref.fa
        os.remove(f"{folder}/ref.fa.fai")
    ran = subprocess.run(["bcftools", "csq", *arguments, "-f", f"{folder}/ref.fa", "-g", f"{folder}/ref.gff", "-Ov", f"{folder}/in.vcf"], capture_output=True, text=True, check=True)
    for line in ran.stdout.splitlines():
        if not line.startswith("#"):
            parts = line.split("\t")
            yield parts[2], next((item[5:] for item in parts[7].split(";") if item.startswith("BCSQ=")), "")


def reported(folder, references, edits, anchored):
    """What csq says of each edit: its words, and the change of residues where it reports one."""
    chromosome, places, gff = laid_out(references)
    lines = []
    for i, of in enumerate(edits):
        for j, (_, at, end, new) in enumerate(of):
            position, old, put = variant(chromosome, places[i] + at, places[i] + end, new, anchored)
            if old != put:
                lines.append((position, f"1\t{position}\t{i}.{j}\t{old}\t{put}\t.\t.\t."))
    said = {}
    for name, told in csq(folder, chromosome, gff, lines, ["-l"]):
        i, j = map(int, name.split("."))
        of = [one.split("|") for one in told.split(",") if f"|T{i}|" in one]
        change = of[0][5] if len(of) == 1 and len(of[0]) > 5 else ""
        said[i, j] = of[0][0] if len(of) == 1 else "nothing", "" if "?" in change else change
    return said


def proposal(change):
    """"3K>3R" as number, deleted and inserted; "2A", a synonymous change, as itself."""
    parts = [(part.rstrip("ABCDEFGHIJKLMNOPQRSTUVWXYZ*"), part.lstrip("0123456789")) for part in change.split(">")]
    if len(parts) == 1:
        parts *= 2
    assert len(parts) == 2 and parts[0][0] == parts[1][0], change
    return parts[0][0], parts[0][1] or "-", parts[1][1] or "-"


def reason(ref, edit, shifts_last, number, deleted, inserted):
    """Why a record gets no yes; "" for none of the reasons."""
    a, at = account.Altered(ref, account.edit_line(edit)).protein, int(number) - 1
    deleted, inserted = deleted.strip("-"), inserted.strip("-")
    if ref.protein[at:at + len(deleted)] != deleted:
        return ""
    given = ref.protein[:at] + inserted + ref.protein[at + len(deleted):]
    if "*" in inserted and given[:given.index("*") + 1] == a:
        return "stop"
    return "end" if a.startswith(given) else "last" if shifts_last else ""


def is_in_frame(words, number, deleted, inserted):
    return set(words.split("&")) <= IN_FRAME and "*" not in deleted + inserted


def answered(references, edits, said):
    """For each edit of which csq says something: the reference's line, the edit, whether it shifts the frame within the last codon, csq's words, its record
    (none: no residues), and what that is answered."""
    for i, (letters, cs, ce) in enumerate(references):
        head, told = f"ref {cs} {ce} 0 {letters}", [(edit, *said[i, j]) for j, edit in enumerate(edits[i]) if (i, j) in said]
        lines = [f"{edit[0]} {' '.join(proposal(change))}" for edit, _, change in told if change]
        ran = subprocess.run(["./check-records"], input="\n".join([head] + lines), capture_output=True, text=True, check=True)
        answers = ran.stdout.splitlines()[1:]
        assert len(answers) == len(lines), ran.stderr
        answers = iter(answers)
        for (edit, at, end, new), words, change in told:
            shifts_last = end > ce - 3 and (len(new) - (end - at)) % 3 != 0
            yield head, edit, shifts_last, words, proposal(change) if change else (), next(answers) if change else "no residues"


def main(folder):
    rand = random.Random(1)
    references = [random_reference(rand) for _ in range(REFERENCES)]
    edits = [[random_edit(rand, *reference) for _ in range(EDITS)] for reference in references]
    counts, faults, asked, in_frame, wrong = {}, 0, 0, 0, 0
    for head, edit, shifts_last, words, record, answer in answered(references, edits, reported(folder, references, edits, True)):
        why = answer
        if record:
            asked += 1
            in_frame += is_in_frame(words, *record)
            good = not is_in_frame(words, *record) or answer in ("yes yes", "yes no")
            if answer == "no no":
                why = "no: " + reason(account.reference_line(head).check(), edit, shifts_last, *record)
                good = good and why != "no: "
            if not good or answer not in ("yes yes", "yes no", "no no", "refused 26"):
                faults += 1
                if faults < 10:
                    print(f"{head}: {edit} {' '.join(record)}, which csq calls {words}, is answered {answer}")
        counts[words, why] = counts.get((words, why), 0) + 1
    version = subprocess.run(["bcftools", "--version"], capture_output=True, text=True, check=True).stdout.split("\n")[0]
    print(f"{version} csq -l: {sum(counts.values())} random edits, {asked} records; {in_frame} in frame and without a stop, a first yes each")
    for words in sorted({words for words, _ in counts}):
        print(f"  {words}: " + ", ".join(f"{n} {answer}" for (of, answer), n in sorted(counts.items()) if of == words))
    for _, _, _, words, record, answer in answered(references, edits, reported(folder, references, edits, False)):
        wrong += bool(record) and is_in_frame(words, *record) and answer == "no no"
    print(f"  variants where the edit says, without the base before: {wrong} of those in frame get no no")
    return 1 if faults or asked < 2000 or in_frame < 1000 else 0


if __name__ == "__main__":
    sys.exit(main(sys.argv[1]))
