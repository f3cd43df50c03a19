"""Pairs of edits beside bcftools csq, which without -l reads the variants of one haplotype together. Some thousand random references get two random edits each, as two
phased variants of one sample; the residues that csq reports ("3K>3R", of both together where they meet) are carried out on R, and what they make is held to the
protein that garumbott_pair answers, through the archive. Prints by csq's own words how many agree, and why the others don't; exits 1 where one differs for none of the
reasons below, or where too few agree.

    python3 tests/outside/haplotypes.py FOLDER PAIR..    PAIR is the compiled pair.c, behind an emulator where one is wanted

What csq says otherwise:
  stop    it reports a new stop and leaves what R has behind the residues that it names. Cut behind its first stop, what it says is the protein.
  end     it reads no base behind the CDS's last: where the protein goes on there, what it says is its beginning, but for the last residue, which it reads from
          the bases that the CDS has left, or leaves out.
  place   it calls one of the edits by its place alone, without residues: a lost start, or one that lies, as far to the left as can be, on the CDS's border; or it
          says nothing of it.
  twice   it reports a residue of R in both edits' changes, which can't both be carried out.
  last    an edit touches the CDS's last codon, and csq reads the codon across its end otherwise than the letters are.
Pairs aren't asked where the edits don't lie apart (51) or one brings a stop of its own (53), where one of them changes no letter, and where the two variants, each as
far to the left as can be, would overlap or change places.
"""
import random
import re
import subprocess
import sys

sys.path.insert(0, "tests/account")
sys.path.insert(0, "tests/outside")
import account
import records

PAIRS = 3000


def said_by(folder, cases):
    """What csq says of each pair: its words, and its changes of residues. A case is a reference, and two edits with what they put where."""
    chromosome, places, gff = records.laid_out([reference for reference, _ in cases])
    lines, said = [], {}
    for i, ((_, edits), at) in enumerate(zip(cases, places)):
        variants = [records.variant(chromosome, at + first, at + last, new, True) for _, first, last, new in sorted(edits, key=lambda e: e[1:3])]
        (one, old, put), (two, gone, come) = variants
        if old != put and gone != come and one + len(old) <= two:
            said[i] = []
            lines += [(one, f"1\t{one}\t{i}\t{old}\t{put}\t.\t.\t.\tGT\t1|0"), (two, f"1\t{two}\t{i}\t{gone}\t{come}\t.\t.\t.\tGT\t1|0")]
    for name, told in records.csq(folder, chromosome, gff, lines, sample="S"):
        of = [one.split("|") for one in told.split(",") if f"|T{name}|" in one]
        said[int(name)] += of or ([] if "@" in told else [["nothing"]])
    return said


def carried(protein, changes):
    """R with csq's changes carried out, the last first; "" where one takes residues that another has taken."""
    parts = []
    for change in changes:
        old, _, new = change.partition(">")
        number, residues = re.fullmatch(r"(\d+)(.*)", old).groups()
        parts.append((int(number) - 1, residues, new.lstrip("0123456789") if new else residues))
    parts.sort(reverse=True)
    if any(at + len(old) > behind for (behind, _, _), (at, old, _) in zip(parts, parts[1:])):
        return ""
    for at, old, new in parts:
        assert protein[at:at + len(old)] == old, changes
        protein = protein[:at] + new + protein[at + len(old):]
    return protein


def verdict(ref, edits, words, changes, protein):
    """"agrees", or the reason why what csq says isn't the pair's protein; "" for none of the reasons."""
    made = carried(ref.protein, changes)
    if made == protein:
        return "agrees"
    cut = made[:made.find("*") + 1]
    if cut and cut == protein:
        return "stop"
    if made and "*" not in made and protein.startswith(made[:-1]) or cut and protein.startswith(cut[:-1]) and len(protein) > len(cut):
        return "end"
    if any(word in words for word in ("start_", "prime_utr", "coding_sequence", "nothing")):
        return "place"
    if not made:
        return "twice"
    return "last" if any(last > ref.ce - 3 for _, _, last, _ in edits) else ""


def sent(reference, edits):
    """A case as a line for pair.c."""
    parts = [*reference, 0]
    for edit in (account.edit_line(edit[0]) for edit in edits):
        parts.append(account.KINDS.index(edit.kind) + 1)
        for sign, n in (edit.start, edit.end):
            parts += [int(sign == "*"), -n if sign == "-" else n]
        parts.append(edit.bases or "-")
    return " ".join(map(str, parts))


def answered(command, cases):
    """What garumbott_pair answers to each case: a refusal, the transcript and the protein."""
    ran = subprocess.run(command, input="".join(sent(*case) + "\n" for case in cases), capture_output=True, text=True, check=True)
    answers = [line.split(" ") for line in ran.stdout.splitlines()]
    assert len(answers) == len(cases), ran.stderr
    return [(int(refusal), transcript, protein) for refusal, transcript, protein in answers]


def random_cases(command):
    """Random pairs that garumbott_pair accepts, each a reference and two edits, with the protein; and the refusals of the others."""
    rand, cases, proteins, refusals = random.Random(2), [], [], set()
    while len(cases) < PAIRS:
        drawn = [(reference, [records.random_edit(rand, *reference) for _ in range(2)]) for reference in (records.random_reference(rand) for _ in range(PAIRS))]
        for case, (refusal, _, protein) in zip(drawn, answered(command, drawn)):
            refusals.add(refusal)
            if refusal == 0 and len(cases) < PAIRS:
                cases.append(case)
                proteins.append(protein)
    return cases, proteins, refusals - {0}


def main(folder, command):
    cases, proteins, refusals = random_cases(command)
    counts, faults, said = {}, 0, said_by(folder, cases)
    if refusals != {51, 53}:
        faults += 1
        print(f"garumbott_pair refuses random pairs with {sorted(refusals)}")
    for i, told in sorted(said.items()):
        (reference, edits), protein = cases[i], proteins[i]
        ref = account.Reference(*reference, 0).check()
        changes = [of[5] for of in told if len(of) > 5 and of[5] and "?" not in of[5]]
        words = " and ".join(sorted({of[0] for of in told}))
        why = verdict(ref, edits, words, changes, protein)
        if not why:
            faults += 1
            if faults < 10:
                print(f"ref {reference[1]} {reference[2]} 0 {reference[0]}: {edits[0][0]} and {edits[1][0]} make {protein}; csq says {words}: {' '.join(changes)}")
        counts[words, why] = counts.get((words, why), 0) + 1
    total = {why: sum(n for (_, of), n in counts.items() if of == why) for why in sorted({why for _, why in counts})}
    version = subprocess.run(["bcftools", "--version"], capture_output=True, text=True, check=True).stdout.split("\n")[0]
    print(f"{version} csq, phased: {sum(counts.values())} pairs of edits; " + ", ".join(f"{n} {why or 'NO REASON'}" for why, n in total.items()))
    for words in sorted({words for words, _ in counts}):
        print(f"  {words}: " + ", ".join(f"{n} {why or 'NO REASON'}" for (of, why), n in sorted(counts.items()) if of == words))
    return 1 if faults or total.get("agrees", 0) < 1000 else 0


if __name__ == "__main__":
    sys.exit(main(sys.argv[1], sys.argv[2:]))
