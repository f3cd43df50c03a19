"""Compares the lines `code TABLE RESIDUES` and `ambiguous TABLE RESIDUES` of a file with NCBI's gc.prt and with BioPerl's and seqkit's translations.

codons OUT         writes the 3,375 codons of the fifteen letters, one a line
fasta OUT          the same as FASTA, each a record of its own
compare OURS GC BIOPERL1 SEQKIT1 BIOPERL2 SEQKIT2
"""
import itertools
import re
import sys

LETTERS = "ACGTRYSWKMBDHVN"
CODONS = ["".join(c) for c in itertools.product(LETTERS, repeat=3)]
# NCBI's codes 1 and 2 are tables 0 and 2
TABLES = {1: "0", 2: "2"}
# the mixes of D with N and of E with Q, which BioPerl reads as B and Z and seqkit as X
MIXES = {"RAC": "B", "RAT": "B", "RAY": "B", "SAA": "Z", "SAG": "Z", "SAR": "Z"}


def lines(path, word):
    found = {}
    with open(path, encoding="ascii") as f:
        for line in f:
            parts = line.split()
            if len(parts) == 3 and parts[0] == word:
                found[parts[1]] = parts[2]
    return found


def ncbi(path):
    """Residues by code, in NCBI's order of codons: first base slowest, T, C, A, G."""
    with open(path, encoding="ascii") as f:
        text = f.read()
    return {int(i): r for i, r in re.findall(r'id (\d+) ,\s*ncbieaa\s+"([A-Z*]{64})"', text)}


def seqkit(path):
    answers = {}
    with open(path, encoding="ascii") as f:
        name = None
        for line in f:
            line = line.strip()
            if line.startswith(">"):
                name = line[1:]
                answers[name] = ""
            else:
                answers[name] += line
    return answers


def bioperl(path):
    with open(path, encoding="ascii") as f:
        return dict(zip(CODONS, f.read().split(), strict=True))


def compare(ours, gc, *paths):
    faults = 0
    plain = lines(ours, "code")
    mixed = lines(ours, "ambiguous")
    codes = ncbi(gc)
    for (code, table), theirs, others in zip(TABLES.items(), map(bioperl, paths[::2]), map(seqkit, paths[1::2])):
        if plain.get(table) != codes[code]:
            print(f"code {code}: ours {plain.get(table)}, NCBI's {codes[code]}")
            faults += 1
        answers = mixed.get(table, "")
        if len(answers) != len(CODONS) or len(others) != len(CODONS):
            print(f"code {code}: {len(answers)} answers of ours and {len(others)} of seqkit's, not {len(CODONS)}")
            return 1
        for codon, residue in zip(CODONS, answers):
            if theirs[codon] != residue:
                print(f"code {code}, {codon}: ours {residue}, BioPerl's {theirs[codon]}")
                faults += 1
            if (residue, others[codon]) != ((MIXES[codon], "X") if codon in MIXES else (residue, residue)):
                print(f"code {code}, {codon}: ours {residue}, seqkit's {others[codon]}")
                faults += 1
        print(f"code {code}: 64 codons held to NCBI's, {len(CODONS)} to BioPerl's and to seqkit's, which reads X for six: {', '.join(MIXES)}")
    return 1 if faults else 0


if sys.argv[1] in ("codons", "fasta"):
    with open(sys.argv[2], "w", encoding="ascii") as f:
        f.writelines(f">{c}\n{c}\n" if sys.argv[1] == "fasta" else f"{c}\n" for c in CODONS)
else:
    sys.exit(compare(*sys.argv[2:]))
