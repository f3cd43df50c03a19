"""The module's own records, handed back to it. Random edits that are answered Changed, of small and middle references with every end, with and without exceptions;
each record as it is, told otherwise (longer, or begun earlier), and damaged by one residue, one number and one length, through C (calls.c). Every answer is held
to the account of the documents (tests/account): both words, every length, what the three buffers hold, and the codons that the edit itself looks up. Prints how much was compared; exits 1 at a
difference, and tells the first.

    python3 tests/records/own.py COUNT SEED COMMAND..    COMMAND is the compiled calls.c
"""
import random
import subprocess
import sys
import threading

sys.path.insert(0, "tests/account")
import account

STOPS = ["TAA TAG TGA TAR TRA".split(), "TAA TAG TAR".split(), "TAA TAG TAR AGA AGG AGR".split()]
RESIDUES = "ACDEFGHIKLMNPQRSTVWYXU*"
CLASSES = "start-lost extension stop-gained frameshift substitution deletion duplication insertion delins".split()
AMPLE = (32768, 5462, 10923)


# References and edits

def random_reference(rand):
    """One that isn't refused and not Unknown for its stops."""
    middle = rand.random() < 0.15
    codons, end, table = rand.randint(40, 300) if middle else rand.randint(2, 12), rand.choice((0, 0, 0, 1, 2)), rand.choice((0, 0, 1, 2))
    letters = rand.choice(("ACGT", "ACGT", "ACGT", "AT", "ACGTRYN", "ACGTACGTACGTRYSWKMBDHVN"))
    some = lambda n: "".join(rand.choice(letters) for _ in range(n))
    before = some(rand.choice((0, 0, 1, 2, 5, 9)))
    cds = []
    while len(cds) < codons:
        codon = some(3)
        if account.residue(table, codon) != "*":
            cds.append(codon)
    rest, behind, exceptions = "", "", []
    if rand.random() < 0.35:
        for number in sorted(rand.sample(range(1, codons + 1), min(codons, rand.choice((1, 1, 2, 3, 16))))):
            exceptions.append((number, rand.choice("UXKABZM")))
            if rand.random() < 0.4:
                cds[number - 1] = rand.choice(STOPS[table])  # a stop but for its exception
    if end == account.AT_STOP:
        if rand.random() < 0.1 and len(exceptions) < 16:  # a stop by its exception
            cds.append("GCC")
            exceptions.append((codons + 1, "*"))
        else:
            cds.append(rand.choice(STOPS[table]))
        behind = some(rand.choice((0, 0, 1, 2, 3, 6, 10)))
    elif end == account.CUT_CODON:
        rest = some(rand.choice((1, 2)))
    size = 3 * len(cds) + len(rest)
    return account.Reference(before + "".join(cds) + rest + behind, len(before) + 1, len(before) + size, table, exceptions, end).check()


def position(ref, place):
    return ("-", ref.cs - 1 - place) if place < ref.cs - 1 else ("*", place + 1 - ref.ce) if place >= ref.ce else ("", place + 2 - ref.cs)


def random_edit(rand, ref):
    """Mostly one that isn't refused."""
    size = len(ref.letters)
    kind = rand.choice(account.KINDS[:6]) if rand.random() < 0.97 else rand.choice(account.KINDS)
    start = rand.randrange(ref.cs - 1, ref.ce) if rand.random() < 0.9 else rand.randrange(size)
    end = start + rand.choice((0, 0, 1, 2, 2, 2, 3, 5, 5, 8, rand.randrange(size)))
    end = end if rand.random() < 0.02 else min(end, size - 1)
    if rand.random() < 0.01:  # no protein is left
        kind, start, end = "deletion", ref.cs - 1, size - 1
    if kind == "substitution":
        end = start
    if kind == "insertion":
        end = start + 1
    letters = "ACGT" if rand.random() < 0.8 else "ACGTRYN"
    bases = "".join(rand.choice(letters) for _ in range(1 if kind == "substitution" else rand.choice((1, 2, 3, 3, 3, 4, 6, 9, 30))))
    if kind == "insertion" and rand.random() < 0.3:  # a copy, told as an insertion
        bases = ref.letters[max(0, start - 2):start + 1] or bases
    return account.Edit(kind, position(ref, start), position(ref, end), bases if kind in account.WITH_BASES else "")


# Proposals

def other(rand, residue):
    return rand.choice([x for x in RESIDUES if x != residue])


def one_residue(rand, number, deleted, inserted):
    at = rand.randrange(len(deleted) + len(inserted))
    both = deleted + inserted
    new = rand.choice("a[@\0\xff") if rand.random() < 0.05 else other(rand, both[at])
    both = both[:at] + new + both[at + 1:]
    return number, both[:len(deleted)], both[len(deleted):]


def one_number(rand, r, number, deleted, inserted):
    new = rand.choice((number - 1, number + 1, number - 1, number + 1, rand.randint(0, len(r) + 2), len(r) + 1, len(r) + 2, 0, number + 2 ** 32, 2 ** 64 - 1))
    return new if new != number else number + 1, deleted, inserted


def one_length(rand, number, deleted, inserted):
    """One residue more or less, at either end of either part."""
    parts = [deleted, inserted]
    which, first = rand.randrange(2), rand.random() < 0.5
    if parts[which] and rand.random() < 0.5:
        parts[which] = parts[which][1:] if first else parts[which][:-1]
    else:
        new = rand.choice(RESIDUES)
        parts[which] = new + parts[which] if first else parts[which] + new
    return number, *parts


def told_otherwise(rand, r, a, number, deleted, inserted):
    """The same change with residues around it that stay, or, where it can be, some places earlier."""
    before, behind = rand.randint(0, min(3, number - 1)), rand.randint(0, min(3, len(r) - (number - 1) - len(deleted)))
    at, end = number - 1 - before, number - 1 + len(deleted) + behind
    longer = at + 1, r[at:end], a[at:at + end - at + len(a) - len(r)]
    if rand.random() < 0.6 or bool(deleted) == bool(inserted):
        return longer
    part, n = deleted or inserted, number
    while n > 1 and r[n - 2] == part[-1] and rand.random() < 0.8:
        part, n = part[-1] + part[:-1], n - 1
    return (n, part, "") if deleted else (n, "", part)


# The comparison

def eight(n):
    return (n % 2 ** 64).to_bytes(8, "big")


def text(s):
    return eight(len(s)) + s.encode("latin-1")


def sent(ref, edit, room, proposals):
    places = [n for sign, number in (edit.start, edit.end) for n in (sign == "*", -number if sign == "-" else number)]
    listed = "".join(chr(n // 256) + chr(n % 256) + x for n, x in ref.exceptions)
    head = [text(ref.letters), eight(ref.cs), eight(ref.ce), eight(ref.table), text(listed), eight(ref.end), eight(account.KINDS.index(edit.kind) + 1)]
    return b"".join(head + [eight(n) for n in places] + [text(edit.bases)] + [eight(n) for n in room] + [eight(len(proposals))]
                    + [eight(n) + text(deleted) + text(inserted) for n, deleted, inserted in proposals])


def shown(ref, edit, proposal):
    places = "_".join(sign + str(n) for sign, n in (edit.start, edit.end))
    return (f"letters {ref.letters} cs {ref.cs} ce {ref.ce} table {ref.table} exceptions {ref.exceptions} end {ref.end}, {edit.kind} {places} {edit.bases}: "
            + " ".join(str(part) or "-" for part in proposal))


def wanted(ref, edit, altered, room, proposal):
    """The numbers of garumbott_check, and of the buffers' state."""
    try:
        if altered is None:
            (first, second), made = account.checked(ref, edit, *proposal, room)
        else:  # Changed, and known
            account.check_room(ref, altered, *room)
            (first, second), made = account.proposal_answers(ref.protein, altered.protein, *proposal), altered
    except account.Refused as refusal:
        return [refusal.number, 0, 0, 0, 0, 0, 0]
    return [0, int(first), int(second), len(made.transcript), len(ref.protein), len(made.protein), 1]


def cases(count, seed):
    """Edits with their proposals, each with what it is and what must be answered."""
    rand, changed = random.Random(seed), 0
    while changed < count:
        ref = random_reference(rand)
        for _ in range(rand.choice((1, 2, 4))):
            edit, altered, record, room = random_edit(rand, ref), None, None, AMPLE
            try:
                record, altered = account.answer(ref, edit)
            except account.Refused:
                pass
            word = "refused" if record is None else record.word
            if word not in CLASSES:
                if rand.random() < 0.2 and word != "refused":
                    proposal = (rand.randint(0, 3), "", rand.choice(("", "K", "k")))
                    room = (0, 0, 0) if rand.random() < 0.4 else AMPLE
                    yield ref, edit, altered, word, room, [(word, proposal, wanted(ref, edit, None, room, proposal))]
                continue
            r, a, s = ref.protein, altered.protein, record.number - 1
            own = record.number, r[s:s + record.deleted[1]], a[s:s + record.inserted[1]]
            exact = len(altered.transcript), len(r), -(-(len(altered.transcript) - ref.cs + 1) // 3)
            room = exact if rand.random() < 0.3 else AMPLE
            proposals = [("own", own), ("residue", one_residue(rand, *own)), ("number", one_number(rand, r, *own)), ("length", one_length(rand, *own)),
                         ("otherwise", told_otherwise(rand, r, a, *own))]
            changed += 1
            yield ref, edit, altered, word, room, [(what, p, wanted(ref, edit, altered, room, p)) for what, p in proposals]
            if rand.random() < 0.05:  # a byte too little
                which = rand.randrange(3)
                room = tuple(n - (i == which) for i, n in enumerate(exact))
                yield ref, edit, altered, "short", room, [("short", p, wanted(ref, edit, altered, room, p)) for _, p in proposals]


def main(count, seed, command):
    every = list(cases(count, seed))
    program = subprocess.Popen(command, stdin=subprocess.PIPE, stdout=subprocess.PIPE)

    def feed():
        try:
            for ref, edit, _, _, room, proposals in every:
                program.stdin.write(sent(ref, edit, room, [p for _, p, _ in proposals]))
            program.stdin.close()
        except BrokenPipeError:
            pass

    threading.Thread(target=feed, daemon=True).start()
    numbers = lambda n: [int.from_bytes(program.stdout.read(8), "big") for _ in range(n)]
    met, classes, ends, flagged, excepted = {}, {}, {}, [0, 0], 0
    for ref, edit, altered, word, room, proposals in every:
        answer = numbers(14)
        made = [program.stdout.read(n).decode("latin-1") for n in answer[3:6]]
        if altered is not None and made != [altered.transcript, ref.protein, altered.protein]:
            print(f"{shown(ref, edit, ())}garumbott_record writes {made}")
            return 1
        looked_up = 0 if altered is None else altered.looked_up(ref)
        if answer[13] != looked_up:
            print(f"{shown(ref, edit, ())}garumbott_record looks up {answer[13]} codons, not {looked_up}")
            return 1
        for what, proposal, want in proposals:
            got = numbers(7)
            if got != want:
                print(f"{shown(ref, edit, proposal)}: garumbott_check {got}, not {want}, with room {room}")
                return 1
            said = f"refused {want[0]}" if want[0] else ("no no", "yes no", "", "yes yes")[want[1] + 2 * want[2]]
            met[what, said] = met.get((what, said), 0) + 1
            if what == "own":
                if not want[1] or not (want[2] or altered.flag):
                    print(f"{shown(ref, edit, proposal)}: the module's own record is answered {said}")
                    return 1
                flagged[altered.flag and not want[2]] += 1
        if word in CLASSES:
            classes[word], ends[ref.end], excepted = classes.get(word, 0) + 1, ends.get(ref.end, 0) + 1, excepted + bool(ref.exceptions)
    if program.stdout.read() or program.wait() != 0:
        print("the program failed, or wrote more than it was asked")
        return 1
    kinds = {edit.kind for _, edit, _, word, _, _ in every if word in CLASSES}
    needed = [(what, "no no") for what in ("residue", "number", "length")] + [("residue", "refused 27"), ("number", "refused 27"), ("number", "yes no")]
    needed += [("own", "yes yes"), ("own", "yes no"), ("otherwise", "yes no"), ("short", "refused 11"), ("short", "refused 12")]
    needed += [(word, "refused 26") for word in ("silent", "no-protein", "unknown")]
    missing = [need for need in needed if need not in met] + sorted(set(CLASSES) - set(classes)) + sorted(set(account.KINDS[:6]) - kinds) + [end for end in (0, 1, 2) if end not in ends]
    if missing and count >= 5000:
        print(f"not met: {missing}")
        return 1
    print(f"{sum(classes.values())} edits answered Changed ({', '.join(f'{n} {word}' for word, n in classes.items())}; {', '.join(f'{n} with end {end}' for end, n in sorted(ends.items()))}; "
          f"{excepted} with exceptions)")
    for what in ("own", "otherwise", "residue", "number", "length", "short", "silent", "no-protein", "unknown"):
        print(f"  {what}: " + ", ".join(f"{n} {said}" for (of, said), n in sorted(met.items()) if of == what))
    print(f"  {flagged[1]} of the module's own records have the frameshift flag and are not the shortest; every other one is")
    return 0


sys.exit(main(int(sys.argv[1]), int(sys.argv[2]), sys.argv[3:]))
