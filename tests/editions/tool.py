"""./compare-editions: pairs of files, text and stored, against the account of the documents (tests/account), and what a user sees where something is wrong. Prints
what was tried; exits 1 if something differs."""
import itertools
import os
import subprocess
import sys
import tempfile

sys.path.insert(0, "tests/account")
import account

PROGRAM = os.path.abspath("compare-editions")


def expect(what, got, want):
    if got != want:
        print(f"{what}: {str(got)[:600]}, not {str(want)[:600]}")
        sys.exit(1)


def run(*words, **more):
    ran = subprocess.run([PROGRAM, *words], stdout=more.pop("stdout", subprocess.PIPE), stderr=subprocess.PIPE, **more)
    return ran.returncode, ran.stdout, ran.stderr.decode()


def write(name, data):
    with open(name, "wb") as f:
        f.write(data)
    return name


def field(tag, content):
    return bytes([tag]) + len(content).to_bytes(2, "big") + content


def stored(letters, cs, ce, table=0, exceptions=b"", end=b""):
    data = field(1, letters) + field(2, cs.to_bytes(2, "big") + ce.to_bytes(2, "big")) + field(3, bytes([table]))
    return data + (field(4, exceptions) if exceptions else b"") + (field(8, end) if end else b"")


FILES = [
    b"ref 1 9 0 ATGAAATAA\n",
    b"ref 1 12 0 ATGAAGCCCTAA",
    b"ref 2 10 0 CATGAAATAACC\n8A>G\nwhat stands here isn't looked at\n",
    b"ref 1 9 1 ATGTGATAA\n",
    stored(b"ATGAAATAA", 1, 9),
    stored(b"ATGAAATAA", 1, 9, 0, b"\0\2U"),
    stored(b"ATGTGATAA", 1, 9, 2),
    stored(b"ATGAAGNN", 1, 8, 0, b"", b"\2"),
    stored(b"ATGAAG", 1, 6, 0, b"", b"\1"),
    b"ref 1 12 0 ATGAAGNNNTAA\n",
    account.stored_form(account.Reference("CCATG" + "GCCAAA" * 17800 + "TAAC", 3, 8 + 6 * 17800, 0)),
    account.stored_form(account.Reference("ATG" + "GCCAAA" * 17000 + "GCTAAG" + "GCCAAA" * 799 + "TAG", 1, 6 + 6 * 17800, 0, [(2, "U")])),
    b"ref 4 " + str(3 * 5000 + 9).encode() + b" 0 CCCATG" + b"GCC" * 5000 + b"TAAC\n",
    b"ref 1 " + str(3 * 5000 + 6).encode() + b" 0 ATG" + b"GCC" * 4000 + b"GCT" + b"GCC" * 999 + b"TAG\n",
]


def reference(data):
    if data[:4] == b"ref ":
        return account.reference_line(data.split(b"\n")[0].decode())
    return account.stored(data)


def pairs():
    """All pairs of these files, both ways."""
    count = lines = 0
    with tempfile.TemporaryDirectory() as folder:
        names = [write(f"{folder}/{i}", data) for i, data in enumerate(FILES)]
        for i, j in itertools.product(range(len(FILES)), repeat=2):
            r, s = reference(FILES[i]), reference(FILES[j])
            rows = account.compared(r, s)
            want = "".join(f"{n} {a or '-'} {b or '-'}\n" for n, a, b in rows)
            told = f"compare-editions: {max(len(r.protein), len(s.protein))} codons compared, {len(rows)} differ\n"
            expect(f"files {i} and {j}", run(names[i], names[j]), (0, want.encode(), told))
            count += 1
            lines += len(rows)
    return count, lines


def seen():
    """Exit status and words where something is wrong."""
    with tempfile.TemporaryDirectory() as folder:
        good = write(f"{folder}/good", FILES[0])
        for words in ((), (good,), (good, good, good)):
            expect(f"{len(words)} files", run(*words), (1, b"", "compare-editions: two files, each with a reference: compare-editions FIRST SECOND\n"))
        for other, words in (("none", "there is no file {}"), ("crates", "{} is a folder")):
            expect(other, run(other, good), (1, b"", f"compare-editions: {words.format(other)}\n"))
            expect(f"{other}, second", run(good, other), (1, b"", f"compare-editions: {words.format(other)}\n"))
        longest = b"ref 1 6 0 ATGTAA" + b"C" * 16378  # 16,384 letters, the text program's limit
        expect("16,384 letters in text", run(write(f"{folder}/longest", longest), good)[0], 0)
        refused = [(longest + b"C", 1), (b"ref 1 6 0 ATGAAA\n", 6), (b"ref 1 6 3 ATGTAA\n", 4), (b"ref 1 6 0 ATGUAA\n", 2), (b"ref 2 6 0 ATGTAA\n", 3), (b"", 22), (b"\1\0\6ATG", 20),
                   (b"\1\0\6ATGTAA", 22), (b"reference", 21), (stored(b"ATGTAA", 1, 6, 0, b"", b"\1"), 28), (stored(b"ATGTAA", 1, 6, 0, b"\0\7K"), 5)]
        for data, number in refused:
            bad = write(f"{folder}/bad", data)
            for first, second in ((bad, good), (good, bad)):
                status, out, error = run(first, second)
                expect(f"{data}, refused", (status, out, error.startswith(f"compare-editions: {bad} is refused with {number}: "), error.count("\n")), (1, b"", True, 1))
        two = write(f"{folder}/two", b"ref 1 6 0 ATGAAA\n"), write(f"{folder}/bad", longest + b"C")
        expect("the first's refusal before the second's 1", run(*two)[2].split(":")[1], f" {two[0]} is refused with 6")
        os.mkfifo(f"{folder}/fifo")
        with subprocess.Popen(["sh", "-c", f"cat {good} >{folder}/fifo"]):
            expect("a named pipe", run(f"{folder}/fifo", good)[:2], (0, b""))
        for data in (b"ref ", b"ref 1 6 0 \n", b"ref 1 6 0 ATGTAA\r\n", b"ref 01 6 0 ATGTAA\n", b"ref 1 6 0 atgtaa\n", b"ref 1 6  0 ATGTAA\n", b"ref 1 6 0 ATGTAA " + b"C" * 30000):
            bad = write(f"{folder}/bad", data)
            for words in ((bad, good), (good, bad)):
                expect(f"{data[:30]}", run(*words), (1, b"", f"compare-editions: {bad}: its first line isn't in the form: ref CS CE TABLE LETTERS\n"))
        long = [write(f"{folder}/{i}", data) for i, data in enumerate(FILES[-2:])]
        with open("/dev/full", "wb") as full:
            expect("a full disk", run(good, long[0], stdout=full), (1, None, "compare-editions: standard output can't be written: answers are missing\n"))
        status, out, error = run("--help")
        expect("the help", (status, error, b"compare-editions FIRST SECOND: " in out, b"Exit status: 0, or 1 " in out, b"set -u" in out), (0, "", True, True, False))
    return len(refused) + 7


count, lines = pairs()
print(f"compare-editions: {count} pairs of files, {lines} lines as the account has them; {seen()} files that are refused or out of form")
