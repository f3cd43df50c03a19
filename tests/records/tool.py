"""./check-records: the inputs of the file lines beside what each must print, inputs at the limits, random and damaged lines, and what a user sees where something is
wrong. The account of the documents (tests/account) must say the same. Prints what was tried; exits 1 if something differs."""
import os
import random
import signal
import subprocess
import sys
import tempfile

sys.path.insert(0, "tests/account")
import account

PROGRAM = os.path.abspath("check-records")
W = b"ref 3 17 0 GGATGGCCAAATGGTAACCTGAC\n"
WORDS_OF_LINE = b"check-records: the first line is refused: the text line is not in the form\n"
RETURN = b"check-records: the first line ends in a carriage return: a file with CR LF line ends?\n"
FULL = b"check-records: standard output can't be written: answers are missing\n"


def expect(what, got, want):
    if got != want:
        print(f"{what}: {str(got)[:600]}, not {str(want)[:600]}")
        sys.exit(1)


def run(data, *words, **more):
    ran = subprocess.run([PROGRAM, *words], input=None if "stdin" in more else data, stdout=more.pop("stdout", subprocess.PIPE), stderr=subprocess.PIPE, **more)
    return ran.returncode, ran.stdout, ran.stderr


def told(counts):
    first = [f"{n} {answer}" for answer, n in counts.items() if not answer.startswith("refused")]
    refused = sorted((int(answer.split()[1]), n) for answer, n in counts.items() if answer.startswith("refused"))
    return f"check-records: {', '.join(first + [f'{n} refused {number}' for number, n in refused])}\n".encode()


def same(what, data):
    """The whole run as the account has it: the answers and the last line on standard error."""
    want, counts = account.check_run(data)
    status, out, error = run(data)
    expect(what, (status, out), (0, want))
    if counts is None:
        expect(f"{what}: standard error", error.startswith(b"check-records: the first line is refused: "), True)
    else:
        expect(f"{what}: standard error", error, told(counts))
    return want


def unescaped(text):
    return text.replace("\\r", "\r").replace("\\t", "\t").replace("\\0", "\0")


def listed():
    """The blocks of the file lines."""
    block, count = [], 0
    with open("tests/records/lines", encoding="ascii", newline="\n") as f:
        for line in f.read().split("\n") + [""]:
            if line.startswith("#"):
                continue
            if line:
                left, right = line.rsplit("   ", 1)
                block.append((unescaped(left), right))
            elif block:
                data = "".join(left + "\n" for left, _ in block).encode("latin-1")
                want = "".join(right + "\n" for _, right in block).encode()
                expect(f"the account's answer to {data[:60]}", account.check_run(data)[0], want)
                same(f"the answer to {data[:60]}", data)
                if block[0][1].startswith("refused"):
                    same("nothing behind a refused first line", data + b"8A>G 3 K R\n")
                count += len(block)
                block = []
    return count


def limits():
    """No bytes, no line feed, 20,480 bytes of a line and one more, the longest records."""
    same("no bytes", b"")
    same("a line feed", b"\n")
    same("a reference alone", W)
    same("a last line without a line feed", W + b"8A>G 3 K R")
    for n in (20480, 20481, 70000, 140000):
        same(f"a line of {n} bytes", W + b"8A>G 3 K " + b"R" * (n - 9) + b"\n8A>G 3 K R\n")
        same(f"a line of {n} bytes, the last", W + b"8A>G 3 " + b"K" * (n - 9) + b" R")
        same(f"a first line of {n} bytes", b"ref 1 6 0 ATGTAA" + b"C" * (n - 16) + b"\n1A>G 1 M V\n")
    long = b"ref 1 16383 0 ATG" + b"GCC" * 5459 + b"TAAA\n"
    shifted = account.check_run(long)[0][len("reference "):-1].decode()
    expect("R's length", len(shifted), 5461)
    ref = account.reference_line(long[:-1].decode()).check()
    lines = []
    for edit in ("4G>T", "5del", "7_16380dup", "1_16383inv", "4_6delins" + "GAT" * 1365 + "G", "16381T>C"):
        record, altered = account.answer(ref, account.edit_line(edit))
        s = record.number - 1
        parts = ref.protein[s:s + record.deleted[1]], altered.protein[s:s + record.inserted[1]]
        lines += [f"{edit} {record.number} {parts[0] or '-'} {parts[1] or '-'}", f"{edit} 1 {ref.protein} {altered.protein}", f"{edit} 1 {ref.protein} {altered.protein[:-1]}"]
    expect("lines within the limit", max(map(len, lines)) <= 20480, True)
    same("the longest records", long + "\n".join(lines).encode())


def random_line(rand, codons):
    start = rand.randint(1, 3 * codons + 3)
    verb = rand.choice(["del", "dup", "inv", "=", "delins", "ins", ">", ">", ">"])
    new = "".join(rand.choice("ACGT") for _ in range(rand.choice([1, 2, 3, 6])))
    place = f"{start}_{start + 1}" if verb == "ins" else str(start) if rand.random() < 0.4 else f"{start}_{start + rand.randint(0, 7)}"
    return f"{start}A>{new[0]}" if verb == ">" else place + verb + (new if verb in ("ins", "delins") else "")


def random_input(rand):
    """A reference and records: of each edit its own, one of another edit, and one made up."""
    codons = rand.randint(2, 9)
    letters = "".join(rand.choice(["GCC", "AAA", "TGG", "CTN", "GAY", "ATG", "CCT"]) for _ in range(codons))
    head = f"ref {1 + rand.randint(0, 1)} {3 * codons + 3} {rand.choice([0, 1, 2])} {letters}TAA{rand.choice(['', 'CCTAAG', 'A'])}"
    lines, last = [head], "3 K R"
    try:
        ref = account.reference_line(head).check()
    except account.Refused:
        ref = None
    for _ in range(40):
        edit, own = random_line(rand, codons), last
        if ref is not None:
            try:
                record, altered = account.answer(ref, account.edit_line(edit))
                part = lambda protein, where: protein[where[0]:where[0] + where[1]] or "-"
                if altered is not None and record.number:
                    own = f"{record.number} {part(ref.protein, record.deleted)} {part(altered.protein, record.inserted)}"
            except account.Refused:
                pass
        residues = lambda: "".join(rand.choice("AKWMX*a") for _ in range(rand.randint(1, 3))) if rand.random() < 0.7 else "-"
        lines += [f"{edit} {own}", f"{edit} {last}", f"{edit} {rand.randint(0, codons + 3)} {residues()} {residues()}"]
        last = own
    return "\n".join(lines).encode() + rand.choice([b"", b"\n", b"\n\n"])


def damaged(rand, data):
    data = bytearray(data)
    for _ in range(rand.randint(1, 6)):
        at = rand.randrange(len(data))
        what = rand.random()
        if what < 0.5:
            data[at] = rand.choice([rand.randrange(256), 10, 32, 48, 45, 0, 255])
        elif what < 0.75:
            del data[at:at + rand.choice([1, 1, 2, 30])]
        else:
            data[at:at] = rand.choice([b"\n", b"0", b" ", b"-", b"\r", bytes([rand.randrange(256)])])
        if not data:
            break
    return bytes(data)


def random_inputs(seed, count):
    rand, lines, answers = random.Random(seed), 0, {}
    for _ in range(count):
        data = random_input(rand)
        for what, given in (("random lines", data), ("damaged lines", damaged(rand, data))):
            out = same(what, given)
            lines += out.count(b"\n")
            for line in out.split(b"\n"):
                answers[line] = answers.get(line, 0) + 1
    for _ in range(count // 4):
        same("random bytes behind a reference", W + bytes(rand.choice(b"0123456789_-*delinsup=AC> \n") for _ in range(2000)))
    missing = [answer for answer in (b"yes yes", b"yes no", b"no no", b"refused 7", b"refused 26", b"refused 27", b"refused 30") if answer not in answers]
    expect("answers that never came up", missing, [])
    return lines


def seen():
    """Exit status and standard error where something is wrong."""
    expect("a missing file", run(b"", "none.txt"), (1, b"", b"check-records: there is no file none.txt\n"))
    expect("a folder", run(b"", "crates"), (1, b"", b"check-records: crates is a folder\n"))
    expect("two files", run(b"", "a", "b"), (1, b"", b"check-records: one file, or none for standard input: check-records [FILE]\n"))
    expect("standard input closed", run(b"", stdin=subprocess.DEVNULL, preexec_fn=lambda: os.close(0)), (1, b"", b"check-records: standard input is closed\n"))
    folder = os.open("crates", os.O_RDONLY)
    expect("a folder on standard input", run(b"", stdin=folder), (1, b"", b"check-records: standard input can't be read\n"))
    os.close(folder)
    with open("/dev/full", "wb") as full:
        expect("answers to a full disk", run(W + 20000 * b"8A>G 3 K R\n", stdout=full), (1, None, FULL))
        expect("a last answer to a full disk", run(W + b"8A>G 3 K R", stdout=full), (1, None, FULL))
        expect("a refused first line's answer to a full disk", run(b"x\n", stdout=full), (1, None, FULL))
    status, out, error = run(b"", "--help")
    expect("the help", (status, error, b"check-records [FILE]: " in out, b"Exit status: 0, or 1 " in out, b"set -u" in out), (0, b"", True, True, False))
    expect("CR LF line ends", run(W[:-1] + b"\r\n8A>G 3 K R\r\n"), (0, b"refused 30\n", WORDS_OF_LINE + RETURN))
    expect("a carriage return at the input's end", run(W[:-1] + b"\r"), (0, b"refused 30\n", WORDS_OF_LINE + RETURN))
    expect("a first line in another form", run(b"reference\n"), (0, b"refused 30\n", WORDS_OF_LINE))
    expect("a reference that is refused", run(b"ref 1 6 3 ATGTAA\n8A>G 3 K R\n"), (0, b"refused 4\n", b"check-records: the first line is refused: the table is not 0, 1 or 2\n"))
    by_name = run(b"", "examples/records.txt")
    with open("examples/records.txt", "rb") as given, open("examples/records.out", "rb") as wanted:
        expect("the example", by_name[:2], (0, wanted.read()))
        expect("the example on standard input", run(b"", stdin=given), by_name)

    head = subprocess.Popen([PROGRAM], stdin=subprocess.PIPE, stdout=subprocess.PIPE, stderr=subprocess.PIPE)
    head.stdin.write(W)
    head.stdin.flush()
    expect("the first answer, before the input ends", head.stdout.readline(), b"reference MAKW*\n")
    head.stdout.close()
    try:
        head.stdin.write(100 * b"8A>G 3 K R\n")
        head.stdin.close()
    except BrokenPipeError:
        pass
    expect("a reader that wants no more", (head.wait(), head.stderr.read()), (-signal.SIGPIPE, b""))


def building():
    """The script among crates and a toolchain of the test's own, whose rt hands out the archive that is there."""
    with tempfile.TemporaryDirectory() as room:
        def put(name, text):
            path = os.path.join(room, name)
            os.makedirs(os.path.dirname(path), exist_ok=True)
            with open(path, "w", encoding="utf-8") as f:
                f.write(text)
            os.chmod(path, 0o755)

        for name in ("check-records", "tools/archive", "tools/check-records.c", "tools/lines.h", "include/garumbott.h"):
            with open(name, encoding="utf-8") as f:
                put(f"here/{name}", f.read())
        put("here/crates.txt", "garumbott:\n")
        put("here/crates/garumbott/src/lib.rt", "")
        put("kit/bin/rt", '#!/bin/sh\n[ "$* in ${PWD##*/}" = "lib in garumbott" ] || exit 2\n[ ! -e ../../broken ] || { echo "a wrong proof"; exit 1; }\n'
            f'mkdir -p out && cp "{os.path.abspath("target/staticlib/libgarumbott.a")}" out/\n')
        env = {**os.environ, "PATH": f"{room}/kit/bin:{os.environ['PATH']}"}
        ran = lambda: subprocess.run([os.path.join(room, "here/check-records")], input=W + b"8A>G 3 K R\n", capture_output=True, env=env)
        started, counted = b"check-records: proving the library and building the program; this takes some minutes the first time\n", b"check-records: 1 yes yes, 0 yes no, 0 no no\n"
        for what, before in (("a first run", started), ("a second run", b"")):
            got = ran()
            expect(what, (got.returncode, got.stdout, got.stderr), (0, b"reference MAKW*\nyes yes\n", before + counted))
        put("here/crates/garumbott/src/lib.rt", "// changed")
        got = ran()
        expect("a run when a source has changed", (got.returncode, got.stderr), (0, started + counted))
        put("here/broken", "")
        put("here/crates/garumbott/src/lib.rt", "// changed again")
        got = ran()
        expect("a run that isn't proved", (got.returncode, got.stdout, got.stderr), (1, b"", started + b"a wrong proof\ncheck-records: the library was not proved\n"))
        os.remove(os.path.join(room, "here/broken"))
        put("here/tools/check-records.c", "int main(void) { return x; }\n")
        got = ran()
        expect("a program that doesn't compile", (got.returncode, got.stdout, got.stderr.endswith(b"check-records: the program was not built\n")), (1, b"", True))


run(b"")  # builds the program, if that wasn't done
count = listed()
limits()
lines = random_inputs(1, 60)
seen()
building()
print(f"check-records: {count} lines beside their answers, {lines} random and damaged lines: as the account has them")
