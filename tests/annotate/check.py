"""Holds ./annotate to the second account. Prints what was compared, and exits 1 at the first difference, with its input in a file."""
import array
import fcntl
import os
import random
import resource
import subprocess
import sys
import tempfile
import termios
import time

sys.path.insert(0, "tests/account")
import account

PROGRAM = ["./annotate"]
MOST_MEMORY = 64 << 20


def fail(words, data):
    with tempfile.NamedTemporaryFile(prefix="annotate-", delete=False) as f:
        f.write(data)
    print(f"{words}; the input is in {f.name}")
    sys.exit(1)


def annotated(data):
    return subprocess.run(PROGRAM, input=data, capture_output=True, check=True).stdout


def in_pieces(data, size):
    """The output where each read finds `size` bytes: the next piece is written once the last was taken."""
    reading, writing = os.pipe()
    waiting = array.array("i", [0])
    with tempfile.TemporaryFile() as out:
        program = subprocess.Popen(PROGRAM, stdin=reading, stdout=out)
        for at in range(0, len(data), size):
            os.write(writing, data[at:at + size])
            while True:
                fcntl.ioctl(reading, termios.FIONREAD, waiting)
                if waiting[0] == 0 or program.poll() is not None:
                    break
            if program.poll() is not None:
                break
        os.close(writing)
        os.close(reading)
        program.wait()
        out.seek(0)
        return out.read()


def random_reference(rand):
    before, behind, codons = rand.choice([0, 1, 2, 5]), rand.choice([0, 1, 2, 3, 7, 12]), rand.randint(1, 8)
    letters = rand.choice(["ACGT", "ACGT", "AGT", "ACGTRYN"])
    some = lambda n: "".join(rand.choice(letters) for _ in range(n))
    cs, ce, table = before + 1, before + 3 * codons + 3, rand.choice([0, 0, 1, 2])
    if rand.random() < 0.1:
        cs, ce, table = cs + rand.choice([-1, 0, 1]), ce + rand.choice([0, 1, 3, 60]), rand.choice([0, 3, 256, 65536])
    return f"ref {cs} {ce} {table} {some(before + 3 * codons)}{rand.choice(['TAA', 'TAG', 'TGA', 'TAR', 'AGA'])}{some(behind)}", 3 * codons + 3


def random_position(rand, bases):
    sign = rand.choice(["", "", "", "", "-", "*"])
    return sign + str(rand.choice([rand.randint(0, bases + 1), rand.randint(1, 3), rand.randint(1, bases)]) if sign == "" else rand.randint(0, 9))


def random_edit(rand, bases):
    start = random_position(rand, bases)
    end = str(int(start) + rand.randint(0, 7)) if start.isdigit() and rand.random() < 0.8 else random_position(rand, bases)
    verb = rand.choice(["del", "dup", "inv", "=", "delins", "ins", "ins", ">"])
    new = "".join(rand.choice(rand.choice(["ACGT", "ACGT", "ACGTRYN", "AZ"])) for _ in range(rand.choice([1, 2, 3, 6, 30])))
    if verb == ">":
        return f"{start}A>{new[0]}"
    if verb == "ins" and start.isdigit() and rand.random() < 0.8:
        end = str(int(start) + 1)
    where = start if rand.random() < 0.3 else f"{start}_{end}"
    return where + verb + (new + rand.choice(["", "TAA", "TAGC"]) if verb in ("ins", "delins") else "")


def random_input(rand, edits):
    line, bases = random_reference(rand)
    return "\n".join([line] + [random_edit(rand, bases) for _ in range(edits)]).encode() + rand.choice([b"", b"\n", b"\n\n"])


def damaged(rand, data):
    """A copy with some bytes changed, dropped or put in."""
    data = bytearray(data)
    for _ in range(rand.randint(1, 4)):
        at = rand.randrange(len(data) + 1)
        what = rand.random()
        if what < 0.4 and at < len(data):
            data[at] = rand.choice([rand.randrange(256), 10, 32, 48, 0, 255])
        elif what < 0.7:
            del data[at:at + rand.choice([1, 1, 2, 40])]
        else:
            data[at:at] = rand.choice([b"\n", b"0", b" ", b"\r", b"_", bytes([rand.randrange(256)]) * rand.choice([1, 5, 21000])])
    return bytes(data)


def same(what, data):
    if annotated(data) != account.run(data):
        fail(f"{what}: the output differs from the account's", data)


def random_inputs(seed, count):
    rand, lines = random.Random(seed), 0
    for _ in range(count):
        data = random_input(rand, 60)
        same("random lines", data)
        same("damaged lines", damaged(rand, data))
        lines += 2 * data.count(b"\n")
    for _ in range(count // 4):
        same("random bytes", bytes(rand.randrange(256) for _ in range(rand.randint(0, 300))))
        same("random bytes behind a reference", b"ref 1 6 0 ATGTAA\n" + bytes(rand.choice(b"0123456789_-*delinsup=AC>\n") for _ in range(3000)))
    print(f"{lines} random and damaged lines: as the account has them")


def pieces(seed):
    rand = random.Random(seed)
    long = b"ref 1 6 0 ATGTAA\n" + b"4_6delins" + b"A" * 4096 + b"\n" + b"x" * 20481 + b"\n" + b"1=\n" + b"y" * 20480 + b"\n\n2del"
    for data in (random_input(rand, 300), long, b"", b"\n", b"ref 1 6 0 ATGTAA", b"ref 1 6 0 ATGTA\n1del\n"):
        want = account.run(data)
        for size in (1, 7, 4096, 65536):
            if in_pieces(data, size) != want:
                fail(f"in pieces of {size} bytes the output differs", data)
    print("the same output in pieces of 1, 7, 4,096 and 65,536 bytes")


def streamed(what, make, want_lines, want_bytes):
    """Input that is never held whole: how much memory the program took, and how many lines it answered."""
    began = time.time()
    program = subprocess.Popen(PROGRAM, stdin=subprocess.PIPE, stdout=subprocess.PIPE)
    if os.fork() == 0:
        program.stdout.close()
        for piece in make():
            program.stdin.write(piece)
        program.stdin.close()
        os._exit(0)
    program.stdin.close()
    lines = size = 0
    while piece := program.stdout.read(1 << 16):
        lines += piece.count(b"\n")
        size += len(piece)
    os.wait()
    program.wait()
    memory = resource.getrusage(resource.RUSAGE_CHILDREN).ru_maxrss * 1024
    if (lines, size) != (want_lines, want_bytes):
        print(f"{what}: {lines} lines of {size} bytes, not {want_lines} of {want_bytes}")
        sys.exit(1)
    if memory > MOST_MEMORY:
        print(f"{what}: {memory} bytes of memory")
        sys.exit(1)
    print(f"{what}: {lines} lines out in {time.time() - began:.1f} s, at most {memory >> 20} MiB")


def long_inputs(lines, bytes_in_line):
    reference = b"ref 3 17 0 GGATGGCCAAATGGTAACCTGAC\n"
    edits = b"4_6delins" + b"GCA" * 13 + b"\n"
    answer = account.run(reference + edits)
    head = answer.index(b"\n") + 1

    def many():
        yield reference
        for _ in range(lines // 1000):
            yield edits * 1000

    def one():
        yield reference
        for _ in range(bytes_in_line // 1000000):
            yield b"A" * 1000000

    streamed(f"{lines} edit lines", many, 1 + lines, head + lines * (len(answer) - head))
    streamed(f"one line of {bytes_in_line} bytes", one, 2, head + len(b"refused 30\n"))


annotated(b"")
random_inputs(1, 400 if sys.argv[1] == "big" else 60)
pieces(2)
long_inputs(*((1000000, 50000000) if sys.argv[1] == "big" else (20000, 5000000)))
