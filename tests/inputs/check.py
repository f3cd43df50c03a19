"""Inputs of ./annotate beside what each must print: the runs of the file runs, the whole inputs of the file whole, and inputs at the limits. The second
account of document 01 (tests/account) must say the same. Prints each that differs, and exits 1 if there is one."""
import subprocess
import sys

sys.path.insert(0, "tests/account")
import account

HERE = "tests/inputs/"


def unescaped(text):
    return text.replace("\\n", "\n").replace("\\r", "\r").replace("\\t", "\t")


def parts(line):
    left, right = line.rsplit("   ", 1)
    return unescaped(left), unescaped(right)


def lines(name):
    with open(HERE + name, encoding="utf-8", newline="\n") as f:
        return [line for line in f.read().split("\n") if not line.startswith("#")]


def runs():
    """A block is one input."""
    block = []
    for line in lines("runs") + [""]:
        if line:
            block.append(parts(line))
        elif block:
            yield "".join(left + "\n" for left, _ in block), "".join(right + "\n" for _, right in block)
            block = []


def limits():
    """4,096 new bases, 16,384 letters, 20,480 bytes of a line, each and one more; the longest copy; and no bytes."""
    yield "", ""
    short = "ref 1 6 0 ATGTAA"
    edits = [f"3_4ins{'C' * n}" for n in (4096, 4097, 20474, 20475)]
    found = [f"extension 2 * {'P' * 1365}LX", "refused 10", "refused 10", "refused 30"]
    yield "\n".join([short] + edits + ["3="]), "\n".join(["reference M*"] + found + ["silent 1 M M"]) + "\n"
    yield f"{short}{'A' * 16378}\n1A>G", "reference M*\nstart-lost 1 M V\n"
    yield f"{short}{'A' * 16379}\n1A>G", "refused 1\n"
    yield f"ref 1 6 0 {'A' * 20470}\n1A>G", "refused 1\n"
    yield f"ref 1 6 0 {'A' * 20471}\n1A>G", "refused 30\n"
    yield f"ref 1 16383 0 ATG{'A' * 16377}TAAC\n1_16383dup\n", f"reference M{'K' * 5459}*\nsilent 5461 * *\n"


faults = count = 0
for text, want in list(runs()) + [parts(line) for line in lines("whole") if line] + list(limits()):
    data = text.encode("latin-1")
    printed = subprocess.run(["./annotate"], input=data, capture_output=True, check=True).stdout.decode("latin-1")
    count += 1
    for who, answer in (("./annotate", printed), ("the account", account.run(data).decode("latin-1"))):
        if answer != want:
            faults += 1
            print(f"{text[:200]!r}: {who} says {answer[:200]!r}, not {want[:200]!r}")
sys.exit(faults != 0 or count < 100)
