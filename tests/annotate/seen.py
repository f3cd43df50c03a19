"""What a user of ./annotate sees beside answers: exit status and standard error where something is wrong, hints, and how far a first proof is.
Prints what was tried, and exits 1 at the first difference."""
import os
import signal
import subprocess
import sys
import tempfile

PROGRAM = os.path.abspath("annotate")
REFERENCE = b"ref 3 17 0 GGATGGCCAAATGGTAACCTGAC"
FULL = b"annotate: standard output can't be written: answers are missing\n"
RETURN = b"annotate: the first line ends in a carriage return: a file with CR LF line ends?\n"


def expect(what, got, want):
    if got != want:
        print(f"{what}: {got!r}, not {want!r}")
        sys.exit(1)


def told(what, want, *words, data=b"", stdout=subprocess.PIPE, **more):
    """Runs the script; `want` is its status, standard output and standard error."""
    ran = subprocess.run([PROGRAM, *words], input=None if "stdin" in more else data, stdout=stdout, stderr=subprocess.PIPE, **more)
    expect(what, (ran.returncode, ran.stdout, ran.stderr), want)


def mistakes():
    told("a missing file", (1, b"", b"annotate: there is no file none.txt\n"), "none.txt")
    told("a folder", (1, b"", b"annotate: crates is a folder\n"), "crates")
    told("two files", (1, b"", b"annotate: one file, or none for standard input: annotate [FILE]\n"), "a", "b")
    told("standard input closed", (1, b"", b"annotate: standard input is closed\n"), stdin=subprocess.DEVNULL, preexec_fn=lambda: os.close(0))
    help = subprocess.run([PROGRAM, "--help"], capture_output=True)
    expect("the help's status", (help.returncode, help.stderr), (0, b""))
    for words in (b"annotate [FILE]: ", b"Exit status: 0, or 1 "):
        expect(f"{words} in the help", words in help.stdout, True)
    print("mistakes in the command: a line on standard error, status 1")


def failures():
    many = REFERENCE + b"\n" + 20000 * b"8A>G\n"
    with open("/dev/full", "wb") as full:
        told("answers to a full disk", (1, None, FULL), data=many, stdout=full)
        told("a last line's answer to a full disk", (1, None, FULL), data=REFERENCE, stdout=full)
        told("a file's answers to a full disk", (1, None, FULL), "examples/worked.txt", stdout=full)
    folder = os.open("crates", os.O_RDONLY)
    told("a folder on standard input", (1, b"", b"annotate: standard input can't be read\n"), stdin=folder)
    os.close(folder)
    print("a read or a write that fails: a line on standard error, status 1")


def returns():
    told("CR LF line ends", (0, b"refused 30\n", RETURN), data=REFERENCE + b"\r\n8A>G\r\n")
    told("a carriage return at the input's end", (0, b"refused 30\n", RETURN), data=REFERENCE + b"\r")
    told("a carriage return in an edit line", (0, b"reference MAKW*\nrefused 30\n", b""), data=REFERENCE + b"\n8A>G\r\n")
    told("a first line in another form", (0, b"refused 30\n", b""), data=b"reference\n8A>G\n")
    told("a reference of no length", (0, b"refused 3\n", b""), data=b"ref 3 17 0 A\n8A>G\n")
    print("a first line that ends in a carriage return: a hint on standard error, status 0")


def signals():
    head = subprocess.Popen([PROGRAM], stdin=subprocess.PIPE, stdout=subprocess.PIPE, stderr=subprocess.PIPE)
    head.stdin.write(REFERENCE + b"\n")
    head.stdin.flush()
    expect("the first answer, before the input ends", head.stdout.readline(), b"reference MAKW*\n")
    head.stdout.close()
    try:
        head.stdin.write(100 * b"8A>G\n")
        head.stdin.close()
    except BrokenPipeError:
        pass
    expect("a reader that wants no more", (head.wait(), head.stderr.read()), (-signal.SIGPIPE, b""))

    waits = subprocess.Popen([PROGRAM], stdin=subprocess.PIPE, stdout=subprocess.PIPE, stderr=subprocess.PIPE)
    waits.stdin.write(REFERENCE + b"\n")
    waits.stdin.flush()
    waits.stdout.readline()
    waits.send_signal(signal.SIGTERM)
    expect("a script that is stopped", (waits.wait(), waits.stderr.read()), (-signal.SIGTERM, b""))
    expect("its program's output, once it is stopped", waits.stdout.read(), b"")
    print("answers come as the lines do; a broken pipe and a signal end the script and its program")


def progress():
    """The script among crates and a toolchain of the test's own, whose rt takes two seconds a crate."""
    with tempfile.TemporaryDirectory() as room:
        def put(name, text):
            path = os.path.join(room, name)
            os.makedirs(os.path.dirname(path), exist_ok=True)
            with open(path, "w", encoding="utf-8") as f:
                f.write(text)
            os.chmod(path, 0o755)

        with open(PROGRAM, encoding="utf-8") as f:
            put("here/annotate", f.read())
        put("here/crates.txt", "# in no order\nannotate: b c libc\nc: b # of c\n\nb: a\na:\nother: a\n")
        put("here/crates/a/src/lib.rt", "")
        put("here/crates/annotate/src/main.rt", "")
        put("kit/bin/rt", '#!/bin/sh\n[ "$* in ${PWD##*/}" = "run in annotate" ] || exit 2\n'
            'for n in a b c annotate; do echo "fn $n::f: proved"; [ $n = b ] || sleep 2; echo "crate $n: modules loaded=9 checked=9"; echo "logic=proved functions=1"; done\n'
            '[ ! -e ../../broken ] || exit 1; mkdir -p out; printf "#!/bin/sh\\ncat\\n" >out/annotate; chmod 755 out/annotate\n')
        put("kit/bin/qemu-x86_64", "#!/bin/sh\ncat\n")
        words, more = [os.path.join(room, "here/annotate")], dict(input=b"line\n", capture_output=True, env={**os.environ, "PATH": f"{room}/kit/bin:{os.environ['PATH']}"})
        started = b"annotate: proving and building the program; this takes some minutes the first time\n"
        steps = b"annotate: proving a, 1 of 4\nannotate: proving c, 3 of 4\nannotate: proving annotate, 4 of 4\n"
        first = subprocess.run(words, **more)
        expect("a first run", (first.returncode, first.stdout, first.stderr), (0, b"line\n", started + steps))
        again = subprocess.run(words, **more)
        expect("a second run", (again.returncode, again.stdout, again.stderr), (0, b"line\n", b""))
        put("here/broken", "")
        put("here/crates/a/src/lib.rt", "// changed")
        broken = subprocess.run(words, **more)
        expect("a run that isn't proved", (broken.returncode, broken.stdout, broken.stderr.endswith(b"annotate: the program was not proved\n")), (1, b"", True))
    print("a first proof: what it is at, on standard error")


subprocess.run([PROGRAM], input=b"", capture_output=True, check=True)  # builds the program, if that wasn't done
mistakes()
failures()
returns()
signals()
progress()
