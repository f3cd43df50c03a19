"""Runs the edits of docs/CLASSES.md through ./annotate. Prints each line that differs, and exits 1 if there is one."""
import re
import subprocess
import sys

reference, wrong, count = None, 0, 0
for line in open("docs/CLASSES.md", encoding="utf-8"):
    named = re.match(r"Reference: `([^`]*)`", line)
    row = re.search(r"\| `([^`]*)` \| `([^`]*)` \|$", line)
    if named:
        reference = named.group(1)
    if row:
        edit, answer = row.groups()
        printed = subprocess.run(["./annotate"], input=f"{reference}\n{edit}\n", capture_output=True, text=True, check=True).stdout
        count += 1
        if printed.split("\n")[1] != answer:
            print(f"docs/CLASSES.md: {edit} is answered {printed.split(chr(10))[1]}, not {answer}")
            wrong = 1
sys.exit(wrong or count < 20)
