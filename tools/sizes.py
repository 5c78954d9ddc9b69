#!/usr/bin/env python3
"""Checks each crate of crates.txt from nothing, one after the other, and prints a table of their sizes.

Use: tools/sizes.py     at the top of a clone in which nothing else works
Lines are those that are neither blank nor a comment. A check's seconds are those of the crate alone, where the crates
below it are built. rt begins a check with what it kept of other checkouts on the machine, in rattle-kept/work beside the
kit; move that folder away for the time of the run.
"""
import re
import shutil
import subprocess
import time
from pathlib import Path


def lines(folder, kind, comment):
    """How many lines of the files below a folder say something."""
    texts = [path.read_text() for path in Path(folder).rglob(f"*.{kind}")]
    return sum(bool(line.strip()) and not line.strip().startswith(comment) for text in texts for line in text.splitlines())


def checked(crate):
    """Seconds of a check from nothing, and how many functions were proved."""
    shutil.rmtree(crate / "out", ignore_errors=True)
    begin = time.time()
    told = subprocess.run(["rt", "check"], cwd=crate, capture_output=True, text=True).stdout
    seconds = time.time() - begin
    # for the crates above, so that their times have no library's in them
    subprocess.run(["rt", "lib"], cwd=crate, capture_output=True)
    found = re.findall(r"^logic=proved functions=(\d+)", told, re.M)
    return seconds, int(found[-1]) if found else None


def main():
    names = re.findall(r"^(\w+)[^:\n]*:", Path("crates.txt").read_text(), re.M)
    print("| Crate | Functions | Code | Specs | Proofs | Check, s | Must-fail edits |\n|---|---|---|---|---|---|---|")
    sums = [0] * 6
    for name in names:
        crate = Path("crates") / name
        seconds, functions = checked(crate)
        edits = len(list((crate / "must-fail").glob("*.edit")))
        numbers = [
            functions,
            lines(crate / "src", "rt", "//"),
            lines(crate / "specs", "antt", "--"),
            lines(crate / "proofs", "antt", "--"),
            round(seconds),
            edits,
        ]
        sums = [a + (b or 0) for a, b in zip(sums, numbers)]
        print(f"| `{name}` | " + " | ".join(str(n) for n in numbers) + " |", flush=True)
    print("| in all | " + " | ".join(str(n) for n in sums) + " |")


if __name__ == "__main__":
    main()
