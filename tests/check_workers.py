#!/usr/bin/env python3
"""Compares what the program writes by any number of workers: `tests/check_workers.py [--program PATH] [--workers N,..]`

A tree of 20,000 files and a file of 256 MB are made in a folder that is removed at the end. Over each the program
searches for an expression that the automaton has to be asked about at each line, for rows and counts, with context,
for parts and for names. Every number of workers has to give the same bytes and the same status; with -c and -l, and
over the file, so has the machine's own grep. The last line is `N passed, M failed`.
"""

import argparse
import hashlib
import os
import random
import subprocess
import sys
import tempfile
from pathlib import Path
from string import ascii_lowercase

PROGRAM = Path(__file__).resolve().parent.parent / "crates/pargrep/out/pargrep"
EXPRESSION = "[a-d][aeiou][r-z]+|(ing|ong) *$"
OPTIONS = [[], ["-c"], ["-n", "-C", "2"], ["-o"], ["-l"]]
FILES = 20_000
LARGE = 256 << 20
ENVIRONMENT = {"LC_ALL": "C", "PATH": os.environ["PATH"]}


def line(chance):
    """A line of three to twelve words of letters."""
    words = ("".join(chance.choices(ascii_lowercase, k=chance.randint(1, 8))) for _ in range(chance.randint(3, 12)))
    return " ".join(words) + "\n"


def make(folder):
    """Makes the tree and the large file."""
    chance = random.Random(1)
    lines = [line(chance).encode() for _ in range(50_000)]
    for number in range(FILES):
        path = folder / "tree" / f"d{number % 200}" / f"f{number}"
        path.parent.mkdir(parents=True, exist_ok=True)
        path.write_bytes(b"".join(chance.choices(lines, k=chance.randint(0, 30))))
    part = b"".join(lines)
    with open(folder / "large", "wb") as large:
        for _ in range(LARGE // len(part) + 1):
            large.write(part)


def answer(words, folder):
    """The status of a command, and a digest of what it writes."""
    digest = hashlib.sha256()
    with subprocess.Popen(words, cwd=folder, stdout=subprocess.PIPE, env=ENVIRONMENT) as run:
        while piece := run.stdout.read(1 << 20):
            digest.update(piece)
    return run.returncode, digest.hexdigest()


def sorted_lines(words, folder):
    """The same, whatever the order of the lines."""
    run = subprocess.run(words, cwd=folder, stdout=subprocess.PIPE, env=ENVIRONMENT)
    return run.returncode, sorted(run.stdout.splitlines())


def main():
    parser = argparse.ArgumentParser()
    parser.add_argument("--program", default=PROGRAM)
    parser.add_argument("--workers", default="1,2,3,4,64")
    given = parser.parse_args()
    program = str(Path(given.program).resolve())
    passed, failed = 0, 0
    with tempfile.TemporaryDirectory() as folder:
        folder = Path(folder)
        make(folder)
        for operand in (["-r", "tree"], ["large"]):
            for options in OPTIONS:
                words = [*options, "-E", EXPRESSION, *operand]
                answers = {answer([program, "--workers", count, *words], folder) for count in given.workers.split(",")}
                same = len(answers) == 1
                if operand == ["large"]:
                    same = same and answers == {answer(["grep", *words], folder)}
                elif options in (["-c"], ["-l"]):
                    same = same and sorted_lines([program, *words], folder) == sorted_lines(["grep", *words], folder)
                print(f"{'same' if same else 'DIFFERENT'}: {' '.join(words)}", flush=True)
                passed, failed = passed + same, failed + (not same)
    print(f"{passed} passed, {failed} failed")
    return 1 if failed or not passed else 0


if __name__ == "__main__":
    sys.exit(main())
