#!/usr/bin/env python3
"""Runs the program under limits of its address space: `tests/limits.py [--program PATH]`, or `make check-limits`

The limits go from little up to much in steps of 1 MB. From the first one under which a run succeeds upward each run has
to give the same output and status. Below it a run may be refused memory: then it has to say so, with status 2, and what
it wrote is a beginning of the output. It is no part of the gate, for how much a system gives to a process is the
system's to say. The last line is `N passed, M failed`, counted by searches.
"""

import os
import resource
import subprocess
import sys
import tempfile

import built
from threads import tell

MEGABYTE = 1 << 20
MOST = 64

# The options of each run, over a text of 4 MB.
RUNS = [
    ["-cF", "needle"],
    ["-n", "[a-z]*e[a-z]*l"],
    ["-oE", "[a-z]+le"],
    ["--workers", "4", "-cE", "(n|m)e+d"],
    ["--workers", "64", "--round", "8", "-vE", "h[a-y]+"],
]


def make(path):
    """Makes the text: lines of 64 bytes, of which one in a hundred has the word that is looked for."""
    with open(path, "w", encoding="ascii") as file:
        for number in range(4 * MEGABYTE // 64):
            word = "needle" if number % 100 == 99 else "hay"
            file.write(f"{number:010d} {word:>52}\n")


def run(program, words, text, megabytes):
    """Output, fault lines and status of a run with so much address space; without a limit where that is None."""

    def limit():
        if megabytes is not None:
            most = megabytes * MEGABYTE
            resource.setrlimit(resource.RLIMIT_AS, (most, most))

    done = subprocess.run([program, *words, text], capture_output=True, preexec_fn=limit, check=False)
    return done.stdout, done.stderr, done.returncode


def faults(program, words, text):
    """What is wrong with the runs of some options."""
    right = run(program, words, text, None)
    if right[2] != 0:
        yield f"without a limit status {right[2]} and {right[1][:80]!r}"
    first = None
    for megabytes in range(1, MOST + 1):
        out, err, status = run(program, words, text, megabytes)
        if (out, err, status) == right:
            first = first or megabytes
        elif first is not None:
            yield f"right with {first} MB and not with {megabytes} MB: status {status}, {err[:80]!r}"
        elif status == 2 and err == b"pargrep: out of memory\n" and right[0].startswith(out):
            continue
        elif status >= 0 and out:
            yield f"with {megabytes} MB status {status} and {err[:80]!r}"
    if first is None:
        yield f"not right with {MOST} MB either"
    else:
        print(f"{' '.join(words)}: right from {first} MB on", flush=True)


def main():
    program = built.program("Runs the program under limits of its address space.")
    if program is None:
        return 1
    with tempfile.TemporaryDirectory(prefix="pargrep-limits-") as folder:
        text = os.path.join(folder, "text")
        make(text)
        return tell((" ".join(words), list(faults(program, words, text))) for words in RUNS)


if __name__ == "__main__":
    sys.exit(main())
