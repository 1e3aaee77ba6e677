#!/usr/bin/env python3
"""The gate: has the toolchain prove all from nothing and run the tests, and each wrong body tried; then builds with a
stand-in for the toolchain, compares the options, the wrong bodies, the files of rows and the crates with the documents
that list them, asks bash's completion, looks for lemmas and definitions without use, runs the rows, the runs by
threads, over trees, without memory and over an input that stays open, and looks up the wrong bodies that it doesn't
try. It closes with 'N passed, M failed' over all.

Usage: tests/gate.py [RT]
       tests/gate.py --program PATH

With --program nothing is proved or built, and no wrong body is tried: all else runs, on this program. That needs no
toolchain.

`rt ci` runs on a copy of the repository without its wrong bodies, since it would prove each crate once more for them
and try one after another. tests/refuse.py tries them over the libraries that `rt ci` has built, several at once, each
of which has to be refused by a message of its own. The rows and the runs take the program that `rt ci` has built just
now, also where it has failed.
"""

import argparse
import os
import re
import resource
import shutil
import signal
import subprocess
import sys
import tempfile
import time
from pathlib import Path

HERE = Path(__file__).resolve().parent
ROOT = HERE.parent
sys.path.append(str(ROOT / "tools"))

from jobs import jobs_at_once, keep_memory  # noqa: E402

PROGRAM = "crates/pargrep/out/pargrep"
FIGURES = re.compile(r"([0-9]+) passed, ([0-9]+) failed")
# What runs behind the proofs, each a script of this folder: over files of the repository, and on the program.
OVER_FILES = (
    ("the build with a stand-in for the toolchain", "building.py"),
    ("the options", "options.py"),
    ("the completion in bash", "completions.py"),
    ("the lists of wrong bodies and rows", "wrong_bodies.py"),
    ("the map of crates", "crate_map.py"),
    ("lemmas and definitions without use", "unused.py"),
)
ON_PROGRAM = (
    ("the rows", "run_rows.py"),
    ("the runs by threads", "threads.py"),
    ("the runs over trees", "trees.py"),
    ("the runs without memory", "memory.py"),
    ("the runs over an open input", "live.py"),
)


def say(text):
    print(text, flush=True)


def started(command, folder):
    """Starts a command in a folder; None where it can't be started."""
    told = {"stdout": subprocess.PIPE, "stderr": subprocess.STDOUT}
    try:
        return subprocess.Popen(command, cwd=folder, stdin=subprocess.DEVNULL, **told)
    except OSError as fault:
        say(f"gate: {command[0]} can't be started: {fault.strerror}")
        return None


def followed(process):
    """Shows the output of a command as it comes, and answers its status and its last line."""
    last = b""
    if process is None:
        return 127, ""
    try:
        for line in process.stdout:
            sys.stdout.buffer.write(line)
            sys.stdout.buffer.flush()
            last = line.strip() or last
        return process.wait(), last.decode(errors="replace")
    finally:
        if process.poll() is None:
            process.terminate()
            process.wait()


def figures(name, status, last):
    """What passed and failed. A command that doesn't tell it, or contradicts it by its status, has failed once more."""
    found = FIGURES.fullmatch(last)
    if not found:
        say(f"gate: the last line of {name} isn't 'N passed, M failed' (status {status})")
        return 0, 1
    passed, failed = int(found[1]), int(found[2])
    if status != 0 and failed == 0:
        say(f"gate: {name} tells no failure and ends with status {status}")
        failed = 1
    if passed + failed == 0:
        say(f"gate: nothing ran in {name}")
        failed = 1
    return passed, failed


def figures_of(name, script, *words):
    """What passed and failed in a script of this folder."""
    return figures(name, *followed(started([sys.executable, str(HERE / script), *words], ROOT)))


def copied(folder):
    """Copies the repository without what was made of it, and without its wrong bodies."""
    left_out = shutil.ignore_patterns(".git", "out", "dist", "__pycache__", "must-fail", "refused")
    shutil.copytree(ROOT, folder, ignore=left_out)
    return folder


def proved(rt, room, jobs):
    """Has all proved from nothing and the tests run, and then each wrong body tried over that; answers what passed and
    failed in both."""
    copy = copied(Path(room) / "pargrep")
    os.environ["RT_JOBS"] = str(jobs)
    ci = figures("rt ci", *followed(started([rt, "ci"], copy)))
    (ROOT / PROGRAM).parent.mkdir(exist_ok=True)
    if (copy / PROGRAM).is_file():
        shutil.copy(copy / PROGRAM, ROOT / PROGRAM)
    if ci[1]:
        say("gate: the wrong bodies are not tried, for rt ci has failed")
        return [("rt ci", ci), ("the wrong bodies", (0, 1))]
    # What it copies goes with the room, however it ends.
    os.environ["TMPDIR"] = room
    words = ["--gate", "--jobs", str(jobs), "--over", str(copy)]
    return [("rt ci", ci), ("the wrong bodies", figures_of("the wrong bodies", "refuse.py", *words))]


def proved_anew(rt):
    """The same from the start: what was built before goes, and so does the room of it all once it is done."""
    os.environ["RT"] = rt
    (ROOT / PROGRAM).unlink(missing_ok=True)
    keep_memory()
    with tempfile.TemporaryDirectory(prefix="gate-") as room:
        ran = proved(rt, room, jobs_at_once())
        os.environ.pop("TMPDIR", None)
    return ran


def minutes(since):
    """The minutes that were taken by now: of the processors, in user and system mode, and of the clock."""
    used = resource.getrusage(resource.RUSAGE_CHILDREN)
    processors, wall = (used.ru_utime + used.ru_stime) / 60, (time.monotonic() - since) / 60
    return f"{processors:.0f} processor minutes, {wall:.0f} of wall"


def read_arguments():
    parser = argparse.ArgumentParser(description=__doc__, formatter_class=argparse.RawDescriptionHelpFormatter)
    either = parser.add_mutually_exclusive_group()
    either.add_argument("rt", nargs="?", default="rt", metavar="RT", help="the toolchain's command")
    either.add_argument("--program", metavar="PATH", help="prove nothing, and run all else on this program")
    return parser.parse_args()


def main():
    given = read_arguments()
    signal.signal(signal.SIGTERM, lambda number, _: sys.exit(128 + number))
    since = time.monotonic()
    ran = proved_anew(given.rt) if given.program is None else []
    words = [] if given.program is None else ["--program", os.path.abspath(given.program)]
    ran += [(what, figures_of(what, script)) for what, script in OVER_FILES]
    ran += [(what, figures_of(what, script, *words)) for what, script in ON_PROGRAM]
    looked_up = figures_of("the further wrong bodies", "refuse.py", "--read")
    for what, (passed, failed) in [*ran, ("the further wrong bodies, looked up", looked_up)]:
        say(f"gate: {what}: {passed} passed, {failed} failed")
    say(f"gate: {minutes(since)}")
    failed = looked_up[1] + sum(figures[1] for _, figures in ran)
    # An edit that is only looked up shows nothing of the program, so it is no check that has passed.
    say(f"{sum(figures[0] for _, figures in ran)} passed, {failed} failed")
    return 1 if failed else 0


if __name__ == "__main__":
    sys.exit(main())
