#!/usr/bin/env python3
"""Proves the crates that the program is built over, and builds the program.

Usage: tools/build.py [RT]

The toolchain proves them from nothing, those that don't need one another side by side, in a copy that goes when it is
done, so that an interrupted build leaves nothing behind. A line is printed for each crate as it is proved. Where the
toolchain keeps on the machine what it has proved, each library has a run of its own, so that those begin first for
which others wait longest, and a last run over all of them proves those that are left, one after the other, and the
program, and builds it; a later build proves only what changed. Where it keeps nothing, or takes no names of crates, one
run proves all. Where nothing changed since the program was built, nothing is done. RT_JOBS says how many proofs run at
once, each on one processor; without it there are as many as there are processors and memory for.
"""

import hashlib
import os
import re
import shutil
import signal
import subprocess
import sys
import tempfile
import threading
import time
from concurrent.futures import FIRST_COMPLETED, ThreadPoolExecutor, wait
from pathlib import Path

from crates import ROOT, copy_crates, read_crates
from jobs import jobs_at_once, keep_memory
from order import by_urgency

PROGRAM = "pargrep"
BUILT = ROOT / "crates" / PROGRAM / "out" / PROGRAM
# What the program was built from, beside it.
STAMP = BUILT.with_suffix(".sum")
DONE = re.compile(r"rt: (\w+) (proved$|is kept)")
# What a run over some crates says at its end where a later one begins with what it has proved.
KEEPS = re.compile(r"(?m)^rt: .* passed, and that is kept")
# What is said, before anything is proved, where a run takes no names of crates, and so is always over all.
TAKES_NO_NAMES = "usage: "


def sum_of(rt, folder):
    """A sum of all that the toolchain reads in a folder, and of its version."""
    found = hashlib.sha256(subprocess.run([rt, "version"], stdout=subprocess.PIPE, check=True).stdout)
    for path in sorted(it for it in Path(folder).rglob("*") if it.is_file()):
        found.update(f"{path.relative_to(folder)}\0".encode())
        found.update(hashlib.sha256(path.read_bytes()).digest())
    return found.hexdigest()


class NotProved(Exception):
    """What the toolchain said where not all was proved."""


class Proofs:
    """The proofs of the crates in a folder. A line is printed for each as it is proved. What still runs when it is left
    is ended."""

    def __init__(self, rt, folder, names):
        self.rt, self.folder, self.names = rt, folder, names
        self.began, self.done = time.monotonic(), set()
        self.lock, self.running, self.is_left = threading.Lock(), set(), False

    def __enter__(self):
        return self

    def __exit__(self, *_):
        with self.lock:
            self.is_left = True
            for it in self.running:
                it.terminate()

    def started(self, jobs, names):
        """A run over the crates of these names, or over all, with so many proofs at once."""
        with self.lock:
            if self.is_left:
                raise NotProved("")
            run = subprocess.Popen(
                [self.rt, "ci", *names],
                cwd=self.folder,
                env={**os.environ, "RT_JOBS": str(jobs)},
                stdout=subprocess.PIPE,
                stderr=subprocess.STDOUT,
                text=True,
            )
            self.running.add(run)
            return run

    def run(self, jobs, *names):
        """Has the crates of these names proved with all below them, or all crates, and then the program built. Answers
        what was said of it."""
        said = []
        with self.started(jobs, names) as run:
            for line in run.stdout:
                said.append(line)
                self.tell(DONE.match(line))
        with self.lock:
            self.running.remove(run)
        if run.returncode and not (names and said and said[0].startswith(TAKES_NO_NAMES)):
            raise NotProved("".join(said))
        return "".join(said)

    def tell(self, found):
        """Prints a line for a crate that is proved, once."""
        with self.lock:
            if found and found[1] not in self.done:
                self.done.add(found[1])
                word = "proved" if found[2] == "proved" else "proved before:"
                minutes = (time.monotonic() - self.began) / 60
                count = f"{len(self.done)} of {len(self.names)}"
                print(f"{word} {found[1]}, {count}, after {minutes:.1f} minutes", flush=True)


def is_chain(names, running, crates):
    """Whether each of these crates, and of those whose proofs are running, has to be proved before the next one."""
    names = sorted(names, key=lambda it: len(crates[it].below))
    before = [{*running}, *({it} for it in names)]
    return all(lower.issubset(crates[it].below) for it, lower in zip(names, before))


def prove_libraries(pool, proofs, crates, jobs):
    """Has each library proved as soon as all below it are, so many at once, the most urgent ones first. Those that are
    left to prove one after the other need no runs of their own, each of which looks at all that is kept. Ends early
    where the toolchain doesn't keep what it has proved, or can't be asked for some crates alone."""
    left, proved, running = by_urgency(proofs.names[:-1], crates), set(), {}
    while left or running:
        if is_chain(left, running.values(), crates):
            left.clear()
        ready = [it for it in left if proved.issuperset(crates[it].below)]
        for name in ready[: jobs - len(running)]:
            left.remove(name)
            running[pool.submit(proofs.run, 1, name)] = name
        for run in wait(running, return_when=FIRST_COMPLETED).done:
            proved.add(running.pop(run))
            if not KEEPS.search(run.result()):
                left.clear()


def prove(rt, folder, names, crates):
    """Has all crates in a folder proved, and the program built, which is the last one."""
    jobs = jobs_at_once()
    keep_memory()
    try:
        # What still runs is ended before the pool waits for it.
        with ThreadPoolExecutor(jobs) as pool, Proofs(rt, folder, names) as proofs:
            prove_libraries(pool, proofs, crates, jobs)
            proofs.run(jobs)
    except NotProved as failure:
        sys.stderr.write(str(failure))
        sys.exit("pargrep: it was not built; what went wrong stands above")


def build(rt):
    crates = read_crates()
    names = [*crates[PROGRAM].below, PROGRAM]
    with tempfile.TemporaryDirectory(prefix="pargrep-") as folder:
        copy_crates(names, folder)
        now = sum_of(rt, folder)
        if BUILT.is_file() and STAMP.is_file() and STAMP.read_text(encoding="ascii") == now:
            return
        print(f"pargrep: proving {len(names)} crates; README.md says how long that takes", flush=True)
        prove(rt, folder, names, crates)
        BUILT.parent.mkdir(exist_ok=True)
        STAMP.unlink(missing_ok=True)
        shutil.copy(Path(folder) / "crates" / PROGRAM / "out" / PROGRAM, BUILT)
        STAMP.write_text(now, encoding="ascii")


if __name__ == "__main__":
    signal.signal(signal.SIGTERM, lambda number, _: sys.exit(128 + number))
    try:
        build(sys.argv[1] if len(sys.argv) > 1 else "rt")
    except KeyboardInterrupt:
        sys.exit(130)
