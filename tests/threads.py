#!/usr/bin/env python3
"""Compares what the program writes by several threads: `tests/threads.py [--program PATH]`

Threads are started only for a round of 1 MiB, only where nothing that was read can be enough, and only where the search
has taken long so far, more than a nanosecond a byte. So files of some MiB are made, the same ones each time, in a
folder that is removed at the end. Each command line below is run over them by 2 and by 4 workers, and by one thread
(`--round 1`), and has to give the same bytes and the same status each time, as the machine's own grep gives them. The
lines of SPREAD are run with `--always-spread`, which leaves out the question of time, and those of SLOW take so long
that threads start without it. While 4 workers are asked for, the threads of the process are counted: several have to be
seen for the lines of both, and for those of ALONE the first one and no other. A run of one thread must show no second
one either. The last line is `N passed, M failed`.
"""

import os
import random
import shlex
import shutil
import subprocess
import sys
import tempfile
import threading
from pathlib import Path
from string import ascii_lowercase

import built

ENVIRONMENT = {"LC_ALL": "C", "PATH": os.environ.get("PATH", os.defpath)}
SEED = 1

# The sizes of the files in bytes; `last` lacks its last newline. `nuls` has the lines of `large`, but each of them ends
# with byte 0.
SIZES = {"large": 4 << 20, "other": 2 << 20, "short": 2_000, "last": 3 << 19}

# How often a run is repeated until threads are seen in it.
TRIES = 20

# So many threads have to be seen where threads start: the first one, and two that search.
SEVERAL = 3

# Where none is to start, so many runs have to be looked at. Some end before the first look, so more are made.
LOOKS = 3
RUNS_A_LOOK = 100

# A run that has not ended after so many seconds has failed.
LIMIT = 60

# One thread finds these lines fast or not so fast: threads may start.
EITHER = """\
-F ab large other
-n qu large
-o -i -e QU -e ab large last
-v -c -F -e ab -e q large other
-c -E '\\([^)]*\\)' large other
-n -E ^#|^$ large last
-c -E z[a-z]*z large
-n -E [xyz]{3} large other
"""

# What was read may be enough: no thread starts.
ALONE = """\
-l -E [a-d][aeiou][r-z] large other
-m 3 -E [a-d][aeiou][r-z] large other
-n -m 100000 -C 1 -E [a-d][aeiou][r-z]+ large other
-o -m 7 -E [aeiou]+ large last
-q -E [aeiou]{9} large other
"""

# Many parts or rows, which take several nanoseconds a byte, and all of the files has to be read: threads start.
SLOW = """\
-o -E [a-d]*[m-z]+ other last
-o -E [a-z] large
-o -n -E [a-z]+ large other
-o -i -n -E [A-D][XYZ]+|[aeiou]{2} last other
-o -b -e [a-c] -e [x-z][a-c] last large
--color=always -n -E [a-m][aeiou] large other
"""

# All of the files has to be read: threads start where time isn't asked for.
SPREAD = """\
-E [a-d][aeiou][r-z] large
-E [a-d][aeiou][r-z] large other short last
-c -E [a-d][aeiou][r-z] large other short last
-h -E ^[a-m]+$|[xyz]{3} large other short last
-H -n -E [xyz]{3} last large
-n -E (ing|ong)?[a-d]$ large last
-v -E [a-m] large last other
-v -n -E [aeiou] large last
-v -c -E [a-m][n-z] large other last
-o -E [aeiou]{3,} large
-o -n -E [aeiou]{4} large last
-o -E [a-d]*[m-z]+ other last
-o -i -n -E [A-D][XYZ]+ last other
-o -w -E [aeiou]+ large
-n -C 1 -E [xyz]{4} large
-n -C 2 -E [xyz]{4} large other short last
-A 1 -E [xyz]{4} large last
-A 0 -E [xyz]{4} large last
-n -A 3 -E [qxyz]{4} other large
-B 1 -E [xyz]{4} large
-n -B 3 -E [xyz]{4} large last
-h -n -C 70 -E [xyz]{5} large last
-v -n -C 1 -E [a-p] large
-v -A 2 -E [a-m] other last
-i -E [A-D][AEIOU][R-Z]{2} large
-i -c -E [XYZ]{3} large other
-w -E [a-m][aeiou][n-z] large
-w -c -E [a-z]{8} large last
-w -n -E [a-z][xyz]* other
-x -E [a-z]{1,8}.[a-z]{1,8}.[a-z]{1,8} large
-x -v -c -E .{20,} large last
-z -n -E ^[a-m][aeiou] nuls
-c -E ^ large other short last
-n -E ^$ large
--color=always -n -E [a-m][aeiou][n-z]{2} large other
--color=always -o -H -E [aeiou]{4} large
--color=always -n -C 1 -E [xyz]{4} large other last
-b -n -C 2 --group-separator=+++ -E [xyz]{4} large other last
-b -o -E [aeiou]{4} large last
-o -n -e [a-c][x-z] -e [x-z][a-c]$ last
-c -e q[a-m] -e .z$ large other
-n -x -E -e [a-z]{7}.[a-z]{7}.[a-z]{7} -e [xyz].* large last
-s -n -E [xyz]{4} missing large last
-s -c -E [a-d][aeiou][r-z] large missing last
-E [a-d][aeiou][r-z] missing large
--block 1100 --round 1024 -n -C 1 -E [xyz]{4} large other
--block 4096 --round 300 -o -n -E [aeiou]{4} large last
--block 1000000 --round 2 -v -n -E [aeiou] large last
--block 30000 --round 40 -c -E [xyz]{3} large other short last
"""


def make(folder):
    """Makes the files: lines of up to twelve words of up to eight letters, some of them empty."""
    chance = random.Random(SEED)
    words = ["".join(chance.choices(ascii_lowercase, k=chance.randint(1, 8))) for _ in range(5_000)]
    for name, size in SIZES.items():
        text = "".join(" ".join(chance.choices(words, k=chance.randint(0, 12))) + "\n" for _ in range(size // 20))
        (folder / name).write_text(text[:size].rstrip("\n") + "\n" * (name != "last"))
    (folder / "nuls").write_bytes((folder / "large").read_bytes().replace(b"\n", b"\0"))


class Watch:
    """Polls the threads of a process, and keeps the greatest number that was seen."""

    def __init__(self, process):
        self.most = 0
        self.path = f"/proc/{process.pid}/task"
        self.over = threading.Event()
        self.poller = threading.Thread(target=self.poll)
        self.poller.start()

    def poll(self):
        while not self.over.is_set():
            try:
                self.most = max(self.most, len(os.listdir(self.path)))
            except OSError:
                return

    def end(self):
        self.over.set()
        self.poller.join()
        return self.most


def answer(command, folder, is_watched=False, output=subprocess.PIPE):
    """The status, standard output and standard error of a command, and how many threads were seen at once."""
    streams = {"stdin": subprocess.DEVNULL, "stdout": output, "stderr": subprocess.PIPE}
    with subprocess.Popen(command, cwd=folder, env=ENVIRONMENT, **streams) as run:
        watch = Watch(run) if is_watched else None
        try:
            output, error = run.communicate(timeout=LIMIT)
        except subprocess.TimeoutExpired:
            run.kill()
            output, error = run.communicate()
            error += b"(it had not ended)"
        return (run.returncode, output, error), watch.end() if watch else 0


def threads_seen(command, folder, wanted, looks):
    """The greatest number of threads of runs that are repeated until several are seen, or so many runs were looked at,
    and whether each run gave what is wanted."""
    most, is_same, looked = 0, True, 0
    for _ in range(looks * RUNS_A_LOOK):
        found, seen = answer(command, folder, is_watched=True)
        most, is_same, looked = max(most, seen), is_same and found == wanted, looked + (seen > 0)
        if most >= SEVERAL or looked == looks:
            break
    return most, is_same


def without_own(words):
    """The words without options that only this program has, which stand in front, each with its value."""
    while words[0] in ("--block", "--round"):
        words = words[2:]
    return words


def faults_of(program, words, folder, is_spread, own):
    """What is not as it has to be of a line, by several threads with options of the program's own; `is_spread` is None
    where threads may start or not."""
    faults = []
    alone, beside = answer([program, *words, "--round", "1"], folder, is_watched=True)
    if beside > 1:
        faults.append(f"{beside} threads were seen where one was asked for")
    grep, _ = answer(["grep", *without_own(words)], folder)
    # Of standard error it is only compared whether anything was told.
    if (alone[0], alone[1], bool(alone[2])) != (grep[0], grep[1], bool(grep[2])):
        faults.append("grep gives something else than one thread")
    two, _ = answer([program, "--workers", "2", *own, *words], folder)
    if two != alone:
        faults.append("2 workers give something else than one thread")
    looks = TRIES if is_spread else LOOKS
    most, is_same = threads_seen([program, "--workers", "4", *own, *words], folder, alone, looks)
    if not is_same:
        faults.append("4 workers give something else than one thread")
    if is_spread is not None and not (most >= SEVERAL if is_spread else most == 1):
        faults.append(f"{most} threads were seen at most")
    return faults


def watched_program(description):
    """The program, where there is a grep to compare it with and a /proc to count its threads in; else None, with a line
    that counts as a failure."""
    program = built.program(description)
    fault = None if shutil.which("grep") else "there is no grep to compare with"
    if not os.path.isdir("/proc/self/task"):
        fault = "there is no /proc to count threads in"
    if program and fault:
        print(f"{fault}\n0 passed, 1 failed")
    return None if fault else program


def tell(faults_by_case):
    """Prints the faults of each case and how many cases have none; the answer is the status."""
    passed, failed = 0, 0
    for case, faults in faults_by_case:
        passed, failed = passed + (not faults), failed + bool(faults)
        for fault in faults:
            print(f"{case}: {fault}", flush=True)
    print(f"{passed} passed, {failed} failed")
    return 1 if failed else 0


def cases(program, folder):
    """Each line, and its faults."""
    kinds = ((ALONE, False, []), (EITHER, None, []), (SLOW, True, []), (SPREAD, True, ["--always-spread"]))
    for lines, is_spread, own in kinds:
        for line in lines.splitlines():
            yield line, faults_of(program, shlex.split(line), folder, is_spread, own)


def main():
    program = watched_program("Compares what the program writes by several threads.")
    if program is None:
        return 1
    with tempfile.TemporaryDirectory(prefix="pargrep-threads-") as folder:
        make(Path(folder))
        return tell(cases(program, folder))


if __name__ == "__main__":
    sys.exit(main())
