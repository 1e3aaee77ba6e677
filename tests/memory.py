#!/usr/bin/env python3
"""Refuses the program each request for memory in turn: `tests/memory.py [--program PATH]`

A small library (tests/refuse_memory.c) is built with `cc` and loaded into the program. For each command line of ALONE,
SPREAD and AHEAD the first request is refused, then the second, and so on until a run makes no more of them, while the
words are read too; and once more with all requests from that one on. Whatever is refused, the program has to end by
itself with what it gives otherwise, or with the line `pargrep: out of memory` behind a beginning of it, and status 2.
Where threads search or read ahead, the first is also not started, then the second, and so on, and nothing may change.
The last line is `N passed, M failed`; where there is no `cc` it passes, and a line says so.
"""

import os
import shlex
import shutil
import subprocess
import sys
import tempfile
from concurrent.futures import ThreadPoolExecutor
from dataclasses import dataclass
from pathlib import Path

import built

HERE = Path(__file__).resolve().parent
LIBRARY = HERE / "refuse_memory.c"
OUT_OF_MEMORY = b"pargrep: out of memory\n"

# More requests than any line makes.
MOST = 20_000

# A run that has not ended after so many seconds has failed.
LIMIT = 20

# Standard input is the file `row`. No thread starts: there are too few bytes, or what was read may be enough.
ALONE = """\
-F x row
-n -C 1 x
-c x row words empty
-h -n -B 1 -A 2 -F x row words
-E (a row
-e ok -e 'a\\{' row
--round 1 -r -n x tree
--round 1 -r -l x tree missing row
--round 1 -r -c x sparse
--round 1 -r -L x sparse missing empty
--round 1 -r --include=[af] --exclude-dir=c/ x tree row
--round 1 -r --exclude=*[!o]w --inc row -n -T -A 1 --no-group-sep x tree row
--round 1 -r -n --exclude-from=patterns --exclude-from missing x tree row
--round 1 -r -n --exclude-from=patterns -D skip x tree row
-d skip -c --label=in x tree - row
-e x -e a -e e row words
-i -F WATER words
-i -n -E W[A-C]TER|FIRE words
-o -n -E [wf][a-z]+ words
-v -n -E [wf][a-z]+ words
-f patterns -n words row
--color=always -H -n -C 1 -e x -e a row words
--color=always -o -T -i -E WAT|FI words
--color=always -c x row words
-b -n -C 1 --group-separator=++ x row words
-b -o -H -E WAT|FI|t words
--round 1 -R -n x tree row
-F -f list -c words row
-F -i -f list -o words
-w -x -z -c x row
-q x row
-s -m 1 x missing row
--block 1 --round 3 -n x row words
-A -1 x row
--unknown x row
-c -l x row
--help
--version
--workers 4 -l -E [xyz][a-c] long
--workers 4 -c -m 100000 -E [xyz][a-c] long
"""

# Threads start, for the words say that time isn't asked for. How many requests are made hangs on which of them draws a
# block first, for each fills a cache of its own.
SPREAD = """\
--always-spread --workers 4 -c -E [xyz][a-c] long
--always-spread --workers 2 --block 1 --round 3 -n -C 1 x row
--always-spread --workers 3 --block 1 --round 4 -o -n -E [wf][a-z]+ words row
--always-spread --workers 2 --block 1 --round 2 -v -n x row words
--always-spread --workers 2 --block 1 --round 2 --color=always -n -C 1 -E [wf][a-z]+ words row
--always-spread --workers 2 --block 1 --round 2 -b -C 1 --group-separator= -E [wf][a-z]+ words row
"""

# Threads read ahead. How many requests are made hangs on which of them comes first to an entry.
AHEAD = """\
-r -n x tree
-r -l x tree missing row
-r -L x sparse missing empty
-r --include=[af] --exclude-dir=c/ x tree row
-R -n x tree row
--always-spread --workers 2 --block 1 --round 2 -r -c x tree row
--always-spread --workers 2 --block 1 --round 2 -r -c x sparse
"""


def make(folder):
    """Makes the files that the lines name."""
    (folder / "tree/b/c").mkdir(parents=True)
    (folder / "sparse/c").mkdir(parents=True)
    files = {
        "row": b"a\nb\nx\nc\nd\ne\nx\n",
        "words": b"water\nfire\nFirewater\nearth\n\nx",
        "empty": b"",
        "patterns": b"^w\nx\n",
        "list": b"water\nfire\nearth\nwind\nsnow\nrain\nhail\nfog\nmist\nice\n",
        "tree/a": b"x\n",
        "tree/b/f": b"ax\nb\n",
        "tree/b/c/g": b"x",
        "sparse/a": b"",
        "sparse/b": b"x\ny\nx\n",
        "sparse/c/d": b"",
        "sparse/c/e": b"",
        "sparse/f": b"x\n",
        "sparse/g": b"",
        "long": b"abc xyz yxa zzb zac\nq w e r t\n" * 40_000,
    }
    for name, text in files.items():
        (folder / name).write_bytes(text)


@dataclass
class Outcome:
    """What a run gave, and how many requests and threads it asked for and how many of both were refused, or None where
    it didn't end by itself."""

    status: int
    output: bytes
    error: bytes
    asked: tuple

    def was_refused(self):
        return self.asked is not None and self.asked[2] > 0

    def ended_before(self, key, number):
        """Whether the run never came to the request or the thread of that number, so that none was refused."""
        if self.asked is None or self.was_refused():
            return False
        requests, threads, _ = self.asked
        return (threads if key == "REFUSE_THREAD" else requests) < number


class Runs:
    """Runs of the program with the library in it."""

    def __init__(self, program, library, folder, reports):
        self.program, self.library, self.folder, self.reports = program, library, folder, reports

    def run(self, line, key, number):
        """What a line gives where a request or a thread is refused, by the key and the number."""
        report = Path(self.reports) / f"{key}-{number}"
        report.unlink(missing_ok=True)
        environment = {"LC_ALL": "C", "LD_PRELOAD": str(self.library), "REFUSE_REPORT": str(report), key: str(number)}
        command = [self.program, *shlex.split(line)]
        with open(Path(self.folder) / "row", "rb") as row:
            try:
                where = {"cwd": self.folder, "env": environment, "stdin": row}
                ran = subprocess.run(command, capture_output=True, timeout=LIMIT, check=False, **where)
            except subprocess.TimeoutExpired:
                return Outcome(-1, b"", b"it had not ended", None)
        asked = tuple(int(it) for it in report.read_text().split()) if report.exists() else None
        return Outcome(ran.returncode, ran.stdout, ran.stderr, asked)

    def whole(self, line):
        """What a line gives where nothing is refused."""
        return self.run(line, "REFUSE_REQUEST", 0)


def is_right(found, whole):
    """Whether a run gave what a whole one gives, or a beginning of it and that there is no memory."""
    if found.asked is None:
        return False
    if (found.status, found.output, found.error) == (whole.status, whole.output, whole.error):
        return True
    if found.status != 2 or not found.error.endswith(OUT_OF_MEMORY):
        return False
    before = found.error.removesuffix(OUT_OF_MEMORY)
    is_whole_lines = not before or before.endswith(b"\n")
    return is_whole_lines and whole.error.startswith(before) and whole.output.startswith(found.output)


def tell(line, key, number, found):
    texts = f"status {found.status}, output {found.output[:80]!r}, error {found.error[:200]!r}, asked {found.asked}"
    print(f"{line}: {key}={number}: {texts}", flush=True)


def was_tried(found, key, number, is_threaded):
    """Whether what a number names was refused; or, since with threads the count varies, the run made fewer."""
    return found.was_refused() or is_threaded and found.ended_before(key, number)


def refused(runs, line, key, whole, is_threaded):
    """The faults of a line whose requests are refused in turn, and how often the answer was that there is no memory."""
    faults, told, most = 0, 0, max(whole.asked[0], 1)
    with ThreadPoolExecutor(os.cpu_count()) as pool:
        for number, found in enumerate(pool.map(lambda at: runs.run(line, key, at), range(1, most + 1)), 1):
            told += found.error.endswith(OUT_OF_MEMORY)
            if not was_tried(found, key, number, is_threaded) or not is_right(found, whole):
                faults += 1
                tell(line, key, number, found)
    return faults, told


def unthreaded(runs, line, whole):
    """The faults of a line whose threads aren't started in turn."""
    faults = 0
    for number in range(1, whole.asked[1] + 1):
        found = runs.run(line, "REFUSE_THREAD", number)
        is_same = (found.status, found.output, found.error) == (whole.status, whole.output, whole.error)
        if not was_tried(found, "REFUSE_THREAD", number, True) or not is_same:
            faults += 1
            tell(line, "REFUSE_THREAD", number, found)
    return faults


def is_usable(whole, is_threaded):
    """Whether the run in which nothing is refused can be a measure of the others."""
    if whole.asked is None or whole.was_refused() or whole.error.endswith(OUT_OF_MEMORY):
        return False
    return 0 < whole.asked[0] <= MOST and is_threaded == (whole.asked[1] > 0)


def check(runs, line, is_threaded):
    """Whether a line has no fault."""
    whole = runs.whole(line)
    if not is_usable(whole, is_threaded):
        tell(line, "nothing refused", 0, whole)
        return False
    once, told = refused(runs, line, "REFUSE_REQUEST", whole, is_threaded)
    lasting, told_lasting = refused(runs, line, "REFUSE_REQUESTS_FROM", whole, is_threaded)
    are_told = told > 0 and told_lasting > 0
    if not are_told:
        print(f"{line}: of {whole.asked[0]} refused requests none was told", flush=True)
    return once + lasting + unthreaded(runs, line, whole) == 0 and are_told


def build(folder):
    """The library, or None where it can't be had: without `cc`, or where the C library isn't glibc."""
    library = Path(folder) / "refuse_memory.so"
    compiler = shutil.which("cc")
    if not compiler:
        return None
    words = [compiler, "-shared", "-fPIC", "-O1", "-o", str(library), str(LIBRARY), "-ldl"]
    return library if subprocess.run(words, check=False).returncode == 0 else None


def main():
    program = built.program("Refuses the program each request for memory in turn.")
    if program is None:
        return 1
    with tempfile.TemporaryDirectory(prefix="pargrep-memory-") as room:
        folder, reports = Path(room) / "folder", Path(room) / "reports"
        folder.mkdir()
        reports.mkdir()
        make(folder)
        if not shutil.which("cc"):
            print("memory: skipped, since there is no cc to build the library that refuses requests")
            print("1 passed, 0 failed")
            return 0
        library = build(room)
        if not library:
            print("memory: the library that refuses requests can't be built\n0 passed, 1 failed")
            return 1
        runs = Runs(program, library, folder, reports)
        lines = [(line, text != ALONE) for text in (ALONE, SPREAD, AHEAD) for line in text.splitlines()]
        passed = sum(check(runs, line, is_threaded) for line, is_threaded in lines)
    print(f"{passed} passed, {len(lines) - passed} failed")
    return 0 if passed == len(lines) else 1


if __name__ == "__main__":
    sys.exit(main())
