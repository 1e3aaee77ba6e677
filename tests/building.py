#!/usr/bin/env python3
"""Runs tools/build.py with a stand-in for the toolchain: `tests/building.py`

The stand-in proves nothing. Each case has it behave as a toolchain does that there is, or as one that fails, and looks
at what it was asked for, in which order, what the build says of that, and what it leaves behind. The repository that is
built has six crates of a few words each. The last line is `N passed, M failed`.
"""

import os
import re
import shutil
import signal
import subprocess
import sys
import tempfile
import time
from pathlib import Path

TOOLS = Path(__file__).resolve().parent.parent / "tools"
PROGRAM = "crates/pargrep/out/pargrep"
# The crates, by what they are built over. The last one isn't part of the program.
CRATES = {
    "low": [],
    "left": ["low"],
    "right": ["low"],
    "high": ["left", "right"],
    "pargrep": ["high"],
    "of_tests": ["left"],
}
LIBRARIES = ["high", "left", "low", "right"]

# What the stand-in does is in KIND. It writes a line of what it was asked for to ASKED.
STAND_IN = """#!/usr/bin/env python3
import os, sys, time
from pathlib import Path

kind, words = os.environ["KIND"], sys.argv[1:]
if words == ["version"]:
    sys.exit(print("stand-in 1"))
with open(os.environ["ASKED"], "a") as asked:
    print(*words, file=asked)
names = words[1:] or sorted(os.listdir("crates"))
if kind == "takes no names" and words[1:]:
    sys.exit("usage: rt new FOLDER")
if kind == "fails" and "right" in names:
    sys.exit("right: a goal is open")
if kind == "waits":
    time.sleep(60)
for name in names:
    print(f"rt: {name} proved")
if not words[1:]:
    made = Path("crates/pargrep/out/pargrep")
    made.parent.mkdir()
    made.write_text("built of " + Path("crates/low/src/lib.rt").read_text())
print(f"rt: {len(names)} passed, and that is kept" if kind == "keeps" else f"{len(names)} passed, 0 failed")
"""


class Repository:
    """A small repository, in a folder of its own."""

    def __init__(self, room):
        self.room, self.folder, self.asked = room, room / "repository", room / "asked"
        self.asked.touch()
        (room / "temporary").mkdir()
        (room / "rt").write_text(STAND_IN)
        (room / "rt").chmod(0o755)
        for name in CRATES:
            self.write(f"crates/{name}/src/{'main' if name == 'pargrep' else 'lib'}.rt", name)
        self.write("crates.txt", "".join(f"{name}: {' '.join(below)}\n" for name, below in CRATES.items()))
        self.write("HANDLES", "Handles allowed: none.\n")
        shutil.copytree(TOOLS, self.folder / "tools")

    def write(self, file, text):
        (self.folder / file).parent.mkdir(parents=True, exist_ok=True)
        (self.folder / file).write_text(text)

    def started(self, kind):
        """Starts a build, with the stand-in as a toolchain of this kind."""
        self.asked.write_text("")
        known = {"PATH": os.environ["PATH"], "TMPDIR": str(self.room / "temporary"), "RT_JOBS": "2"}
        return subprocess.Popen(
            [sys.executable, "tools/build.py", str(self.room / "rt")],
            cwd=self.folder,
            env={**known, "KIND": kind, "ASKED": str(self.asked)},
            stdout=subprocess.PIPE,
            stderr=subprocess.STDOUT,
            text=True,
            # A shell has what it starts in the background ignore interrupts.
            preexec_fn=lambda: signal.signal(signal.SIGINT, signal.SIG_DFL),
        )

    def built(self, kind):
        """Builds, and answers the status and what was said."""
        build = self.started(kind)
        said, _ = build.communicate(timeout=60)
        return build.returncode, said

    def calls(self):
        """What the stand-in was asked for, in order."""
        return self.asked.read_text().splitlines()

    def program(self):
        """What was built, or nothing."""
        made = self.folder / PROGRAM
        return made.read_text() if made.is_file() else ""

    def left(self):
        """What a build has left in the folder for temporary files."""
        return os.listdir(self.room / "temporary")


def tells_each_crate_once(said):
    told = re.findall(r"^proved (\w+), ([0-9]) of 5, after [0-9.]+ minutes$", said, re.M)
    return sorted(it for it, _ in told) == sorted([*LIBRARIES, "pargrep"]) and [it for _, it in told] == list("12345")


def is_built(repository, status, said):
    return status == 0 and tells_each_crate_once(said) and repository.program() == "built of low"


def keeps(repository):
    """Each library has a run of its own, those below it first, but for the last one, which is proved by a last run over
    all; then nothing is left to do, and a change has all asked for again."""
    first = is_built(repository, *repository.built("keeps"))
    calls = repository.calls()
    in_order = calls[0] == "ci low" and sorted(calls[1:3]) == ["ci left", "ci right"] and calls[3:] == ["ci"]
    again = repository.built("keeps") == (0, "") and repository.calls() == []
    repository.write("crates/low/src/lib.rt", "anew")
    status, _ = repository.built("keeps")
    return first and in_order and again and status == 0 and repository.program() == "built of anew"


def keeps_nothing(repository):
    """A toolchain that keeps nothing proves all in one run."""
    return is_built(repository, *repository.built("keeps nothing")) and repository.calls() == ["ci low", "ci"]


def takes_no_names(repository):
    """A toolchain that can't be asked for some crates alone proves all in one run."""
    return is_built(repository, *repository.built("takes no names")) and repository.calls() == ["ci low", "ci"]


def fails(repository):
    """What the toolchain said is shown where it failed, and what was built before stays."""
    repository.write(PROGRAM, "older")
    status, said = repository.built("fails")
    told = "right: a goal is open" in said and "pargrep: it was not built; what went wrong stands above" in said
    return status == 1 and told and repository.program() == "older"


def is_missing(repository):
    """A toolchain that isn't there builds nothing."""
    (repository.room / "rt").unlink()
    status, _ = repository.built("keeps")
    return status != 0 and not repository.program()


def is_interrupted(repository):
    """A build that is ended ends what it has started."""
    ended = []
    for number in (signal.SIGINT, signal.SIGTERM):
        build = repository.started("waits")
        since = time.monotonic()
        while not repository.calls() and time.monotonic() - since < 20:
            time.sleep(0.02)
        build.send_signal(number)
        try:
            build.communicate(timeout=20)
        except subprocess.TimeoutExpired:
            build.kill()
        ended.append(build.returncode == 128 + number)
    return all(ended) and not repository.program()


CASES = [keeps, keeps_nothing, takes_no_names, fails, is_missing, is_interrupted]


def is_right(case):
    """Whether a case went as it should, and left nothing behind."""
    with tempfile.TemporaryDirectory(prefix="building-") as room:
        repository = Repository(Path(room))
        return case(repository) and not repository.left()


def main():
    wrong = [it for it in CASES if not is_right(it)]
    for case in wrong:
        print(f"tools/build.py: it isn't so: {' '.join(case.__doc__.split())}")
    print(f"{len(CASES) - len(wrong)} passed, {len(wrong)} failed")
    return 1 if wrong else 0


if __name__ == "__main__":
    sys.exit(main())
