"""The toolchain's prover, for checks of a crate as it would be with other texts, or of some of its functions."""

import contextlib
import os
import re
import shutil
import subprocess
import sys
import tempfile
from dataclasses import dataclass
from pathlib import Path

from crates import copy_crates
from functions import leave_stubs

RT = os.environ.get("RT", "rt")
PARTS = ["src", "specs", "proofs"]


@dataclass(frozen=True)
class Ended:
    """How a command ended: its status, what it wrote, and the processor seconds that it took."""

    status: int
    output: str
    seconds: float


def ended(command, folder):
    """Runs a command in a folder."""
    with tempfile.TemporaryFile() as told:
        process = subprocess.Popen(command, cwd=folder, stdin=subprocess.DEVNULL, stdout=told, stderr=subprocess.STDOUT)
        _, status, used = os.wait4(process.pid, 0)
        process.returncode = os.waitstatus_to_exitcode(status)
        told.seek(0)
        return Ended(process.returncode, told.read().decode(errors="replace"), used.ru_utime + used.ru_stime)


class Prover:
    """The toolchain's prover, over the libraries of the repository that `rt ci` has built in a folder."""

    def __init__(self, over):
        self.over = over
        # Its first page stands at the top of the toolchain's folder.
        page = subprocess.run([RT, "doc"], stdout=subprocess.PIPE, check=True).stdout.decode().strip()
        self.home = Path(page).parent

    def library(self, name):
        return self.over / "crates" / name / "out/rlib" / f"{name}.rlib"

    def words(self, crate):
        """The command that checks a crate. One job takes the least processor time."""
        words = [f"{self.home}/bin/rattle", "check", "--crate-name", crate.name, crate.root()]
        for name in ["std", *crate.of_toolchain]:
            words += ["--extern", f"{name}={self.home}/rlibs/{name}.rlib"]
        for name in crate.uses:
            words += ["--extern", f"{name}={self.library(name)}"]
        for folder in [self.home / "rlibs", *[self.library(it).parent for it in crate.below]]:
            words += ["-L", f"dependency={folder}"]
        words += ["--antt-project", f"{self.home}/rattle/logic/antt-project.json"]
        return [*words, "--logic-built", f"{self.home}/logic_built", "--jobs", "1"]

    def check(self, crate, kept, texts, real, flags=()):
        """Checks a copy of the crate with these texts in place of its own: some functions among stubs of all others, or
        the whole crate where none are given. The copy goes when that is done. What earlier checks left in the folder
        `kept` isn't checked again."""
        words = [*self.words(crate), *flags, "--incremental", str(kept.absolute())]
        with tempfile.TemporaryDirectory(prefix="check-") as room:
            folder = Path(room)
            for part in PARTS:
                if (crate.folder() / part).is_dir():
                    shutil.copytree(crate.folder() / part, folder / part)
            for file, text in texts.items():
                (folder / file).write_text(text, encoding="utf-8")
            if real:
                leave_stubs(folder, crate.name, real)
                words += ["--allow-holes", *sorted({f"--only={it.shown()}" for it in real})]
            return ended(words, folder)


def lacks(function, output):
    """What a check said of a function that isn't proved, but for the holes of stubs; None of one that is."""
    lines = re.findall(r"(?m)^fn (\S+): (.*)", output)
    told = [it for name, it in lines if name.endswith(f"::{function.shown()}")]
    if any(f".{function.hole()}`" in it for it in told):
        return "it is a stub itself, which is a fault of tools/functions.py"
    left = [it for it in told if not is_but_for_stubs(it, dict(lines))]
    return left[0] if left else None if told else "the check said nothing of it"


def is_but_for_stubs(said, lines):
    """Whether what a check said of a function names no hole but those of stubs. An answer, an invariant or a lemma may
    have one too, which someone has left. Where it names those of another function, `lines` has that one's."""
    if said.startswith("no holes"):
        return True
    named, _, other = said.partition(" declarations as ")
    if not said.startswith("depends on a hole in "):
        return False
    holes = re.findall(r"`([^`]+)`", named)
    shared = not other or is_but_for_stubs(lines.get(other.strip("`"), ""), lines)
    return shared and all(re.search(r"\.Proof\.\w+_spec$", it) for it in holes)


@contextlib.contextmanager
def built(names, jobs):
    """Gives a folder in which `rt ci` has proved and built the crates of these names, for as long as it is used."""
    with tempfile.TemporaryDirectory(prefix="built-") as room:
        over = Path(room)
        copy_crates(names, over)
        os.environ["RT_JOBS"] = str(jobs)
        ci = ended([RT, "ci"], over) if names else None
        if ci and ci.status:
            sys.exit(f"{ci.output}{' '.join(sorted(names))}: not all proved as they are, see above; mend that first")
        yield over
