"""The crates of the repository: what each is built over, and copies in which the toolchain can prove some of them."""

import shutil
from dataclasses import dataclass
from pathlib import Path

ROOT = Path(__file__).resolve().parent.parent
LIST = ROOT / "crates.txt"


@dataclass(frozen=True)
class Crate:
    """A crate: the libraries of the toolchain and of the repository that it names, and all of the repository's that it
    is built over, lowest first."""

    name: str
    of_toolchain: tuple
    uses: tuple
    below: tuple

    def folder(self):
        return ROOT / "crates" / self.name

    def root(self):
        return "src/main.rt" if (self.folder() / "src/main.rt").is_file() else "src/lib.rt"


def lines():
    """The lines of crates.txt that list a crate, by its name."""
    listed = {}
    for line in LIST.read_text(encoding="utf-8").split("\n"):
        head, colon, _ = line.partition("#")[0].partition(":")
        if colon:
            listed[head.split()[0]] = line
    return listed


def read_crates():
    """The crates of crates.txt, by their names."""
    deps = {name: line.partition("#")[0].partition(":")[2].split() for name, line in lines().items()}
    return {name: made_crate(name, deps) for name in deps}


def made_crate(name, deps):
    of_toolchain = tuple(it for it in deps[name] if it not in deps)
    return Crate(name, of_toolchain, tuple(it for it in deps[name] if it in deps), tuple(below(name, deps)))


def below(name, deps):
    found = []
    for dep in filter(deps.__contains__, deps[name]):
        found += [it for it in [*below(dep, deps), dep] if it not in found]
    return found


def copy_crates(names, folder):
    """Copies the crates of these names, without what was made of them and without wrong bodies, into a folder that the
    toolchain takes for a repository of its own."""
    left_out = shutil.ignore_patterns("out", "must-fail", "refused")
    for name in names:
        shutil.copytree(ROOT / "crates" / name, Path(folder) / "crates" / name, ignore=left_out)
    listed = "".join(f"{line}\n" for name, line in lines().items() if name in names)
    (Path(folder) / "crates.txt").write_text(listed, encoding="utf-8")
    shutil.copy(ROOT / "HANDLES", folder)
