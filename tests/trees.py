#!/usr/bin/env python3
"""Compares what the program writes of trees with helpers and without: `tests/trees.py [--program PATH]`

In a recursive search other threads look at entries, and open and read files that aren't long, before their turn comes.
Trees are made that have what may mislead them: many entries and none, files of the size up to which they are read ahead
and one byte more, more of them than are held at once, directories of few entries within one another, and of names that
a walk doesn't visit in the order of their paths' bytes, many levels, links, FIFOs, names that are not UTF-8, and the
file that the output goes to. Each command line below is run over them by one thread (`--round 1`) and as it stands,
RUNS times each, and has to give the same bytes, faults and status each time; where GNU grep visits directories in
another order, its lines are sorted as ours are. A run with helpers has to show other threads, and one of one thread
none. The last line is `N passed, M failed`.
"""

import os
import random
import shlex
import sys
import tempfile
from pathlib import Path

from threads import answer, tell, watched_program, without_own

SEED = 2
RUNS = 12

# A file of so many bytes is the longest that is read ahead.
AHEAD = 262_144

# Only what one of the two writes is compared: the order of files is each program's own.
LIKE_GREP = """\
-r b .
-rc b .
-rl b many deep
-rL b .
-rn -C 1 ab .
-ro 'a[a-c]*b' .
-rvc a .
-rh ab many sizes
-rm 2 b .
-rc --include='*.c' b .
-rc --exclude='f*' b .
-rc --exclude-dir=deep --exclude-dir=many b .
-rcF -e ab -e ba many
-rE 'a{2}b' sizes deep
-Rc b deep sizes linked
-rb ab sizes
-rHn b many/f1 deep many
-rn b small
-rc --exclude='e3*' b small large
-rl b large small
-rc ab large
"""

# Here the programs differ by choice, or one of several faults is told, and so only our own runs are compared.
OWN = """\
-rn b .
-Rn b .
-rn b . missing many
-rn b ../bad many
-rq b .
-rs b . missing
-rlm 1 b .
-rn -D read ab many deep
--workers 1 -rn b .
--workers 64 -rn b .
--block 700 -rn b .
--block 700 --round 3 -rc b .
"""


def text_of(chance, size):
    """Lines of a, b and c, some of them empty."""
    made = bytearray()
    while len(made) < size:
        made += bytes(chance.choices(b"abc", k=chance.randint(0, 60))) + b"\n"
    return bytes(made[:size])


def make_sizes(chance, folder):
    """Files about the size up to which they are read ahead."""
    for size in (0, 1, 2, 4_095, 4_096, 32_768, 65_536, 69_632, 69_633, AHEAD - 1, AHEAD, AHEAD + 1):
        (folder / f"s{size}").write_bytes(text_of(chance, size))


def make_many(chance, folder):
    """Many small files, a few large ones among them, and directories with no entry or one."""
    for number in range(700):
        size = chance.choice((0, 30, 300, 3_000)) if number % 90 else 100_000
        (folder / f"f{number}{chance.choice(('', '.c', '.h'))}").write_bytes(text_of(chance, size))
    for number in range(30):
        (folder / f"f{number}-empty").mkdir()
        (folder / f"f{number}-one").mkdir()
        (folder / f"f{number}-one" / "f").write_bytes(text_of(chance, 100))


def make_deep(chance, folder):
    """Forty levels, each with files before and behind the directory that goes on."""
    for _ in range(40):
        for name in ("a", "b.c", "n", "z"):
            (folder / name).write_bytes(text_of(chance, 200))
        folder = folder / "m"
        folder.mkdir()


def make_small(chance, folder):
    """Directories of few entries within one another. In the order of a walk what lies in `d1` comes before `d1-`, and
    in that of the bytes of paths behind it."""
    for number in range(36):
        below = folder / f"d{number // 3}{('', '-', '.d')[number % 3]}"
        below.mkdir()
        for entry in range(number % 18):
            (below / f"e{entry}").write_bytes(text_of(chance, 200))
        for name in ("e", "e-", "z")[: number % 4]:
            (below / name / "last").mkdir(parents=True)
            (below / name / "f").write_bytes(text_of(chance, 100))
            (below / name / "last" / "f").write_bytes(text_of(chance, 100))


def make_large(chance, folder):
    """More bytes than are held at once, in files that are read ahead."""
    text = text_of(chance, 250_000)
    for number in range(48):
        (folder / f"f{number}").write_bytes(text)


def make_others(chance, folder):
    """What is not read: links, a FIFO, and what a name can't be told of."""
    (folder / "linked").mkdir()
    (folder / "linked" / "file").symlink_to("../sizes/s4096")
    (folder / "linked" / "nothing").symlink_to("nowhere")
    (folder / "linked" / "directory").symlink_to("../deep/m")
    (folder / "odd").mkdir()
    os.mkfifo(folder / "odd" / "fifo")
    (folder / "odd" / "two\nlines").write_bytes(text_of(chance, 500))
    (folder / "odd" / "-").write_bytes(text_of(chance, 500))


def make(folder):
    chance = random.Random(SEED)
    (folder / "bad").mkdir()
    (folder / "bad" / "file").write_bytes(text_of(chance, 500))
    (folder / "bad" / os.fsdecode(b"\xff")).write_bytes(text_of(chance, 500))
    folder = folder / "all"
    folder.mkdir()
    kinds = {"sizes": make_sizes, "many": make_many, "deep": make_deep, "small": make_small, "large": make_large}
    for name, entries in kinds.items():
        (folder / name).mkdir()
        entries(chance, folder / name)
    make_others(chance, folder)


def sorted_lines(found):
    """The status of a run, its lines in any order, and whether a fault was told."""
    return found[0], sorted(found[1].split(b"\n")), bool(found[2])


def faults_of(program, words, folder, is_like_grep):
    """What is not as it has to be of a line, and how many threads were seen at once."""
    faults, most = [], 0
    alone, beside = answer([program, *words, "--round", "1"], folder, is_watched=True)
    if beside > 1:
        faults.append(f"{beside} threads were seen where one was asked for")
    if is_like_grep:
        grep, _ = answer(["grep", *without_own(words)], folder)
        if sorted_lines(grep) != sorted_lines(alone):
            faults.append("grep gives something else than one thread")
    for _ in range(RUNS):
        found, seen = answer([program, *words], folder, is_watched=True)
        most = max(most, seen)
        if found != alone:
            faults.append("with helpers something else comes than by one thread")
            break
    return faults, most


def into_own_tree(program, folder, words):
    """What stands in a file of the tree behind a run whose output goes there, and what was told."""
    path = folder / "sizes" / "output"
    with open(path, "wb") as output:
        found, _ = answer([program, *words, "-rn", "b", "sizes"], folder, output=output)
    written = path.read_bytes()
    path.unlink()
    return found[0], written, found[2]


def cases(program, folder):
    """Each line, and its faults; then what holds of all runs."""
    most = 0
    for lines, is_like_grep in ((LIKE_GREP, True), (OWN, False)):
        for line in lines.splitlines():
            faults, seen = faults_of(program, shlex.split(line), folder, is_like_grep)
            most = max(most, seen)
            yield line, faults
    outputs = {into_own_tree(program, folder, words) for words in (["--round", "1"], [], [])}
    yield "output into the tree", [] if len(outputs) == 1 else ["with helpers something else comes than by one thread"]
    yield "helpers", [] if most > 1 else ["none were seen in any run"]


def main():
    program = watched_program("Compares what the program writes of trees with helpers and without.")
    if program is None:
        return 1
    with tempfile.TemporaryDirectory(prefix="pargrep-trees-") as folder:
        make(Path(folder))
        return tell(cases(program, Path(folder) / "all"))


if __name__ == "__main__":
    sys.exit(main())
