#!/usr/bin/env python3
"""Makes the table of crates/pg_tests/src/cases.rt anew, by asking GNU grep: `tests/make_cases.py > that file`

A case is made of small random files, a pattern and a format, from a fixed seed, so that the same table comes each
time. What is wanted of it is what `grep` (GNU 3.8 was asked last) writes and answers in a new folder, with LC_ALL=C.
The program has no part in it. GREP names another grep.
"""

import os
import random
import subprocess
import sys
import tempfile
from dataclasses import dataclass
from pathlib import Path

SEED = 4

# How many cases there are of each mode; `o` stands for rows of matched parts.
COUNTS = {"-": 62, "o": 20, "c": 14, "l": 12, "q": 14}

# The same of cases in colors, which stand behind the others.
COLORED = {"-": 12, "o": 6, "c": 2}

# The most columns of a row, and how many of the cases are left out that write nothing, -q aside.
WIDTH = 118
LEFT_OUT = 0.7

NAMES = "abc"
MISSED = "!"

# The first letter is the kind of the pattern.
PATTERNS = ["Fm", "Fx", "Fmx", "F", "Em|x", "Em+", "E^m", "Em$", "E^$", "E(mx)+", "E^", "Ex*", "Gm*", "G^x", "Gm."]

# Lines that hold an `m`, and others.
WITH_M = ["m", "m", "mx", "xm", "mm", "mxm"]
WITHOUT_M = ["x", "x", "", "xx"]

HEAD = """\
//! Formats, small files, and what GNU grep writes and answers. `tests/make_cases.py` writes this file.

/// A case is a row of six fields:
/// - six letters: `H` names, `n` numbers, a mode (`c`, `l`, `q`), the limit, and the lines of context before and after;
///   `-` stands for what isn't given;
/// - the pattern: `F`, `G` or `E` for its kind, then `o` for matched parts, `c` for lines in colors, `C` for parts in
///   colors or `v` for lines that aren't matched, and behind a colon the text;
/// - the least bytes of a block;
/// - the seed of the order in which results arrive;
/// - the files `a`, `b`, `c`, a `|` before each, where `!` is one that isn't there;
/// - the status, and behind a colon the output.
///
/// In files and output `/` stands for a newline, and `~` for an ESC. Texts of a few rows are proved sooner than one of
/// all.
pub(crate) const CASES: [&str; %d] = [
"""

# How many rows stand in one text.
TEXT = 10


@dataclass
class Case:
    """What grep is asked: a None among the numbers isn't given, a None among the files isn't there."""

    mode: str
    names: bool
    numbers: bool
    invert: bool
    limit: int
    before: int
    after: int
    colored: bool
    pattern: str
    files: list

    def words(self):
        """The words behind grep's name."""
        words = ["-s", "-H" if self.names else "-h"] + ["--color=always"] * self.colored
        words += ["-n"] * self.numbers + ["-v"] * self.invert
        words += [] if self.mode == "-" else [f"-{self.mode}"]
        for option, value in (("-m", self.limit), ("-B", self.before), ("-A", self.after)):
            words += [] if value is None else [option, str(value)]
        words += [f"-{self.pattern[0]}", "-e", self.pattern[1:]]
        # Without a name grep would read its standard input: it searches the folder, which is empty.
        return words + (list(NAMES[: len(self.files)]) or ["-r"])

    def letters(self):
        """The format, and the kind of the pattern."""
        mode = "-" if self.mode == "o" else self.mode
        numbers = "".join("-" if value is None else str(value) for value in (self.limit, self.before, self.after))
        form = ("H" if self.names else "-") + ("n" if self.numbers else "-") + mode + numbers
        option = ("C" if self.mode == "o" else "c") if self.colored else "o" if self.mode == "o" else ""
        kind = self.pattern[0] + (option or "v" * self.invert)
        return f"{form} {kind}:{self.pattern[1:]}"


def maybe(rng, chance, low, high):
    return rng.randint(low, high) if rng.random() < chance else None


def make_file(rng, density):
    """The lines of a file, or None where it isn't there."""
    if rng.random() < 0.14:
        return None
    lines = []
    for _ in range(rng.randint(0, 8)):
        lines.append(rng.choice(WITH_M if rng.random() < density else WITHOUT_M))
    return lines


def make_case(rng, mode, colored):
    context = {"-": 0.6, "o": 0}.get(mode, 0.2)
    density = rng.choice([0.15, 0.3, 0.6])
    return Case(
        mode=mode,
        names=rng.random() < 0.5,
        numbers=rng.random() < 0.5,
        invert=mode != "o" and not colored and rng.random() < 0.2,
        limit=maybe(rng, 0.35, 1, 3),
        before=maybe(rng, context, 0, 3),
        after=maybe(rng, context, 0, 3),
        colored=colored,
        pattern=rng.choice(PATTERNS[:1] * 6 + PATTERNS),
        files=[make_file(rng, density) for _ in range(rng.choice([0] + [1] * 6 + [2] * 10 + [3] * 13))],
    )


def text_of(lines):
    return "".join(line + "\n" for line in lines)


def ask_grep(case):
    """What grep writes and answers."""
    with tempfile.TemporaryDirectory() as folder:
        for name, lines in zip(NAMES, case.files):
            if lines is not None:
                (Path(folder) / name).write_text(text_of(lines))
        found = subprocess.run(
            [os.environ.get("GREP", "grep"), *case.words()],
            cwd=folder,
            env={"LC_ALL": "C", "PATH": os.environ["PATH"]},
            stdin=subprocess.DEVNULL,
            capture_output=True,
            text=True,
            check=False,
        )
    if found.stderr:
        sys.exit(f"grep {case.words()}: {found.stderr}")
    return found.returncode, found.stdout


def row_of(rng, case):
    status, output = ask_grep(case)
    files = "".join("|" + (MISSED if lines is None else text_of(lines)) for lines in case.files)
    row = f"{case.letters()} {rng.randint(2, 9)} {rng.randint(0, 255)} :{files} {status}:{output}"
    return row.replace("\n", "/").replace("\x1b", "~")


def main():
    rng = random.Random(SEED)
    rows = []
    modes = [(mode, count, False) for mode, count in COUNTS.items()]
    modes += [(mode, count, True) for mode, count in COLORED.items()]
    for mode, count, colored in modes:
        wanted = len(rows) + count
        while len(rows) < wanted:
            row = row_of(rng, make_case(rng, mode, colored))
            is_dull = mode != "q" and row.endswith(":") and rng.random() < LEFT_OUT
            if len(row) <= WIDTH and row not in rows and not is_dull:
                rows.append(row)
    texts = ["\n".join(rows[at : at + TEXT]) for at in range(0, len(rows), TEXT)]
    print(HEAD % len(texts) + "".join(f'    r"{text}",\n' for text in texts) + "];")


if __name__ == "__main__":
    main()
