#!/usr/bin/env python3
"""Lists the wrong bodies that the prover has to refuse, by crate: `tests/wrong_bodies.py [--write]`

The list is docs/WRONG-BODIES.md, made of the names of the edits, which say what is wrong. Without --write it is
compared with the edits that there are, and so is tests/README.md with what it names: the edits of each promise have to
lie in must-fail/ of the crate that is named before them, and where a test stands has to name each file of rows. The
last line is `N passed, M failed` then, one for each of the three.
"""

import re
import sys
import textwrap
from pathlib import Path

ROOT = Path(__file__).resolve().parent.parent
LIST = ROOT / "docs/WRONG-BODIES.md"
GUIDE = ROOT / "tests/README.md"
WIDTH = 120

HEAD = """# Wrong bodies

What is wrong with each function that the prover has to refuse, by crate. Each is an edit of the code under
`crates/CRATE/must-fail`, which the gate tries, or under `crates/CRATE/refused`, which `make refuse` tries and the gate
looks up. Those that end with *in the law* turn the statement of a law. `tests/wrong_bodies.py --write` makes this list.
"""


def names(folder):
    """What the edits of a folder are called, in plain words."""
    return [path.stem.replace("-", " ") for path in sorted(folder.glob("*.edit"))]


def paragraph(label, found):
    return "\n".join(textwrap.wrap(f"{label}: {'; '.join(found)}.", WIDTH, break_on_hyphens=False)) + "\n"


def made():
    """The list, as the edits say it now."""
    parts = [HEAD]
    for crate in sorted((ROOT / "crates").iterdir()):
        tried, others = names(crate / "must-fail"), names(crate / "refused")
        if tried or others:
            parts.append(f"## {crate.name}\n")
            parts += [paragraph("In the gate", tried)] if tried else []
            parts += [paragraph("Besides", others)] if others else []
    return "\n".join(parts)


def section(heading):
    """A section of tests/README.md, as one line."""
    return " ".join(GUIDE.read_text().partition(f"\n## {heading}\n")[2].partition("\n## ")[0].split())


def edits_of_promises():
    """The crate and the name of each edit that a promise names: what stands from `Edits:` to the next full stop."""
    for words in re.findall(r"Edits: ([^.]*)\.", section("What shows each promise")):
        crate = ""
        for word in words.split():
            name = word.strip(",;")
            if name.startswith("`"):
                crate = name.strip("`")
            else:
                yield crate, name


def faults_of_list():
    if not LIST.exists() or LIST.read_text() != made():
        yield "docs/WRONG-BODIES.md isn't what the edits say: run tests/wrong_bodies.py --write"


def faults_of_promises():
    named = list(edits_of_promises())
    if not named:
        yield "tests/README.md names no edit under what shows each promise"
    for crate, name in named:
        if not (ROOT / "crates" / crate / "must-fail" / f"{name}.edit").is_file():
            yield f"tests/README.md names an edit {name} of {crate}, which isn't in crates/{crate}/must-fail"


def faults_of_rows():
    lists = re.findall(r"rows: ((?:`[\w-]+`,? ?)+)", section("Where a test stands"))
    named = set(re.findall(r"`([\w-]+)`", " ".join(lists)))
    files = {path.stem for path in (ROOT / "tests/rows").glob("*.rows")}
    for name in sorted(files - named):
        yield f"tests/README.md doesn't name tests/rows/{name}.rows where a test stands"
    for name in sorted(named - files):
        yield f"tests/README.md names rows {name}, and there is no tests/rows/{name}.rows"


def main():
    if sys.argv[1:] == ["--write"]:
        LIST.write_text(made())
        return 0
    passed = failed = 0
    for faults_of in (faults_of_list, faults_of_promises, faults_of_rows):
        faults = list(faults_of())
        for fault in faults:
            print(fault)
        passed, failed = passed + (not faults), failed + bool(faults)
    print(f"{passed} passed, {failed} failed")
    return 1 if failed else 0


if __name__ == "__main__":
    sys.exit(main())
