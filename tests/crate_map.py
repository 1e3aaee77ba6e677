#!/usr/bin/env python3
"""Says in docs/ARCHITECTURE.md what each crate stands on, as crates.txt has it: `tests/crate_map.py [--write]`

Each crate has an item in the section `The crates`, in words, and behind them a sentence that this script makes. Without
--write the document is compared with what it would be; the last line is `N passed, M failed` then.
"""

import re
import sys
import textwrap
from pathlib import Path

ROOT = Path(__file__).resolve().parent.parent
sys.path.append(str(ROOT / "tools"))

from crates import read_crates  # noqa: E402

MAP = ROOT / "docs/ARCHITECTURE.md"
WIDTH = 120
HEADING = "\n## The crates\n\n"


def sentence(crate):
    """What the crate stands on: the repository's crates, lowest first, and then those of the toolchain."""
    names = [*[it for it in crate.below if it in crate.uses], *sorted(crate.of_toolchain)]
    return f" It stands on {', '.join(f'`{it}`' for it in names)}." if names else ""


def made(text, crates):
    """The document with each item's last sentence made anew, and the crates that have no item or more than one."""
    before, heading, rest = text.partition(HEADING)
    items, blank, after = rest.partition("\n\n## ")
    shown, lacking = [], [*crates]
    for item in re.split(r"\n(?=- )", items):
        name = re.match(r"- `(\w+)`:", item)
        if not name or name[1] not in lacking:
            return text, [name[1] if name else item]
        lacking.remove(name[1])
        words = " ".join(item.split()).partition(" It stands on ")[0] + sentence(crates[name[1]])
        shown += textwrap.wrap(words, WIDTH, subsequent_indent="  ", break_on_hyphens=False)
    return before + heading + "\n".join(shown) + blank + after, lacking


def main():
    text = MAP.read_text(encoding="utf-8")
    anew, wrong = made(text, read_crates())
    for name in wrong:
        print(f"docs/ARCHITECTURE.md: there is not one item for {name}")
    if sys.argv[1:] == ["--write"]:
        MAP.write_text(anew, encoding="utf-8")
        return 1 if wrong else 0
    is_right = anew == text and not wrong
    if anew != text:
        print("docs/ARCHITECTURE.md isn't what crates.txt says: run tests/crate_map.py --write")
    print(f"{int(is_right)} passed, {int(not is_right)} failed")
    return 0 if is_right else 1


if __name__ == "__main__":
    sys.exit(main())
