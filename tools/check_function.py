#!/usr/bin/env python3
"""Checks some functions of a crate by themselves:
    tools/check_function.py [--margin] [--over FOLDER] CRATE FUNCTION..

A FUNCTION is named as a check shows it below its crate, `Cutter::feed` or `cutter::cut_open`. All other functions of
the crate are stubs, of which only contracts are seen, so it takes half a minute where `rt check --only`, which proves
what they call too, may take as long as the whole crate. It gives no verdict on the crate: `rt check` does. What is
printed is what the check says, without the stubs' holes; the status is 0 only where each function is proved but for
these.

The crates below are those that `rt ci` has built in FOLDER, a copy of the repository in which it has passed. Without
--over they are proved first, which takes minutes where the toolchain doesn't keep what it has proved.

With --margin the prover's search may take half as much for a goal. A goal that stays open so is a slow one, and may
stay open without it too when something else changes: it is best given an answer.
"""

import argparse
import contextlib
import re
import sys
from pathlib import Path

from crates import read_crates
from functions import functions_shown_as
from jobs import jobs_at_once
from prover import Prover, built, lacks

# What a check says of a stub, and of itself.
NOISE = re.compile(
    r"\./proofs/\S+/Proof\.antt:\d+:\d+: (goal \? in |`\w+_spec` is not admitted)"
    r"|fn \S+: (no holes|depends on a hole in )|(statements|crate|logic|only=|so far|by-macro|struct|enum|trait)\b"
)


def named_functions(crate, names):
    """The functions of the crate that the names mean."""
    found = []
    for name in names:
        shown = functions_shown_as(name, crate.folder())
        if not shown:
            sys.exit(f"check_function: {crate.name} has no {name}; name it Type::method or module::function")
        found += shown
    return set(found)


def read_arguments():
    parser = argparse.ArgumentParser(description=__doc__, formatter_class=argparse.RawDescriptionHelpFormatter)
    parser.add_argument("--margin", action="store_true", help="halve what a search may take")
    parser.add_argument("--over", type=Path, metavar="FOLDER", help="where `rt ci` has passed")
    parser.add_argument("crate", metavar="CRATE")
    parser.add_argument("functions", nargs="+", metavar="FUNCTION")
    return parser.parse_args()


def main():
    given = read_arguments()
    crates = read_crates()
    if given.crate not in crates:
        sys.exit(f"check_function: there is no crate {given.crate}")
    crate, flags = crates[given.crate], ["--margin"] if given.margin else []
    functions = named_functions(crate, given.functions)
    # Checked modules alone, and no text, so that nothing with a hole stays in the checkout.
    kept = crate.folder() / "out" / "".join(["among-stubs", *flags])
    kept.mkdir(parents=True, exist_ok=True)
    with contextlib.nullcontext(given.over) if given.over else built(crate.below, jobs_at_once()) as over:
        said = Prover(over.absolute()).check(crate, kept, {}, functions, flags)
    # A message goes on in the indented lines below it.
    for message in filter(None, re.split(r"\n(?! )", said.output)):
        if not NOISE.match(message):
            print(message)
    left = {it.shown(): lacks(it, said.output) for it in functions}
    for name, why in sorted(left.items()):
        print(f"{crate.name}::{name}: {why or 'proved, if what it calls is'}")
    return 1 if any(left.values()) else 0


if __name__ == "__main__":
    sys.exit(main())
