#!/usr/bin/env python3
"""Tells which functions' proofs of a crate take long, and which goals of one of them:
    tools/proof_times.py [--over FOLDER] [--most N] CRATE
    tools/proof_times.py [--over FOLDER] CRATE FUNCTION

The crate is checked from nothing, by one processor, while nothing else should run. A line for each of the N functions
(40 without --most) that took longest says how many seconds that was, and of these how many made the transition system
of its code, how many checked its answers, and how many looked for the goals that have no answer. Where the last is more
than a second or two, some of these goals are dear, and an answer that names the few facts it needs costs a hundredth.
The last line is the sum over all functions.

With a FUNCTION, named as for `tools/check_function.py`, that one is checked among stubs of all others: as it is, and
then, for each clause that goals without an answer are of, with these goals left open. A line for each says how many
seconds of search that spares; what is searched for in all, and how many goals there are, stands in the first line. Each
check begins with nothing, since a later one would have goals at hand that an earlier one found.

The crates below are those that `rt ci` has built in FOLDER, as for `tools/check_function.py`.
"""

import argparse
import contextlib
import re
import sys
import tempfile
from collections import Counter
from pathlib import Path

from crates import read_crates
from functions import functions_shown_as
from jobs import jobs_at_once
from prover import Prover, built, ended

# What a check leaves of a function, as each part of its proof is done, is named by that part.
PARTS = {"Lts": "system", "Answers": "answers", "Proof": "search"}
# A goal of a function, in the text that the toolchain writes of its goals.
GOAL = re.compile(r"(?m)^abbrev pub ([a-z]\S*) : Type")
ANSWER = re.compile(r"(?m)^pub (\S+) :")


def read_arguments():
    parser = argparse.ArgumentParser(description=__doc__, formatter_class=argparse.RawDescriptionHelpFormatter)
    parser.add_argument("--most", type=int, default=40, metavar="N", help="how many functions are listed")
    parser.add_argument("--over", type=Path, metavar="FOLDER", help="where `rt ci` has passed")
    parser.add_argument("crate", metavar="CRATE")
    parser.add_argument("function", nargs="?", metavar="FUNCTION")
    return parser.parse_args()


def times_of(kept, crate):
    """How long the check took that has left these files: by function and part, each since the file before it."""
    files = sorted((it.stat().st_mtime, it.name) for it in kept.glob("*/*.oantt"))
    name, times = re.compile(rf"Rattle-{crate}-proofs\.(.+)\.([A-Z]\w+)\S*\.oantt"), Counter()
    for (before, _), (done, file) in zip(files, files[1:]):
        if found := name.fullmatch(file):
            times[found[1], PARTS.get(found[2], "other")] += done - before
    return times


def tell_functions(prover, crate, most):
    """Prints which functions' proofs took longest."""
    with tempfile.TemporaryDirectory(prefix="times-") as kept:
        said = prover.check(crate, Path(kept), {}, None)
        times = times_of(Path(kept), crate.name)
    if said.status:
        sys.exit(f"{said.output}proof_times: {crate.name} isn't proved, see above")
    whole = Counter()
    for (function, _), seconds in times.items():
        whole[function] += seconds
    for function, seconds in whole.most_common(most):
        parts = ", ".join(f"{it} {times[function, it]:.1f}" for it in PARTS.values())
        print(f"{seconds:.1f} {function.replace('.', '::')}: {parts}")
    print(f"{sum(whole.values()):.0f} all, of {said.seconds:.0f} processor seconds")


def goals_of(prover, crate, function):
    """The names of a function's goals. The toolchain writes them together with what it finds for each."""
    with tempfile.TemporaryDirectory(prefix="goals-") as room:
        said = ended([*prover.words(crate), f"--start={function.shown()}", "--generated", room], crate.folder())
        files = [it for it in Path(room).rglob("Goals.antt") if it.parent.name == function.name.split("/")[-1]]
        if len(files) != 1:
            what = "which is so of functions that call each other, too: they have their goals together"
            sys.exit(f"{said.output}proof_times: {function.shown()} has no goals of its own, {what}")
        return GOAL.findall(files[0].read_text(encoding="utf-8")), files[0].parent.relative_to(room)


def search_with(prover, crate, function, texts):
    """How many seconds are searched for the goals of a function among stubs, where its proof has these texts."""
    with tempfile.TemporaryDirectory(prefix="times-") as kept:
        prover.check(crate, Path(kept), texts, {function})
        return sum(it for (name, part), it in times_of(Path(kept), crate.name).items() if part == "search")


def tell_goals(prover, crate, function):
    """Prints for which clauses the goals of a function take long to find."""
    goals, folder = goals_of(prover, crate, function)
    file = Path("proofs", *folder.parts[1:], "Answers.antt")
    own = crate.folder() / file
    imports = f"use Rattle.{'.'.join([crate.name, *file.parts[:-1]])}.Goals as goal\n"
    text = own.read_text(encoding="utf-8") if own.is_file() else imports
    kinds = {}
    for goal in goals:
        if goal not in ANSWER.findall(text):
            kinds.setdefault(goal.rpartition("-clause-")[2] if "-clause-" in goal else "other goals", []).append(goal)
    whole = search_with(prover, crate, function, {})
    print(f"{whole:.1f} all: {sum(map(len, kinds.values()))} goals have no answer, of {len(goals)}", flush=True)
    for kind, names in kinds.items():
        left = "".join(f"\npub {it} : goal.{it}\n{it} g c = ?\n" for it in names)
        spared = whole - search_with(prover, crate, function, {str(file): text + left})
        print(f"{spared:.1f} {kind}: {len(names)}", flush=True)


def main():
    given = read_arguments()
    crates = read_crates()
    if given.crate not in crates:
        sys.exit(f"proof_times: there is no crate {given.crate}")
    crate = crates[given.crate]
    functions = functions_shown_as(given.function, crate.folder()) if given.function else []
    if given.function and len(functions) != 1:
        sys.exit(f"proof_times: {crate.name} has no {given.function} alone; name it Type::method or module::function")
    with contextlib.nullcontext(given.over) if given.over else built(crate.below, jobs_at_once()) as over:
        prover = Prover(over.absolute())
        if functions:
            tell_goals(prover, crate, *functions)
        else:
            tell_functions(prover, crate, given.most)


if __name__ == "__main__":
    main()
