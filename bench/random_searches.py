#!/usr/bin/env python3
"""Looks for searches in which pargrep takes longer than GNU grep:
    bench/random_searches.py PROGRAM [--searches N] [--seed N] [--megabytes N]

Options, fixed strings and expressions are put together by chance, of words that stand in the texts and of others. Each
search is made twice in turn by GNU grep and by pargrep, which uses one thread (`--round 1`), and the least processor
time of each counts. What pargrep writes has to be what GNU grep writes, byte for byte. A line is printed for each
search, with both times in milliseconds and their ratio, those with the greatest ratios last, and then how the ratios
lie. Searches that take GNU grep less than 4 milliseconds are left out of that. The status is 1 where an output differs.
Nothing of this is in the gate.
"""

import argparse
import random
import shutil
import sys
import tempfile
from dataclasses import dataclass
from pathlib import Path

import texts
from bench import Bench, Case

ROUNDS = 2
LEAST = 4
SETS = ["[0-9]", "[a-z]", "[A-Z]", "[aeiou]", "[^aeiou]", "[a-f0-9]", "[^ ]", "[^,]", '[^"]', ".", "[[:alpha:]]"]
SETS += ["[[:digit:]]", "[[:space:]]", "[[:punct:]]"]
FEW_COUNTS = ["*", "+", "?", "{2}"]
COUNTS = [*FEW_COUNTS, "{3,}", "{1,4}", "{0,20}", "{8}"]
SPECIAL = set(".[]{}()*+?|^$\\")


@dataclass(frozen=True)
class Timed:
    """A search that was timed: its words, and the milliseconds that GNU grep and pargrep took."""

    words: str
    grep: float
    pargrep: float

    def ratio(self):
        return self.pargrep / self.grep

    def line(self):
        return f"{self.grep:8.1f} {self.pargrep:8.1f} {self.ratio():6.2f}  {self.words}"


class Searches:
    """Searches that are put together by chance, of these words."""

    def __init__(self, seed, words):
        self.chance = random.Random(seed)
        self.words = words

    def word(self):
        """A word of the texts, a beginning of one, two words, or one that few of the texts have."""
        pick = self.chance.choice
        known = pick(self.words[:50]) if self.chance.random() < 0.5 else pick(self.words)
        other = pick(["GET", "404", "id=", "aaab", "=1", "-", "ZZ"])
        return pick([known, known[:3], f"{known} {pick(self.words)}", other])

    def escaped(self):
        return "".join("\\" + it if it in SPECIAL else it for it in self.word())

    def atom(self, depth):
        kind = self.chance.random()
        if kind < 0.4 or depth == 2:
            return self.escaped()
        if kind < 0.6:
            return self.chance.choice(SETS)
        if kind < 0.75:
            return "(" + "|".join(self.escaped() for _ in range(self.chance.randint(2, 6))) + ")"
        return "(" + "".join(self.piece(depth + 1) for _ in range(self.chance.randint(1, 2))) + ")"

    def piece(self, depth):
        """An atom, repeated or not. Within others counts are small, for pargrep refuses more than 65,536 states."""
        atom = self.atom(depth)
        return atom if self.chance.random() < 0.5 else atom + self.chance.choice(FEW_COUNTS if depth else COUNTS)

    def expression(self):
        found = "".join(self.piece(0) for _ in range(self.chance.randint(1, 4)))
        if self.chance.random() < 0.15:
            found += "|" + self.piece(0)
        elif self.chance.random() < 0.2:
            found = self.chance.choice(["^" + found, found + "$"])
        return found

    def patterns(self):
        """One fixed string, up to twenty, or an expression."""
        kind = self.chance.random()
        if kind < 0.35:
            count = 1 if kind < 0.2 else self.chance.randint(2, 20)
            return ["-F", *[word for _ in range(count) for word in ("-e", self.word())]]
        return ["-E", "-e", self.expression()]

    def options(self):
        """-w and -v aren't given with -o: GNU grep's -ow passes over some parts, and with -v there are none."""
        found = [it for it, chance in (("-i", 0.25), ("-x", 0.05)) if self.chance.random() < chance]
        shown = self.chance.choices([["-o"], ["-c"], ["-n"], ["-l"], ["-C2"], []], weights=[25, 30, 15, 5, 5, 20])[0]
        if shown != ["-o"]:
            found += [it for it, chance in (("-w", 0.15), ("-v", 0.12)) if self.chance.random() < chance]
        return [*found, *shown]

    def search(self):
        return ["-a", *self.options(), *self.patterns()]


def make_texts(folder, megabytes):
    """Writes the texts, and answers their names and the words that they are made of."""
    words = texts.dictionary()
    made = {
        "common": texts.common(megabytes),
        "prose": texts.prose(words, megabytes),
        "log": texts.log(megabytes),
        "wide": texts.wide(words, megabytes),
        "single": texts.single(words, megabytes),
        "settings": texts.settings(100_000 * megabytes),
        "numbers": texts.numbers(5_000, megabytes),
        "a": texts.near_misses(megabytes),
        "binary": texts.binary(megabytes),
    }
    for name, text in made.items():
        (folder / name).write_bytes(text)
    return list(made), [*texts.COMMON, *words[:3_000]]


def timed(bench, case):
    """Times a search by GNU grep and by pargrep in one thread; None where the outputs differ."""
    least, outputs = {}, set()
    for _ in range(ROUNDS):
        for name in ("grep", "one"):
            _, busy = bench.run(bench.programs[name](case), case)
            least[name] = min(1000 * busy, least.get(name, 1000 * busy))
            outputs.add(bench.output(case))
    return Timed(case.label(), least["grep"], least["one"]) if len(outputs) == 1 else None


def main():
    parser = argparse.ArgumentParser(description=__doc__, formatter_class=argparse.RawDescriptionHelpFormatter)
    parser.add_argument("program")
    parser.add_argument("--searches", type=int, default=500)
    parser.add_argument("--seed", type=int, default=1)
    parser.add_argument("--megabytes", type=int, default=6)
    asked = parser.parse_args()
    program = shutil.which(asked.program)
    if program is None:
        sys.exit(f"random_searches: there is no program {asked.program}; `make` builds crates/pargrep/out/pargrep")
    found, differ = [], 0
    with tempfile.TemporaryDirectory(prefix="random-searches-") as room:
        names, words = make_texts(Path(room), asked.megabytes)
        bench = Bench(str(Path(program).resolve()), Path(room), ROUNDS)
        searches = Searches(asked.seed, words)
        for _ in range(asked.searches):
            case = Case(searches.search(), searches.chance.choice(names), None)
            one = timed(bench, case)
            if one is None:
                print(f"the outputs differ: {case.options} {case.text}", flush=True)
                differ += 1
            elif one.grep >= LEAST:
                found.append(one)
    found.sort(key=Timed.ratio)
    for one in found:
        print(one.line())
    if found:
        half, nine_tenths = found[len(found) // 2].ratio(), found[len(found) * 9 // 10].ratio()
        whole = sum(it.pargrep for it in found) / sum(it.grep for it in found)
        print(f"{len(found)} searches: half at most {half:.2f}, nine tenths at most {nine_tenths:.2f}, all {whole:.2f}")
    return 1 if differ else 0


if __name__ == "__main__":
    sys.exit(main())
