#!/usr/bin/env python3
"""Times pargrep beside GNU grep and ripgrep:
    bench/bench.py PROGRAM [--megabytes N] [--rounds N] [--only WORD] [--busy]

Each program searches the same text in turn, so many rounds, and of each the least wall time counts, and the processor
time of that run. What pargrep writes has to be what GNU grep writes, byte for byte (in a tree, in the order of lines).
`one` is pargrep by one thread (`--round 1`, by which each block is searched where it was read), `four` by at most four
beside the one that reads; ripgrep (`rg`) runs by one thread and by four. Times are in milliseconds, and the last column
is pargrep's to GNU grep's, by one thread and by four. With --busy each processor also runs an endless loop meanwhile.
Nothing of this is in the gate.
"""

import argparse
import contextlib
import math
import os
import shutil
import subprocess
import sys
import tempfile
import time
from dataclasses import dataclass
from pathlib import Path

import texts

ENVIRONMENT = {"LC_ALL": "C", "PATH": os.environ.get("PATH", os.defpath)}
RIPGREP = ["--no-config", "--no-unicode", "-a", "-N", "-I"]

# A program that takes longer in its first run isn't run again.
SLOW = 3.0


@dataclass
class Case:
    """A search: options, what is searched, and ripgrep's options; None where it has no such search."""

    options: list
    text: str
    ripgrep: list | None
    is_tree: bool = False
    is_piped: bool = False

    def label(self):
        shown = " ".join(self.options)
        return f"{shown} {self.text}" + (", by a pipe" if self.is_piped else "")


def ripgrep_of(options):
    """The same options for ripgrep, whose expressions are extended ones: without -E, and without -a, which it has."""
    letters = str.maketrans("", "", "Ea")
    words = [it.translate(letters) if it.startswith("-") and not it.startswith("--") else it for it in options]
    return [it for it in words if it != "-"]


def split(rows, text):
    """A case for each line of options, separated by blanks."""
    for row in rows.split("\n"):
        if row:
            options = row.split()
            yield Case(options, text, ripgrep_of(options))


COMMON = """
-F zzqq
-F water
-F the
-F e
-nF water
-bF water
-cF the
-FC3 water
-Fw the
-Fx of.the.people
-Fi WATER
-Fi zzqq
-Fv the
-E wat.r
-cE wat.r
-oE wat.r
-vE wat.r
-wE wat.r
-iE wat[er]+
-xE of.*people
-E zz.*qq
-E (oil|call)ed?.now
-E water|people
-E water|people|number|other|which
-E [a-z]{9,}
-E [^aeiou]{6}
-oE [a-z]{7}
-oE [a-z]+ing
-oE [^[:space:]]+
-owE [a-z]{5}
-cE [wn][aeiou]t
-cE [a-z]+in[.,:;a]
-cE ^[a-z]+.[a-z]+.of
--color=always -nF water
--color=always -nE [a-z]{9,}
--color=always -E [aeiou]
"""

LOG = """
-cF POST
-oE id=[0-9]+
-cE ^10[.][0-9]+[.]1
-cE [0-9a-f]{8}-[0-9a-f]{4}
-oE [0-9a-f]{4}-[0-9a-f]{12}
-cE (GET|HEAD).*404
"""

# Rows of sets: rare ones, common ones, and some of which the log has parts everywhere. Single bytes that stand nowhere,
# which the automaton would have to confirm. And alternatives of as many bytes each.
SETS = r"""
-c [^[:print:]]
-c [0-9]
-cE [A-Z]{3,}
-cE [0-9]+[.][0-9]+
-cE [0-9][0-9]:[0-9][0-9]
-cE (\+|-|\*|/)=
-cE [A-Z][a-z]+[A-Z]
-cE [qjxz][^u]
-cE (ab|cd|ef|gh|ij)k
-cE id=[0-9a-f]{3}x
-cE (GET|POST).*#[0-9]
-cE [[:punct:]]{3}
-cE [a-z.]+@[a-z]+[.][a-z]{2,}
-cE \([^)]*\)
-cE z[a-z]*z
-c ^#
-c ^$
-cE [a-z]{5}_[a-z]{5}
-c [^[:alnum:][:blank:]]
-cE ==|!=|<=|>=
-cE (10|20|30|40|50|60|70|80|90)%
-cE (Jan|Feb|Mar|Apr|May|Jun|Jul|Aug|Sep|Oct|Nov|Dec)[0-9]
-cE [a-z]+[.](com|org|net)
"""

# Parts with long counts, around a text or without one.
COUNTS = """
-oE .{0,100}POST.{0,100}
-oE .{0,30}POST.{0,30}
-oE .{0,100}item.{0,20}
-oE [^"]{0,40}(POST|PUT)[^"]{0,40}
-oE .{80,}
-oE a.{0,10}b.{0,10}c
"""

LISTS = ("-c", "-ci", "-cw", "-cx", "-o", "-cvx")


def cases(folder, megabytes):
    """All cases. The texts are made before the first case that searches them."""
    write(folder / "common", texts.common(megabytes))
    yield from split(COMMON, "common")
    yield Case(["-E", "[a-z]{9,}"], "common", ["[a-z]{9,}"], is_piped=True)
    yield Case(["-F", "water"], "common", ["-F", "water"], is_piped=True)
    words = texts.dictionary()
    write(folder / "prose", texts.prose(words, 20))
    for kind in (texts.altered, texts.known):
        for count in (10, 60, 100, 400, 2000):
            name = f"{kind.__name__}-{count}"
            write(folder / name, ("\n".join(kind(words, count)) + "\n").encode())
            for options in LISTS:
                words_of = ["-F", options, "-f", name]
                yield Case(words_of, "prose", words_of)
    # The same words, taken for expressions.
    for options in LISTS:
        yield Case([options, "-f", "known-2000"], "prose", [options, "-f", "known-2000"])
    # And with an empty line among them, which ripgrep takes minutes for with -w.
    write(folder / "known-and-empty", (folder / "known-2000").read_bytes() + b"\n")
    for options in ("-o", "-oi", "-ow", "-cw"):
        ripgrep = None if "w" in options else ["-F", options, "-f", "known-and-empty"]
        yield Case(["-F", options, "-f", "known-and-empty"], "prose", ripgrep)
    # And with an expression that isn't a string.
    write(folder / "known-and-sets", (folder / "known-2000").read_bytes() + b"tone[0-9][0-9]*\n")
    for options in ("-c", "-ci", "-vc", "-o", "-cw"):
        yield Case([options, "-f", "known-and-sets"], "prose", [options, "-f", "known-and-sets"])
    for name, chosen in (("known", texts.known(words, 200)), ("frequent", words[:200]), ("rare", words[-200:])):
        write(folder / f"expressions-{name}", "".join(f"{word}[0-9]+x\n" for word in chosen).encode())
        yield Case(["-cE", "-f", f"expressions-{name}"], "prose", ["-c", "-f", f"expressions-{name}"])
    write(folder / "aab", "".join("a" * (2 + at) + "b\n" for at in range(60)).encode())
    write(folder / "a", texts.near_misses(5))
    yield Case(["-F", "-c", "-f", "aab"], "a", ["-F", "-c", "-f", "aab"])
    yield from split("-cE (a*)*b\n-cE (a|aa)*[bc]\n-oE a{40}", "a")
    write(folder / "ends", texts.late_hits(5))
    for options in ("-c", "-o", "-cw"):
        yield Case(["-F", options, "-f", "aab"], "ends", ["-F", options, "-f", "aab"])
    write(folder / "alphabet", "".join(f"{letter}\n" for letter in texts.LETTERS).encode())
    write(folder / "mixed", "\n".join(["e", "th", "in", *texts.known(words, 400)]).encode() + b"\n")
    write(folder / "short", "\n".join(["of", "to", "in", "is", "it", *texts.known(words, 2000)]).encode() + b"\n")
    write(folder / "alike", "\n".join(texts.alike(words, 300)).encode() + b"\n")
    hard = [("alphabet", "-cw"), ("alphabet", "-o")]
    hard += [(name, options) for name in ("mixed", "short", "alike") for options in ("-c", "-o", "-cw")]
    for name, options in hard:
        yield Case(["-F", options, "-f", name], "prose", ["-F", options, "-f", name])
    write(folder / "ids", "".join(f"{texts.number(at)}\n" for at in range(5_000)).encode())
    write(folder / "ids-and-foo", b"foo\n" + (folder / "ids").read_bytes())
    write(folder / "numbers", texts.numbers(5_000, 5))
    write(folder / "orders", texts.orders(5_000, 20))
    for name in ("ids", "ids-and-foo"):
        for text in ("numbers", "orders"):
            for options in LISTS:
                # ripgrep takes seconds with -i for these lists, and more than a minute with -w.
                ripgrep = None if options in ("-ci", "-cw") else ["-F", options, "-f", name]
                yield Case(["-F", options, "-f", name], text, ripgrep)
    write(folder / "beginnings", "".join(f"{it}\n" for it in texts.beginnings(words[:300])).encode())
    write(folder / "folders", "".join(f"{it}\n" for it in texts.folders(words[20:60], 1_200)).encode())
    write(folder / "opened", texts.opened(words[20:60], 10))
    write(folder / "names", "".join(f"{it}\n" for it in texts.names(words[20:26], 1_000)).encode())
    write(folder / "dotted", texts.dotted(words[20:26], 5))
    write(folder / "nested", texts.nested(0, 208))
    write(folder / "nested-later", texts.nested(1, 208))
    write(folder / "joined", texts.joined(1))
    lists = [("beginnings", "prose"), ("folders", "opened"), ("names", "dotted")]
    lists += [("nested", "joined"), ("nested-later", "joined")]
    for name, text in lists:
        for options in ("-c", "-o", "-cw", "-ow"):
            # ripgrep takes a minute for this one.
            ripgrep = None if name == "folders" and "w" in options else ["-F", options, "-f", name]
            yield Case(["-F", options, "-f", name], text, ripgrep)
    # What a list takes before the first byte is searched: of strings, of the same taken for expressions, and of names
    # whose points are escaped.
    write(folder / "tiny", b"one line\n")
    write(folder / "escaped", (folder / "names").read_bytes().replace(b".", b"\\."))
    for name in ("known-400", "known-2000", "ids"):
        yield Case(["-F", "-c", "-f", name], "tiny", ["-F", "-c", "-f", name])
        yield Case(["-c", "-f", name], "tiny", ["-c", "-f", name])
    yield Case(["-c", "-f", "escaped"], "tiny", ["-c", "-f", "escaped"])
    yield Case(["-cE", "-f", "expressions-known"], "tiny", ["-c", "-f", "expressions-known"])
    write(folder / "wide", texts.wide(words, 5))
    yield from split("-oE a.*b.*c.*d\n-oiE ab.*to\n-cE [xyz]{4}\n-oE [a-z]*ing", "wide")
    write(folder / "single", texts.single(words, 4))
    yield from split("-oE ea.*to\n-oE a.*b.*c\n-oE [a-z]+ing.*to\n-oE tone.*", "single")
    write(folder / "sequence", texts.sequence(3_000_000))
    yield from split("-cE [a-d]$\n-c ^1\n-c 7$\n-cx ..\n-cE ^[0-9]+5$\n-vc 99", "sequence")
    yield Case(["-c", ""], "sequence", ["-c", ""])
    write(folder / "settings", texts.settings(1_000_000))
    yield from split("-c ^$\n-vc ^#\n-cE ^(#|$)\n-n ^key", "settings")
    write(folder / "letters", b"a" * 20_000 + b"\n")
    yield from split("-oE a*b|a", "letters")
    write(folder / "log", texts.log(20))
    yield from split(LOG + SETS + COUNTS, "log")
    write(folder / "pairs", texts.pairs(5))
    yield from split("-cE [A-Z]{3}\n-cE [0-9]{2}:[0-9]", "pairs")
    write(folder / "agents", texts.agents(20))
    yield from split('-cE x86_64\\)"$\n-c "$\n-vc 64$\n-cE [0-9][)]"$\n-cE HTTP/1[.]1".40[0-9].9', "agents")
    write(folder / "line", texts.one_line())
    yield from split('-oE "id":[0-9]+\n-cE "id":6[0-9]+99\n-oF 99', "line")
    write(folder / "binary", texts.binary(64))
    yield from split("-acE [0-9]{3}-[a-z]+(foo|bar)\n-acE [1-3][7-9][24]5\n-acF linux", "binary")
    texts.make_tree(folder / "tree")
    for options in ("-rF", "-rcF", "-rlF"):
        yield Case([options, "needle"], "tree", [options.replace("r", ""), "needle"], is_tree=True)
    yield Case(["-RcF", "needle"], "tree", ["-LcF", "needle"], is_tree=True)
    texts.make_empty_files(folder / "empty", 30_000)
    for options in ("-rcF", "-rlF"):
        yield Case([options, "needle"], "empty", [options.replace("r", ""), "needle"], is_tree=True)
    texts.make_sources(folder / "sources", words)
    for options in (["-rF", words[40]], ["-rnw", words[400]], ["-riF", words[400]], ["-rlF", words[40]]):
        yield Case(options, "sources", [options[0].replace("r", ""), options[1]], is_tree=True)
    yield Case(["-rcE", "[a-z]+ing"], "sources", ["-c", "[a-z]+ing"], is_tree=True)
    write(folder / "part", texts.common(8))
    (folder / "large").mkdir()
    for number in range(20):
        os.link(folder / "part", folder / f"large/f{number}")
    for options in (["-rF", "water"], ["-rcE", "[a-z]{7}"]):
        yield Case(options, "large", [options[0].replace("r", "").replace("E", ""), options[1]], is_tree=True)


def write(path, text):
    path.write_bytes(text)


class Bench:
    """Runs of all programs in a folder."""

    def __init__(self, program, folder, rounds):
        self.folder, self.rounds = folder, rounds
        self.programs = {
            "grep": lambda case: ["grep", *case.options],
            "rg": lambda case: self.ripgrep(case, 1),
            "rg4": lambda case: self.ripgrep(case, 4),
            "one": lambda case: [program, "--round", "1", *case.options],
            "four": lambda case: [program, "--workers", "4", *case.options],
        }

    def ripgrep(self, case, jobs):
        if case.ripgrep is None or not shutil.which("rg"):
            return None
        tree = ["-uuu"] if case.is_tree else []
        return ["rg", *RIPGREP, *tree, "-j", str(jobs), *case.ripgrep]

    def run(self, command, case):
        """The wall and the processor time of a run, in seconds; its output goes to the file `out`."""
        out = self.folder / "out"
        out.unlink(missing_ok=True)
        with open(out, "wb") as output, open(self.folder / case.text if case.is_piped else os.devnull, "rb") as text:
            given = subprocess.Popen(["cat"], stdin=text, stdout=subprocess.PIPE) if case.is_piped else None
            words = [*command, "-"] if case.is_piped else [*command, case.text]
            before = time.perf_counter()
            source = given.stdout if given else text
            run = subprocess.Popen(words, cwd=self.folder, env=ENVIRONMENT, stdin=source, stdout=output)
            _, status, usage = os.wait4(run.pid, 0)
            run.returncode = os.waitstatus_to_exitcode(status)
            took = time.perf_counter() - before
            if given:
                given.stdout.close()
                given.wait()
        if run.returncode not in (0, 1):
            sys.exit(f"bench: {' '.join(words)} ended with status {run.returncode}")
        return took, usage.ru_utime + usage.ru_stime

    def bare_loop(self):
        """How long a loop takes that opens, reads and closes each file of the tree, in seconds; None without `cc`."""
        if not shutil.which("cc"):
            return None
        loop, names = self.folder / "loop", self.folder / "names"
        subprocess.run(["cc", "-O2", "-o", loop, Path(__file__).resolve().parent / "bare_loop.c"], check=True)
        names.write_text("".join(f"{path}\n" for path in (self.folder / "tree").rglob("f*")))
        least = math.inf
        for _ in range(self.rounds):
            with open(names, "rb") as given:
                before = time.perf_counter()
                subprocess.run([loop], stdin=given, stdout=subprocess.DEVNULL, check=True)
                least = min(least, time.perf_counter() - before)
        return least

    def output(self, case):
        text = (self.folder / "out").read_bytes()
        return b"".join(sorted(text.splitlines(keepends=True))) if case.is_tree else text

    def times(self, case):
        """The least wall time of each program and the processor time of that run."""
        least, wanted = {}, None
        for number in range(self.rounds):
            for name, words in self.programs.items():
                command = words(case)
                if command is None or number and least[name][0] > SLOW:
                    continue
                least[name] = min(least.get(name, (math.inf, 0)), self.run(command, case))
                if name == "grep" and wanted is None:
                    wanted = self.output(case)
                elif name in ("one", "four") and number == 0 and self.output(case) != wanted:
                    sys.exit(f"bench: {case.label()}: pargrep ({name}) doesn't write what GNU grep writes")
        return least


@contextlib.contextmanager
def busy_processors(count):
    """So many endless loops run as long as this is open."""
    loops = [subprocess.Popen([sys.executable, "-c", "while True: pass"]) for _ in range(count)]
    try:
        yield
    finally:
        for loop in loops:
            loop.kill()
            loop.wait()


def load():
    return Path("/proc/loadavg").read_text().split()[0]


def shown(times, name):
    """A wall time in milliseconds, with the processor time behind it where they differ."""
    if name not in times:
        return ""
    wall, busy = (1000 * it for it in times[name])
    return f"{wall:.0f}" if busy < 1.25 * wall + 5 else f"{wall:.0f} ({busy:.0f})"


def mean(ratios):
    return math.exp(sum(math.log(it) for it in ratios) / len(ratios)) if ratios else math.nan


def main():
    parser = argparse.ArgumentParser(description="Times pargrep beside GNU grep and ripgrep.")
    parser.add_argument("program")
    parser.add_argument("--megabytes", type=int, default=128, help="how long the text of common words is")
    parser.add_argument("--rounds", type=int, default=5)
    parser.add_argument("--only", help="the cases in whose line this stands")
    parser.add_argument("--busy", action="store_true", help="run an endless loop on each processor meanwhile")
    given = parser.parse_args()
    program = str(Path(given.program).resolve())
    ratios = {"one": [], "four": []}
    print(f"{os.cpu_count()} processors, load {load()} at the start; best of {given.rounds}; milliseconds, and in")
    print("brackets processor time where it is more.\n")
    print("| Search | GNU grep | rg, one | rg, four | one | four | ratio |")
    print("|---|---|---|---|---|---|---|")
    loops = os.cpu_count() if given.busy else 0
    with tempfile.TemporaryDirectory(prefix="pargrep-bench-") as room, busy_processors(loops):
        bench = Bench(program, Path(room), given.rounds)
        for case in cases(Path(room), given.megabytes):
            if given.only and given.only not in case.label():
                continue
            times = bench.times(case)
            for name, found in ratios.items():
                found.append(times[name][0] / times["grep"][0])
            cells = [shown(times, name) for name in ("grep", "rg", "rg4", "one", "four")]
            ratio = " ".join(f"{found[-1]:.2g}" for found in ratios.values())
            label = case.label().replace("|", "\\|")
            print(f"| `{label}` | {' | '.join(cells)} | {ratio} |", flush=True)
        loop = bench.bare_loop() if (Path(room) / "tree").is_dir() else None
    if loop is not None:
        print(f"\nA bare loop that opens, reads and closes the files of the tree takes {1000 * loop:.0f} ms.")
    print(f"\nGeometric mean of {len(ratios['one'])} ratios to GNU grep: one thread {mean(ratios['one']):.2f}, "
          f"four {mean(ratios['four']):.2f}. Load {load()} at the end.")


if __name__ == "__main__":
    main()
