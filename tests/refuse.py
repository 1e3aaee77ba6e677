#!/usr/bin/env python3
"""Tries wrong bodies in groups: `tests/refuse.py [--gate | --all] [--jobs N] [--read | --unturned] [NAME..]`

An edit, `crates/CRATE/must-fail/NAME.edit` or `crates/CRATE/refused/NAME.edit`, turns a function into a wrong one, in
the toolchain's own format for such edits. It may mend the proof of that function too, so that what refuses it is a
promise, and not that an answer names what the function has no more. The edits of a crate that touch different functions
are applied at once to a copy of the crate, of which these functions alone are checked. The others are stubs there:
bodies that never return, with a hole for a proof. A caller sees a function's contract alone, so it misses nothing; and
each wrong function must be refused by a message of its own: an open goal on one of its lines, or an answer of its proof
that doesn't fit its goal. A proof that only misses a name refuses nothing. An edit of a law, whose contract it turns,
is in no group with one that has its name, as a caller has, and one that touches what functions share, as a type or a
constant, in none with others; one that turns no function names that which has to refuse it, by a line `refused by:
NAME`. An edit without a refusal of its own is tried by itself, and if it has none then either its whole crate is
checked, without stubs, and any open goal counts.

A NAME is a crate or an edit, `late-double-taken` or `pg_seq/late-double-taken`; none: all. Those of `refused/` are
tried, with --gate those of `must-fail/`, and with --all both. So many checks run at once as --jobs says, and without it
as many as there are processors and memory for. With --keep what each check said is kept in FOLDER. The command of the
toolchain is `rt`, or what RT names.

The edits are checked over the libraries that `rt ci` has built, which hold statements and no proofs. They are those of
the folder that --over names, a copy of the repository in which `rt ci` has passed; without it `rt ci` is run on a copy
of the crates that are wanted and of those below them. So the functions are known to be proved as they are. The last
line is `N passed, M failed`; the status is 0 only where M is 0 and N is not.

With --read nothing is checked: each edit is only looked up in the code, which tells those that a change has made stale.
With --unturned the functions are checked as they are, among the same stubs: each has to pass, which shows that what is
refused is the edit.
"""

import argparse
import contextlib
import os
import pathlib
import re
import resource
import sys
import tempfile
import threading
from concurrent.futures import ThreadPoolExecutor
from dataclasses import dataclass, field

sys.path.append(str(pathlib.Path(__file__).resolve().parent.parent / "tools"))

from crates import ROOT, read_crates  # noqa: E402
from functions import functions_of, functions_shown_as  # noqa: E402
from jobs import jobs_at_once  # noqa: E402
from prover import Prover, built, lacks  # noqa: E402

# What a check says of a goal of a contract, or of a type's invariant, that stays open.
OPEN_GOAL = re.compile(r"it is not proved that |`search` found no proof ")
# What a check says where a proof file names what the edited function has no more. It says nothing of a contract.
MISSING_NAME = re.compile(
    r"is not in scope|has no field|has no `|that can be named from here|was not admitted|is no name"
)


class BadEdit(Exception):
    """An edit that can't be applied, or that makes a crate which the prover can't read."""


@dataclass(frozen=True)
class Pair:
    file: str
    old: str
    new: str


@dataclass
class Edit:
    crate: str
    path: pathlib.Path
    pairs: list = field(default_factory=list)
    functions: list = field(default_factory=list)
    # Names that say something else with it: of functions whose contracts it touches, and those that it imports.
    changed: set = field(default_factory=set)
    # The edit touches what functions share: a type, a constant, or the contract of a method, which a loop, an operator
    # or a value that is dropped may call without its name.
    is_wider: bool = False

    def label(self):
        return f"{self.crate}/{self.path.stem}"


def read_pairs(path):
    """Reads an edit's file: lines 'file: PATH', 'old: TEXT' and 'new: TEXT'."""
    pairs, file, old = [], None, None
    for line in path.read_text(encoding="utf-8").split("\n"):
        if line.startswith("file: "):
            file = line.removeprefix("file: ").strip()
        elif line.startswith("old: "):
            old = line.removeprefix("old: ")
        elif line.startswith("new:"):
            if not file or not old:
                raise BadEdit("a 'new:' line stands before any 'file:' or 'old:' line")
            if not file.startswith(("src/", "proofs/")) or ".." in file:
                raise BadEdit(f"{file} is no file of src/ or proofs/, and a wrong body turns no promise")
            pairs.append(Pair(file, old, line.removeprefix("new:").removeprefix(" ")))
            old = None
    if not any(it.file.startswith("src/") for it in pairs):
        raise BadEdit("it has no 'old:' and 'new:' pair of code")
    return pairs


def applied(pairs, texts, folder):
    """The texts with the pairs applied in turn, read from the folder where they aren't given, and each pair's place."""
    texts, places = dict(texts), []
    for pair in pairs:
        if pair.file not in texts:
            if not (folder / pair.file).is_file():
                raise BadEdit(f"there is no file {pair.file}")
            texts[pair.file] = (folder / pair.file).read_text(encoding="utf-8")
        text = texts[pair.file]
        if text.count(pair.old) != 1:
            raise BadEdit(f"an 'old:' text is in {pair.file} {text.count(pair.old)} times, and not once")
        places.append((pair.file, text[: text.index(pair.old)].count("\n") + 1))
        texts[pair.file] = text.replace(pair.old, pair.new)
    return texts, places


def place_edit(edit, folder):
    """Reads the edit, and finds the functions that it touches, and those that it names."""
    edit.pairs = read_pairs(edit.path)
    _, places = applied(edit.pairs, {}, folder)
    for pair, (file, line) in zip(edit.pairs, places):
        if file.startswith("proofs/"):
            continue
        text = (folder / file).read_text(encoding="utf-8")
        around = [it for it in functions_of(file, text) if it.first <= line <= it.last]
        stated = [it.name for it in around if line < it.body]
        imported = set() if around else names_imported(text, line, pair)
        edit.is_wider |= not around and not imported or any("/" in it for it in stated)
        edit.functions += [it for it in around if it not in edit.functions]
        edit.changed |= {*stated, *imported}
    for name in re.findall(r"(?m)^refused by: (\S+)$", edit.path.read_text(encoding="utf-8")):
        found = functions_shown_as(name, folder)
        if len(found) != 1:
            raise BadEdit(f"{len(found)} functions are shown as {name}, and not one")
        edit.functions += found


def names_imported(text, line, pair):
    """The names that an edit adds to the imports of definitions at a line, counted from 1; none where it is no such
    line, or where it takes names away."""
    old, new = (re.findall(r"[^\s.,{};]+", it) for it in (pair.old, pair.new))
    is_import = text.split("\n")[line - 1].startswith("ghost use ")
    return set(new) - set(old) if is_import and set(old) <= set(new) else set()


def words_of(edit, folder):
    """The words of the functions that an edit turns, as they are and as it turns them, without comments."""
    code = [it.new for it in edit.pairs if it.file.startswith("src/")]
    for function in edit.functions:
        code += (folder / function.file).read_text(encoding="utf-8").split("\n")[function.first - 1 : function.last]
    return {word for line in code for word in re.findall(r"\w+|[^\s\w]+", line.partition("//")[0])}


def are_apart(one, other, folder):
    """Whether two edits may be applied at once: what refuses the one has nothing to do with the other, which neither
    turns the same function nor has a name that says something else with the first, as a caller has."""
    if one.is_wider or other.is_wider or set(one.functions) & set(other.functions):
        return False
    pairs = ((one, other), (other, one))
    return not any(first.changed and first.changed & words_of(then, folder) for first, then in pairs)


def groups_of(edits, folder):
    """Packs the edits into groups of such as are apart, in which each can be applied over the others."""
    groups = []
    for edit in edits:
        for group in groups:
            if not all(are_apart(it, edit, folder) for it in group):
                continue
            try:
                applied([pair for it in [*group, edit] for pair in it.pairs], {}, folder)
            except BadEdit:
                continue
            group.append(edit)
            break
        else:
            groups.append([edit])
    return groups


@dataclass(frozen=True)
class Message:
    """A message of a check, at a line of a file below the crate's folder."""

    file: str
    line: int
    text: str
    # It says that a goal of a contract is open, or that an answer doesn't fit its goal.
    is_refusal: bool

    def is_of(self, function):
        """Whether it speaks of the function: at one of its lines, or in its folder of proof files."""
        if self.file.startswith("src/"):
            return self.file == function.file and function.first <= self.line <= function.last
        folder = self.file.split("/")[1:-1]
        path = function.path().split("/")
        # A cycle of calls is proved as one, in a folder with a `+`, where goals begin with a function's name. In that
        # of a function that calls itself alone they don't.
        if any(it.startswith("+") for it in folder):
            alone = r"|returns|loop-|invariant_of" if f"+{path[-1]}" in folder else ""
            return folder[0] == path[0] and bool(re.match(rf"`(?:{re.escape(path[-1])}-{alone})", self.text))
        # A closure has a folder below that of its function, in one named `fn`.
        if "fn" in folder:
            return [it for it in folder if it != "fn"][: len(path)] == path
        # The methods of one type may stand in several files, and their proofs in the folder of the type's own file.
        return folder == path or "/" in function.name and folder[1:] == function.name.split("/")

    def shown(self):
        return f"{self.file}:{self.line}: {self.text}"[:160]


class Said:
    """What a check said: its messages, and how it ended."""

    def __init__(self, ended):
        output = ended.output
        self.output = output
        self.seconds = ended.seconds
        # The check came as far as a verdict.
        self.has_verdict = bool(re.search(r"(?m)^(logic|only)=", output))
        self.is_proved = bool(re.search(r"(?m)^logic=proved", output))
        # A message goes on in the indented lines below it.
        self.messages = [it for it in map(read_message, re.split(r"\n(?! )", output)) if it]

    def refusal(self, functions=None):
        """The first refusal, of the functions if some are given."""
        for it in self.messages:
            if it.is_refusal and (functions is None or any(map(it.is_of, functions))):
                return it
        return None

    def unread(self):
        """The first message that the edited code can't be read."""
        return next((it for it in self.messages if it.file.startswith(("src/", "specs/")) and not it.is_refusal), None)


def read_message(lines):
    """Reads `note: src/F:1:2: it is not proved that ..` or `proofs/F:1:2: error: ..`; other lines are None."""
    line, _, more = lines.partition("\n")
    found = re.match(r"(note: )?(?:\./)?((?:src|specs|proofs)/\S+?):(\d+):\d+: (error: )?(.*)", line)
    if not found or found[1] and found[4] or not found[1] and not found[4]:
        return None
    note, file, number, _, text = found.groups()
    if note:
        return Message(file, int(number), text, True) if OPEN_GOAL.match(text) else None
    # An error of the front end names no goal in front; one of the prover's does.
    is_goal = bool(re.match(r"`[^`]*`: ", text))
    return Message(file, int(number), text, is_goal and not MISSING_NAME.search(text + more))


def verdict_alone(said):
    """Whether an edit was refused that was tried alone, and what to print of it."""
    if said.is_proved:
        return False, "NOT REFUSED: the crate is still proved with this edit"
    unread = said.unread()
    found = said.refusal()
    if not said.has_verdict or unread:
        first = unread.shown() if unread else " / ".join(said.output.strip().split("\n")[-3:])
        return False, f"BAD EDIT: the prover can't read the edited code: {first}"
    if not found:
        first = said.messages[0].shown() if said.messages else "no goal is named"
        return False, f"BAD EDIT: no contract refuses it: {first}"
    return True, f"refused: {found.shown()}"


def turned_by(group):
    """The functions that a group turns; none where one of its edits turns no function."""
    return {function for it in group for function in it.functions} if all(it.functions for it in group) else set()


def try_group(group, checked):
    """Tries a group, and by itself each edit without a refusal of its own, first among stubs; yields each edit with its
    verdict."""
    together = refusals(group, checked)
    for edit in group:
        found = together.get(edit.label()) or len(group) > 1 and refusals([edit], checked).get(edit.label())
        if found:
            yield edit, True, f"refused: {found.shown()}"
            continue
        well, text = verdict_alone(checked([edit], set()))
        yield edit, well, f"{text} (the whole crate was checked)"


def refusals(group, checked):
    """The refusal of each edit of a group in the functions that it turns, by its label, where it has one."""
    said = checked(group, turned_by(group)) if turned_by(group) else None
    found = {it.label(): said.refusal(it.functions) for it in group} if said and said.has_verdict else {}
    return {label: refusal for label, refusal in found.items() if refusal}


def leave_group(group, checked):
    """Checks the functions that a group turns as they are; yields each edit with whether its own are proved."""
    said = checked([], turned_by(group)) if turned_by(group) else None
    for edit in group:
        lacking = [f"{it.shown()}: {lacks(it, said.output)}" for it in edit.functions if lacks(it, said.output)]
        as_it_is = "proved as it is" if said else "it turns no function"
        text = f"NOT PROVED AS IT IS: {lacking[0]}" if lacking else as_it_is
        yield edit, not lacking, text


def try_crate(crate, edits, try_each, checked):
    """Tries the edits of a crate; yields each with whether that went as it should, and what to print of it."""
    good = []
    for edit in edits:
        try:
            place_edit(edit, crate.folder())
            good.append(edit)
        except (BadEdit, OSError, UnicodeDecodeError) as error:
            yield edit, False, f"BAD EDIT: {error}"
    for group in groups_of(good, crate.folder()):
        yield from try_each(group, checked)


class Run:
    """A run over the edits of some crates: those of one crate are tried one group after another, over what the groups
    before have proved of it."""

    def __init__(self, crates, prover, try_each, keep):
        self.crates = crates
        self.prover = prover
        self.try_each = try_each
        self.keep = keep
        self.printing = threading.Lock()

    def say(self, text):
        with self.printing:
            print(text, flush=True)

    def tried(self, name, edits):
        """Tries the edits of a crate, and answers how many went as they should."""
        crate, spent, passed = self.crates[name], [], 0
        with tempfile.TemporaryDirectory(prefix="refuse-") as kept:

            def checked(group, real):
                texts, _ = applied([pair for it in group for pair in it.pairs], {}, crate.folder())
                said = Said(self.prover.check(crate, pathlib.Path(kept), texts, real))
                with self.printing:
                    self.keep(crate, group, said)
                spent.append(said.seconds)
                return said

            for edit, well, text in try_crate(crate, edits, self.try_each, checked):
                self.say(f"{edit.label()}: {text}")
                passed += well
        self.say(f"{name}: {len(edits)} edits in {len(spent)} checks, {sum(spent):.0f} processor seconds")
        return passed

    def all_tried(self, wanted, jobs):
        """Tries all edits, so many checks at once, and answers how many went as they should."""
        with ThreadPoolExecutor(jobs) as pool:
            most_first = sorted(wanted.items(), key=lambda it: -len(it[1]))
            return sum(it.result() for it in [pool.submit(self.tried, *it) for it in most_first])


def wanted_edits(names, folders):
    """The edits that the names mean, by crate."""
    paths = [it for folder in folders for it in sorted(ROOT.glob(f"crates/*/{folder}/*")) if it.suffix != ".md"]
    strays = [str(it.relative_to(ROOT)) for it in paths if it.suffix != ".edit"]
    if strays:
        sys.exit(f"refuse: no edit: {' '.join(strays)}")
    edits = sorted((Edit(it.parent.parent.name, it) for it in paths), key=lambda it: it.crate)
    unknown = [it for it in names if not any(it.removesuffix(".edit") in named(edit) for edit in edits)]
    if unknown:
        sys.exit(f"refuse: no crate or edit has the name {' or '.join(unknown)}")
    found = {}
    for edit in edits:
        if not names or any(it.removesuffix(".edit") in named(edit) for it in names):
            found.setdefault(edit.crate, []).append(edit)
    return found


def named(edit):
    return edit.crate, edit.path.stem, edit.label()


def read_edits(crate, edits):
    """Looks up the edits of a crate in its code, tells those that can't be applied, and answers how many can't."""
    stale = 0
    for edit in edits:
        try:
            place_edit(edit, crate.folder())
        except (BadEdit, OSError, UnicodeDecodeError) as error:
            print(f"{edit.label()}: BAD EDIT: {error}", flush=True)
            stale += 1
    return stale


def processor_seconds():
    used = resource.getrusage(resource.RUSAGE_CHILDREN)
    return used.ru_utime + used.ru_stime


def keeper(folder):
    """Returns what keeps the output of each check in the folder, if one is given."""

    def keep(crate, group, said):
        if folder:
            os.makedirs(folder, exist_ok=True)
            number = len(os.listdir(folder)) + 1
            tried = "".join(f"{it.label()}\n" for it in group)
            pathlib.Path(folder, f"{number:03}-{crate.name}.txt").write_text(tried + said.output, encoding="utf-8")

    return keep


def main():
    reader = argparse.ArgumentParser(description=__doc__, formatter_class=argparse.RawDescriptionHelpFormatter)
    which = reader.add_mutually_exclusive_group()
    which.add_argument("--gate", action="store_true", help="the edits of must-fail/")
    which.add_argument("--all", action="store_true", help="the edits of must-fail/ too")
    reader.add_argument("--jobs", type=int, default=jobs_at_once(), metavar="N", help="so many checks at once")
    reader.add_argument("--over", type=pathlib.Path, metavar="FOLDER", help="where `rt ci` has passed")
    reader.add_argument("--keep", metavar="FOLDER", help="keeps what each check said in FOLDER")
    reader.add_argument("--read", action="store_true", help="only looks the edits up in the code")
    reader.add_argument("--unturned", action="store_true", help="checks the functions as they are: each has to pass")
    reader.add_argument("names", nargs="*", metavar="NAME", help="a crate or an edit")
    words = reader.parse_args()
    crates = read_crates()
    folders = ["must-fail"] if words.gate else ["refused", "must-fail"] if words.all else ["refused"]
    wanted = wanted_edits(words.names, folders)
    count = sum(map(len, wanted.values()))
    if words.read:
        passed = count - sum(read_edits(crates[name], edits) for name, edits in wanted.items())
    else:
        jobs = max(1, words.jobs)
        try_each = leave_group if words.unturned else try_group
        needed = {it for name in wanted for it in [name, *crates[name].below]}
        with contextlib.nullcontext(words.over) if words.over else built(needed, jobs) as over:
            run = Run(crates, Prover(over.absolute()), try_each, keeper(words.keep))
            passed = run.all_tried(wanted, jobs)
        print(f"refuse: {processor_seconds():.0f} processor seconds")
    print(f"{passed} passed, {count - passed} failed")
    return 0 if passed and passed == count else 1


if __name__ == "__main__":
    sys.exit(main())
