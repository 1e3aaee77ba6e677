#!/usr/bin/env python3
"""Compares the options of the program with those that --help, the man page and the completions name.

The program's own table (OPTIONS in crates/pg_words/src/command.rt) decides. An option that stands in one of them and
not in the others is told, and so is a value that is wanted in one of them alone. What the completions say of an option
has to be what --help says, or how that begins. The last line is `N passed, M failed`, one for each place and question.
"""

import re
import sys
from pathlib import Path

ROOT = Path(__file__).resolve().parent.parent
TABLE = ROOT / "crates/pg_words/src/command.rt"
HELP = ROOT / "crates/pg_words/src/help.rt"
PAGE = ROOT / "docs/man/pargrep.1"
COMPLETIONS = ROOT / "completions"

# Options that nothing names: one for tests alone, and those that are always refused.
HIDDEN = {"--always-spread", "-P", "--perl-regexp"}

# Letters that are other names of one in the table (specs/Spelled.antt).
OLDER = {"-y": "-i"}

# Where a line of --help begins to say what the options do that it names.
SAYS = 29

# What --help says by a word for what stands in the line above, and the same where no line stands above.
IN_FULL = {
    "names of files without one": "names of files without a selected line",
    "lines before each,": "lines before each selected line,",
    "nothing between them": "nothing between groups of lines",
}

# How far a description may go with --help: to the end of a part.
PART_ENDS = re.compile(r"$|[,;:]| \(")

OPTION = re.compile(
    r"""OptionRow\(\s*Names::(?:Letter\('(?P<letter>.)',\s*|Long\()&\[(?P<others>[^\]]*)\]\),\s*"""
    r""""(?P<name>[a-z-]+)",\s*OptionValue::(?P<value>\w+)"""
)


def options_of_table():
    """Each name of an option, with its hyphens, and whether a value stands behind it."""
    text = TABLE.read_text()
    body = text[text.index("static OPTIONS") :]
    body = body[: body.index("];")]
    found = {}
    for option in OPTION.finditer(body):
        others = re.findall(r'"([a-z-]+)"', option["others"] or "")
        names = [f"--{it}" for it in (option["name"], *others)]
        names += [f"-{option['letter']}"] if option["letter"] else []
        found |= {name: option["value"] != "Nothing" for name in names}
    found |= {older: found[letter] for older, letter in OLDER.items() if letter in found}
    return {name: takes for name, takes in found.items() if name not in HIDDEN}


def names_in(text):
    return re.findall(r"(?<!\S)--?[A-Za-z][a-z-]*", text)


def items_of_help():
    """Each item of --help: what begins a line, which is all names of an option, the last one with its value, and what
    is said of it there and in the lines behind."""
    items = []
    for line in HELP.read_text().splitlines():
        if re.match(" {2,6}-", line):
            names = line if line[SAYS - 1 : SAYS].strip() else line[:SAYS]
            items.append((names, [line[len(names) :].strip()]))
        elif items and line.startswith(" " * SAYS):
            items[-1][1].append(line.strip())
    return [(names, " ".join(said).strip()) for names, said in items]


def options_of_help():
    return {name: "=" in names for names, _ in items_of_help() for name in names_in(names)}


def words_of_help():
    """What --help says of each option."""
    found = {}
    for names, said in items_of_help():
        for short, full in IN_FULL.items():
            said = said.replace(short, full)
        found |= {name: said for name in names_in(names)}
    return found


def options_of_page():
    """Each item of the list of options names all names of one, each with its value."""
    text = PAGE.read_text()
    listed = text[text.index("The options are as follows") : text.index("Options may follow operands")]
    found = {}
    for line in re.findall(r"(?m)^\.It (Fl .*)$", listed):
        for name in line.split(" , "):
            words = name.split()
            if len(words) > 1 and words[1] != "-":
                found[f"-{words[1]}"] = "Ar" in words
    return found


def letters_in(pattern):
    """The options that a pattern of bash stands for: one, or several letters in brackets."""
    return [f"-{it}" for it in pattern[2:-1]] if pattern.startswith("-[") else [pattern.rstrip("=")]


def options_of_bash():
    """Each word that is offered, and whether a value stands behind it: then a long name ends with `=`, a letter is one
    of those behind which `--` is a value, and both have a branch. Where these don't agree it is None."""
    text = (COMPLETIONS / "pargrep.bash").read_text()
    words = re.search(r"options=\((.*?)\)", text, re.DOTALL)[1].split()
    branches = text[text.index("case $option in") :].replace("\\\n", " ")
    patterns = re.findall(r"-[^ |)*]+", " ".join(re.findall(r"(?m)^ {4}([^ *].*?)\)", branches)))
    valued = {name for it in patterns for name in letters_in(it)}
    held = letters_in(re.search(r"\$last != (-\[\w+\])", text)[1])
    found = {}
    for word in words:
        name = word.rstrip("=")
        takes = word.endswith("=") if word.startswith("--") else name in held
        found[name] = takes if takes == (name in valued) else None
    return found


def items_of_zsh():
    """Each name of an option, whether a value stands behind it, and what is said of it."""
    text = (COMPLETIONS / "_pargrep").read_text()
    several = r"""'(?:\([^)]*\)|\*)'\{([^}]*)\}['"]\[([^]]*)\]"""
    single = r"""'(?:\(- \*\)|\*)?(--[a-z-]+=?)\[([^]]*)\]"""
    for names, said, name, said_of_one in re.findall(f"(?m)^  (?:{several}|{single})", text):
        for word in (names or name).split(","):
            yield re.sub(r"(\+|=-?)$", "", word), word[-1] in "+=-", said or said_of_one


def options_of_zsh():
    return {name: takes for name, takes, _ in items_of_zsh()}


def words_of_zsh():
    return {name: said for name, _, said in items_of_zsh()}


def items_of_fish():
    """Each name of an option, whether a value stands behind it, and what is said of it."""
    for line in (COMPLETIONS / "pargrep.fish").read_text().splitlines():
        if line.startswith("complete"):
            takes = re.search(r" -([xr]|f -a) ", line) is not None
            said = re.search(r""" -d (['"])(.*)\1$|$""", line)[2]
            for letter, name in re.findall(r" -(?:s (\S)|l ([a-z-]+))(?= )", line):
                yield f"-{letter}" if letter else f"--{name}", takes, said


def options_of_fish():
    return {name: takes for name, takes, _ in items_of_fish()}


def words_of_fish():
    return {name: said for name, _, said in items_of_fish()}


PLACES = {
    "--help": options_of_help,
    "the man page": options_of_page,
    "bash's completion": options_of_bash,
    "zsh's completion": options_of_zsh,
    "fish's completion": options_of_fish,
}
DESCRIBED = {"zsh's completion": words_of_zsh, "fish's completion": words_of_fish}


def faults_of(wanted, found):
    """What a place lacks, has too many, or names with a value or without it where that is wrong."""
    faults = [f"lacks {name}" for name in wanted if name not in found]
    faults += [f"has {name}, which is no option" for name in found if name not in wanted]
    differ = [name for name in wanted if name in found and found[name] != wanted[name]]
    return faults + [f"has {name} {'without' if wanted[name] else 'with'} a value" for name in differ]


def is_begun(whole, said):
    """Whether what is said is how a whole begins, up to the end of a part."""
    return bool(said) and whole.startswith(said) and PART_ENDS.match(whole[len(said) :]) is not None


def faults_of_words(wanted, found):
    """What is said of an option in other words than --help's."""
    differ = [name for name in found if name in wanted and not is_begun(wanted[name], found[name])]
    return [f"says {found[name]!r} of {name}, and --help {wanted[name]!r}" for name in differ]


def checked():
    """Each place that is compared, and what is wrong there."""
    wanted, said = options_of_table(), words_of_help()
    for place, read in PLACES.items():
        yield place, faults_of(wanted, read()) if wanted else ["has nothing to compare with: the table wasn't read"]
    for place, read in DESCRIBED.items():
        yield place, faults_of_words(said, read()) if said else ["has nothing to compare with: --help wasn't read"]


def main():
    passed = failed = 0
    for place, faults in checked():
        for fault in faults:
            print(f"options: {place} {fault}")
        passed, failed = passed + (not faults), failed + bool(faults)
    print(f"{passed} passed, {failed} failed")
    return 1 if failed else 0


if __name__ == "__main__":
    sys.exit(main())
