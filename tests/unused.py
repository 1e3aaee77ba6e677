#!/usr/bin/env python3
"""Finds lemmas that nothing uses, definitions that no contract reaches, and names that two definitions have:
`tests/unused.py`

A lemma or definition under a crate's `proofs` is used where an answer, an invariant, a contract, a definition under
`specs` or a used lemma names it. A definition under `specs` is reached where a contract, the statement of a law or a
reached definition names it; what proofs alone name belongs to them. Worked rows (`proofs/Examples.antt`) are there to
be read. A name means what the file's own lines and imports make of it. The last line is `N passed, M failed`.
"""

import re
import sys
from collections import defaultdict
from pathlib import Path

ROOT = Path(__file__).resolve().parent.parent

# The first line of a definition: its indentation, what stands before its name, and its name.
BEGINS = re.compile(
    r"( *)((?:(?:pub|abbrev|unfoldable|record|data) )*)([A-Za-z_][\w'≡≢-]*)(?= [({]| :(?: |$)| where|$)"
)
COMMENT = re.compile(r"(?:^|(?<= ))--(?: .*|$)", re.M)
WORD = re.compile(r"[^\s(){}\[\],;.λ×⊎]+")
IMPORT = re.compile(r"^ *(pub )?(?:ghost )?use (Rattle\.[\w.]+?)(?:\.\{([^}]*)\}| as (\w+))?;?$", re.M)
# A name of a module that is imported whole, by what the module is called there.
QUALIFIED = re.compile(r"\b[A-Za-z]\w*\.[A-Za-z_][\w'≡≢-]*")
KEYWORDS = {"use", "module", "where", "let", "in", "if", "then", "else", "elim", "unfolding", "within", "rw"}


def words_of(text):
    return {*WORD.findall(text), *QUALIFIED.findall(text)}


class Item:
    """A definition or lemma: its module and name, where it stands, and the words of it."""

    def __init__(self, module, name, place, text):
        self.key, self.place, self.words = (module, name), place, words_of(text)


class Source:
    """A file: its items, the words that stand in none of them, and what its imports make of names."""

    def __init__(self, path):
        self.path = path.relative_to(ROOT)
        self.parts = self.path.parts
        self.module = ".".join(["Rattle", *self.parts[1:-1], path.stem])
        text = path.read_text(encoding="utf-8")
        comment = re.compile(r"^\s*//.*", re.M) if path.suffix == ".rt" else COMMENT
        text = comment.sub("", text)
        self.imports = IMPORT.findall(text)
        text = IMPORT.sub(lambda it: "\n" * it[0].count("\n"), text)
        self.items, self.outside = [], words_of(text)
        if path.suffix == ".antt":
            self.divide(text.split("\n"))

    def divide(self, lines):
        """Finds the items that stand in no other one."""
        outside, number = [], 0
        while number < len(lines):
            begun = BEGINS.match(lines[number])
            if not begun or begun[3] in KEYWORDS or not is_signature(lines[number:], begun):
                outside.append(lines[number])
                number += 1
                continue
            end = number + 1
            while end < len(lines) and goes_on(lines[end], len(begun[1]), begun[3]):
                end += 1
            place = f"{self.path}:{number + 1}"
            self.items.append(Item(self.module, begun[3], place, "\n".join(lines[number:end])))
            number = end
        self.outside = words_of("\n".join(outside))

    def is_specs(self):
        return "specs" in self.parts

    def is_lemmas(self):
        return self.parts[-2] == "proofs" and self.path.name not in ("Examples.antt", "Lib.antt")


def is_signature(lines, begun):
    """Whether what begins here is a record or a family, or a name with binders in brackets and then a colon."""
    if re.search(r"record|data", begun[2]):
        return True
    depth = 0
    for char in "\n".join(lines[:12])[begun.end() :]:
        depth += (char in "({[") - (char in ")}]")
        if depth == 0 and char not in ")}] \n":
            return char == ":"
    return False


def goes_on(line, indent, name):
    """Whether a line belongs to the definition of this name before it."""
    inner = line.lstrip()
    if not inner or len(line) - len(inner) > indent:
        return True
    return re.match(re.escape(name) + r"(?:\s|$)", inner) is not None or inner[0] in ")]}"


class Names:
    """What names mean in each file."""

    def __init__(self, sources):
        # A name may stand twice in a module, in blocks with parameters of their own.
        self.items = defaultdict(set)
        for source in sources:
            for it in source.items:
                self.items[it.key] |= it.words
        self.by_module = defaultdict(set)
        for module, name in self.items:
            self.by_module[module].add(name)
        self.passed_on = {}
        for source in sources:
            for public, module, names, _ in source.imports:
                for name, shown in pairs(names):
                    if public:
                        self.passed_on[source.module, shown] = (module, name)

    def origin(self, key):
        while key not in self.items and key in self.passed_on:
            key = self.passed_on[key]
        return key

    def meant(self, source):
        """The items that this file's words can mean, by word."""
        table = {}
        for _, module, names, alias in source.imports:
            if names:
                table |= {shown: self.origin((module, name)) for name, shown in pairs(names)}
            elif alias:
                table |= {f"{alias}.{name}": (module, name) for name in self.by_module[module]}
        return table | {it.key[1]: it.key for it in source.items}


def pairs(names):
    """Each name of an import's list, and what it is called."""
    for part in names.split(","):
        words = part.split()
        if words:
            yield words[0], words[-1]


def reached(names, means, roots):
    """All items that the roots name, or an item that is reached."""
    found, waiting = set(), [*roots]
    while waiting:
        key = waiting.pop()
        if key in found or key not in names.items:
            continue
        found.add(key)
        table = means[key[0]]
        waiting += [table[word] for word in names.items[key] if word in table]
    return found


def roots_of(sources, means):
    """The items that contracts name, and those that answers, invariants and rows do."""
    contracts, proofs = set(), set()
    for source in sources:
        is_stated = source.path.suffix == ".rt" or source.is_specs()
        words = set(source.outside)
        if not is_stated and not source.is_lemmas():
            words = words.union(*(it.words for it in source.items))
        table = means[source.module]
        named = {table[word] for word in words if word in table}
        if is_stated:
            contracts |= named
        else:
            proofs |= named
    return contracts, proofs


def shared_names(specs):
    """A line for each name that definitions of two modules have."""
    places = defaultdict(dict)
    for it in specs:
        module, name = it.key
        places[name].setdefault(module, it.place)
    return [f"{' and '.join(found.values())}: both are {name}" for name, found in places.items() if len(found) > 1]


def main():
    paths = [it for kind in ("rt", "antt") for it in ROOT.glob(f"crates/*/**/*.{kind}")]
    sources = [Source(it) for it in sorted(paths) if "out" not in it.relative_to(ROOT).parts]
    names = Names(sources)
    means = {source.module: names.meant(source) for source in sources}
    contracts, proofs = roots_of(sources, means)
    specs = [it for source in sources if source.is_specs() for it in source.items]
    lemmas = [it for source in sources if source.is_lemmas() for it in source.items]
    by_contracts = reached(names, means, contracts)
    by_proofs = reached(names, means, contracts | proofs | {it.key for it in specs})
    wrong = [f"{it.place}: no contract reaches {it.key[1]}" for it in specs if it.key not in by_contracts]
    wrong += [f"{it.place}: nothing uses {it.key[1]}" for it in lemmas if it.key not in by_proofs]
    useless = len(wrong)
    wrong += shared_names(specs)
    for line in wrong:
        print(line)
    print(f"{len(specs)} definitions and {len(lemmas)} items of proofs, of which {useless} have no use")
    print(f"{int(not wrong)} passed, {len(wrong)} failed")
    return 1 if wrong else 0


if __name__ == "__main__":
    sys.exit(main())
