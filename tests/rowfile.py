"""Reads the command lines in tests/rows; tests/README.md says how they are written."""

import re
from dataclasses import dataclass, field
from pathlib import Path

NAME = re.compile(r"[a-z0-9]+(-[a-z0-9]+)*")
BARE = re.compile(r"[A-Za-z0-9_./=,+@%^-]+")
QUOTED = re.compile(r'"((?:[^"\\]|\\.)*)"(?:\s*\*\s*([0-9]+))?')
ESCAPE = re.compile(r"\\(x[0-9A-Fa-f]{2}|.)")
ESCAPES = {"n": b"\n", "t": b"\t", "r": b"\r", "0": b"\0", "e": b"\x1b", "\\": b"\\", '"': b'"'}
STREAMS = {"input": 0, "output": 1, "error": 2}
LONGEST_TEXT = 2**26
LONGEST_BEFORE_A_FAULT = 2000


class DataFault(Exception):
    """What is wrong with a line of the data."""


@dataclass
class Entry:
    """What lies in the folder where a row runs: a file, a folder, a link or a pipe."""

    kind: str
    path: bytes
    text: bytes = b""
    mode: int | None = None


@dataclass
class Row:
    """A command line, what it is given and what is wanted of it."""

    name: str
    place: str
    words: list | None = None
    entries: list = field(default_factory=list)
    input: bytes = b""
    input_from: bytes | None = None
    input_fails: bool = False
    closed: set = field(default_factory=set)
    output: bytes = b""
    output_to: bytes | None = None
    unread: bool = False
    error: bytes = b""
    status: int = 0
    variants: list = field(default_factory=list)
    grep: str = "yes"
    keys: set = field(default_factory=set)

    def begins(self, stream):
        """Whether only the beginning of what a stream gets is stated."""
        return f"{stream}-begins" in self.keys


def unescaped(text):
    """The bytes of what stands between two quotes."""
    parts, at = [], 0
    for found in ESCAPE.finditer(text):
        parts.append(text[at : found.start()].encode())
        what = found[1]
        if len(what) == 3:
            parts.append(bytes([int(what[1:], 16)]))
        elif what in ESCAPES:
            parts.append(ESCAPES[what])
        else:
            raise DataFault(f"unknown escape \\{what}")
        at = found.end()
    parts.append(text[at:].encode())
    return b"".join(parts)


def read_piece(text, at):
    """A quoted piece with its count, or a bare one, and where it ends."""
    if text[at] == '"':
        found = QUOTED.match(text, at)
        if not found:
            raise DataFault("a text has no closing quote")
        piece, count = unescaped(found[1]), int(found[2] or 1)
        if len(piece) * count > LONGEST_TEXT:
            raise DataFault(f"a text has more than {LONGEST_TEXT} bytes")
        return piece * count, found.end()
    found = BARE.match(text, at)
    if not found:
        raise DataFault(f"{text[at]!r} stands outside quotes")
    return found[0].encode(), found.end()


def read_word(text, at):
    """Pieces with no blank between them, joined, and where they end."""
    word = b""
    while at < len(text) and not text[at].isspace() and text[at] != ":":
        piece, at = read_piece(text, at)
        word += piece
    return word, at


def split_by_blanks(text, read):
    """What `read` finds at each place behind blanks; it answers what stands there and where that ends."""
    at = 0
    while at < len(text):
        if text[at].isspace():
            at += 1
            continue
        found, end = read(text, at)
        if end == at:
            raise DataFault(f"{text[at]!r} stands outside quotes")
        yield found
        at = end


def read_words(text):
    """The words of a text, which blanks set apart."""
    words = list(split_by_blanks(text, read_word))
    if any(b"\0" in word for word in words):
        raise DataFault("a word can't hold a NUL byte")
    return words


def read_quoted(text, at):
    """A quoted piece, and where it ends."""
    if text[at] != '"':
        raise DataFault(f"a text stands in quotes, and {text[at]!r} doesn't")
    return read_piece(text, at)


def read_text(text):
    """Quoted pieces, joined whether or not blanks stand between them."""
    parts = list(split_by_blanks(text, read_quoted))
    if not parts:
        raise DataFault('no text is given; the empty one is ""')
    return b"".join(parts)


def read_one_word(text):
    words = read_words(text)
    if len(words) != 1:
        raise DataFault("one word belongs here")
    return words[0]


def read_path(text):
    path = read_one_word(text)
    if path.startswith(b"/") or b".." in path.split(b"/") or not path:
        raise DataFault("a path leads below the folder where the row runs")
    return path


def read_flag(text, flag):
    if text.strip() != flag:
        raise DataFault(f"only {flag!r} may stand here")
    return True


def read_grep(text):
    if text.strip() not in ("no", "any order"):
        raise DataFault("the machine's grep is asked, or 'no', or in 'any order'")
    return text.strip()


def read_status(text):
    if not re.fullmatch(r"[0-9]{1,3}", text.strip()) or int(text) > 255:
        raise DataFault("a status is a number from 0 to 255")
    return int(text)


def read_streams(text):
    streams = set(text.split())
    if not streams or not streams <= set(STREAMS):
        raise DataFault(f"the streams are {', '.join(STREAMS)}")
    return streams


# Each key's field, and what reads its value.
KEYS = {
    "words": ("words", read_words),
    "input": ("input", read_text),
    "input-from": ("input_from", read_one_word),
    "fails": ("input_fails", lambda text: read_flag(text, "input")),
    "closed": ("closed", read_streams),
    "unread": ("unread", lambda text: read_flag(text, "output")),
    "output": ("output", read_text),
    "output-begins": ("output", read_text),
    "output-to": ("output_to", read_one_word),
    "error": ("error", read_text),
    "error-begins": ("error", read_text),
    "status": ("status", read_status),
    "also": ("variants", lambda text: [] if read_flag(text, "none") else None),
    "grep": ("grep", read_grep),
}

ENTRIES = ("file", "locked", "folder", "link", "pipe")

# Of each pair a row states one at most.
EXCLUDED = [
    ("input", "input-from"),
    ("fails", "input-from"),
    ("output", "output-begins"),
    ("output", "output-to"),
    ("output", "unread"),
    ("output-begins", "output-to"),
    ("output-begins", "unread"),
    ("output-to", "unread"),
    ("error", "error-begins"),
]


def read_mode(text):
    """The mode of a folder, or None where it is as any other."""
    if not text.strip():
        return None
    found = re.fullmatch(r"\s*(locked|mode ([0-7]{3}))\s*", text)
    if not found:
        raise DataFault("a folder is 'locked', has a 'mode NNN', or nothing is said of it")
    return int(found[2] or "0", 8)


def read_entry(key, text):
    """What a line 'KIND PATH: VALUE' puts into the folder."""
    kind, _, rest = key.partition(" ")
    path = read_path(rest)
    if kind == "file":
        return Entry("file", path, read_text(text))
    if kind == "locked":
        return Entry("file", path, read_text(text), 0)
    if kind == "link":
        return Entry("link", path, read_one_word(text))
    if kind == "pipe":
        if text.strip():
            raise DataFault("nothing is said of a pipe")
        return Entry("pipe", path)
    return Entry("folder", path, mode=read_mode(text))


def key_end(line):
    """Where the colon behind a key stands, which may have a quoted path."""
    at = 0
    while at < len(line):
        if line[at] == ":":
            return at
        at = read_piece(line, at)[1] if line[at] == '"' else at + 1
    raise DataFault("a line is KEY: VALUE")


def logical_lines(text):
    """The lines with their numbers; one that begins with blanks goes on with the line before it."""
    lines = []
    for number, line in enumerate(text.split("\n"), 1):
        if not line.strip() or line.lstrip().startswith("#"):
            continue
        if line[0].isspace() and lines:
            lines[-1] = (lines[-1][0], lines[-1][1] + " " + line.strip())
        else:
            lines.append((number, line.rstrip()))
    return lines


class Reader:
    """Reads the rows of one file, and gathers its faults."""

    def __init__(self, path, shown):
        self.path, self.shown = path, shown
        self.rows, self.faults = [], []
        self.variants, self.grep = [], "yes"

    def read(self):
        try:
            lines = logical_lines(self.path.read_bytes().decode())
        except UnicodeDecodeError as fault:
            self.faults.append(f"{self.shown}: not UTF-8 at byte {fault.start}")
            return
        for number, line in lines:
            self.place = f"{self.shown}:{number}"
            try:
                at = key_end(line)
                self.take(line[:at].strip(), line[at + 1 :])
            except DataFault as fault:
                self.faults.append(f"{self.place}: {fault}")
        self.close_row()

    def take(self, key, text):
        if key == "row":
            self.close_row()
            self.open_row(text.strip())
        elif self.rows:
            self.take_key(self.rows[-1], key, text)
        elif key == "also":
            self.variants.append(read_words(text))
        elif key == "grep":
            self.grep = read_grep(text)
        else:
            raise DataFault(f"unknown key {key!r} before the first row")

    def open_row(self, name):
        row = Row(name, self.place, variants=list(self.variants), grep=self.grep)
        self.rows.append(row)
        if not NAME.fullmatch(name):
            raise DataFault("a name is of small letters, digits and single hyphens between them")

    def take_key(self, row, key, text):
        if key in row.keys:
            raise DataFault(f"{key!r} stands twice in this row")
        row.keys.add(key)
        if key in KEYS:
            name, read = KEYS[key]
            setattr(row, name, read(text))
        elif key.partition(" ")[0] in ENTRIES:
            entry = read_entry(key, text)
            if any(it.path == entry.path for it in row.entries):
                raise DataFault("two entries have this path")
            row.entries.append(entry)
        else:
            raise DataFault(f"unknown key {key!r}")

    def close_row(self):
        """Tells what the last row lacks, or states twice."""
        if not self.rows:
            return
        row = self.rows[-1]
        if "words" not in row.keys:
            self.faults.append(f"{row.place}: the row has no words")
        for one, other in EXCLUDED:
            if {one, other} <= row.keys:
                self.faults.append(f"{row.place}: the row states both {one!r} and {other!r}")
        if row.input_fails and len(row.input) > LONGEST_BEFORE_A_FAULT:
            self.faults.append(f"{row.place}: input that fails has at most {LONGEST_BEFORE_A_FAULT} bytes")
        if "input" in row.closed and row.input_fails:
            self.faults.append(f"{row.place}: input is closed, and its reading fails as well")
        if "output" in row.closed and row.unread:
            self.faults.append(f"{row.place}: output is closed, and nobody reads it as well")
        for stream in row.closed:
            if {stream, f"{stream}-from", f"{stream}-to", f"{stream}-begins"} & row.keys:
                self.faults.append(f"{row.place}: {stream} is closed, and the row states it as well")


def read_rows(folder, shown):
    """All rows of the folder's files, and the faults of these."""
    rows, faults, places = [], [], {}
    for path in sorted(it for it in Path(folder).iterdir() if not it.name.startswith(".")):
        if path.suffix != ".rows":
            faults.append(f"{shown}/{path.name}: a file of rows is called NAME.rows")
            continue
        reader = Reader(path, f"{shown}/{path.name}")
        reader.read()
        if not reader.rows:
            faults.append(f"{shown}/{path.name}: the file has no row")
        rows += reader.rows
        faults += reader.faults
    for row in rows:
        if row.name in places:
            faults.append(f"{row.place}: the name {row.name!r} is that of {places[row.name]} too")
        places[row.name] = row.place
    return rows, faults
