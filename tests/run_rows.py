#!/usr/bin/env python3
"""Runs the command lines in tests/rows on the program, each in a folder of its own; see tests/README.md."""

import argparse
import ctypes
import os
import re
import shlex
import shutil
import signal
import subprocess
import sys
import tempfile
import threading
import tty
from concurrent.futures import ThreadPoolExecutor
from dataclasses import dataclass, field
from pathlib import Path

sys.dont_write_bytecode = True
from rowfile import STREAMS, read_rows  # noqa: E402

HERE = Path(__file__).resolve().parent
PROGRAM = HERE.parent / "crates/pargrep/out/pargrep"
CHOSEN = HERE / "chosen-differences"

# A row that has not ended after so many seconds has failed.
LIMIT = 20

# Of a text no more bytes are shown.
SHOWN = 200

# Options that grep doesn't have; each takes a value.
OWN_OPTIONS = (b"--block", b"--round", b"--workers")

# Every row is run once more with these words: a block for each line, searched by the calling thread as soon as it was
# read.
SMALLEST = [b"--block", b"1", b"--round", b"1", b"--workers", b"2"]

# And once more with these: each two lines are a round of two blocks, which two threads search, where nothing that was
# read may be enough. Without the last word no thread starts for so few bytes.
SPREAD = [b"--block", b"1", b"--round", b"2", b"--workers", b"2", b"--always-spread"]

# Rows that give more lines are not, since a round for each line takes its time.
MOST_ROUNDS = 1000

# Held while a program is started, so that no other one inherits an end of its pipes on the way.
STARTING = threading.Lock()

PR_CAPBSET_DROP = 24
CAP_DAC_OVERRIDE = 1
CAP_DAC_READ_SEARCH = 2


@dataclass
class Case:
    """A row, with or without the words of a variant before its own."""

    row: object
    label: str
    words: list
    faults: list = field(default_factory=list)


@dataclass
class Outcome:
    """What a program wrote and answered."""

    output: bytes
    error: bytes
    status: int


class SetupFault(Exception):
    """Why a row can't be run."""


def own_options(words):
    """Which of the words are options that only this program has."""
    mark = words.index(b"--") if b"--" in words else len(words)
    return {word.partition(b"=")[0] for word in words[:mark]} & set(OWN_OPTIONS)


def lines_given(row):
    """How many lines the row's files and its input have, whichever byte ends them."""
    texts = [row.input, *(entry.text for entry in row.entries)]
    return sum(text.count(b"\n") + text.count(b"\0") for text in texts)


def variants_of(row):
    """The words before which a row's own are run once more."""
    if "also" in row.keys or own_options(row.words) or lines_given(row) > MOST_ROUNDS:
        return row.variants
    return [*row.variants, SMALLEST, SPREAD]


def cases_of(row, with_variants):
    cases = [Case(row, row.name, row.words)]
    for words in variants_of(row) if with_variants else []:
        label = f"{row.name} with {' '.join(quoted(word) for word in words)}"
        cases.append(Case(row, label, words + row.words))
    return cases


def own_words_left_out(words):
    """The words without the options that only this program has."""
    kept, at = [], 0
    while at < len(words) and words[at] != b"--":
        if words[at] in OWN_OPTIONS:
            at += 2
            continue
        if words[at].partition(b"=")[0] not in OWN_OPTIONS:
            kept.append(words[at])
        at += 1
    return kept + words[at:]


def heed_locks():
    """Has programs that root starts heed the modes of files, as those of any other user do."""
    if os.geteuid() != 0:
        return True
    try:
        drop = ctypes.CDLL(None, use_errno=True).prctl
    except (OSError, AttributeError):
        return False
    return all(drop(PR_CAPBSET_DROP, it, 0, 0, 0) == 0 for it in (CAP_DAC_OVERRIDE, CAP_DAC_READ_SEARCH))


def make_entries(entries, folder, locks_hold):
    """Puts files, folders, links and pipes where the row runs. Modes come last, so that all can be put in."""
    modes = []
    for entry in entries:
        path = os.path.join(os.fsencode(folder), entry.path)
        os.makedirs(os.path.dirname(path), exist_ok=True)
        if entry.kind == "link":
            os.symlink(entry.text, path)
        elif entry.kind == "pipe":
            os.mkfifo(path)
        elif entry.kind == "folder":
            os.makedirs(path, exist_ok=True)
        else:
            with open(path, "wb") as file:
                file.write(entry.text)
        if entry.mode is not None:
            modes.append((path, entry.mode))
    if modes and not locks_hold:
        raise SetupFault("root opens locked files here, so this row needs another user")
    # What lies in a folder has the greater path, and gets its mode before the folder does.
    for path, mode in sorted(modes, reverse=True):
        os.chmod(path, mode)


def remove(folder):
    """Removes a folder, locked ones in it too."""
    for at, folders, _ in os.walk(folder):
        for name in folders:
            path = os.path.join(at, name)
            if not os.path.islink(path):
                os.chmod(path, 0o700)
    shutil.rmtree(folder)


def command_of(program, words, closed):
    """The words to start; a shell closes streams, since nothing else here can."""
    if not closed:
        return [program, *words]
    closing = " ".join(f"{STREAMS[it]}<&-" if it == "input" else f"{STREAMS[it]}>&-" for it in sorted(closed))
    return ["/bin/sh", "-c", f'exec "$@" {closing}', "sh", program, *words]


def environment():
    return {"PATH": os.environ.get("PATH", os.defpath), "LC_ALL": "C"}


def failing_input(text):
    """A descriptor that gives a short text, and then fails: a terminal whose other end is gone."""
    reader, writer = os.openpty()
    tty.setraw(writer)
    os.write(writer, text)
    os.close(writer)
    return reader


def given_streams(row, folder):
    """The descriptors of the streams that don't lead to the runner."""
    streams = {}
    try:
        if row.input_from is not None:
            streams["stdin"] = os.open(os.path.join(os.fsencode(folder), row.input_from), os.O_RDONLY)
        if row.input_fails:
            streams["stdin"] = failing_input(row.input)
        if row.output_to is not None:
            streams["stdout"] = os.open(os.path.join(os.fsencode(folder), row.output_to), os.O_WRONLY)
        if row.unread:
            reader, streams["stdout"] = os.pipe()
            os.close(reader)
    except OSError:
        close_all(streams)
        raise
    return streams


def close_all(streams):
    for at in streams.values():
        os.close(at)


def start(program, case, folder):
    """Starts the program in its folder, with the streams that the row asks for."""
    command = command_of(program, case.words, case.row.closed)
    with STARTING:
        given = given_streams(case.row, folder)
        streams = dict.fromkeys(("stdin", "stdout", "stderr"), subprocess.PIPE) | given
        try:
            return subprocess.Popen(command, cwd=folder, env=environment(), start_new_session=True, **streams)
        finally:
            close_all(given)


def outcome_of(program, case, folder):
    process = start(program, case, folder)
    given = case.row.input if case.row.input_from is None and not case.row.input_fails else None
    try:
        output, error = process.communicate(given, timeout=LIMIT)
    except subprocess.TimeoutExpired:
        os.killpg(process.pid, signal.SIGKILL)
        process.communicate()
        raise SetupFault(f"it had not ended after {LIMIT} seconds") from None
    return Outcome(output or b"", error or b"", process.returncode)


def escaped(text):
    names = {0: "\\0", 9: "\\t", 10: "\\n", 13: "\\r", 34: '\\"', 92: "\\\\"}
    return "".join(names.get(byte) or (chr(byte) if 32 <= byte < 127 else f"\\x{byte:02x}") for byte in text)


def shown(text):
    """A text as the rows write it, and cut where it is long."""
    pieces, kept = [], 0
    for run in re.finditer(rb"(.)\1{19,}|(?:(.)(?!\2{19}))+", text, re.DOTALL):
        if kept >= SHOWN:
            break
        if run[1]:
            pieces.append(f'"{escaped(run[1])}"*{len(run[0])}')
            kept += 1
        else:
            pieces.append(f'"{escaped(run[0][: SHOWN - kept])}"')
            kept += min(len(run[0]), SHOWN - kept)
    rest = f" .. ({len(text)} bytes)" if kept >= SHOWN else ""
    return (" ".join(pieces) or '""') + rest


def text_fault(what, wanted, came):
    """Where two texts differ, and how they go on from shortly before."""
    at = next((at for at, (one, other) in enumerate(zip(wanted, came)) if one != other), min(len(wanted), len(came)))
    begin = at - 40 if at > SHOWN else 0
    since = f", shown from byte {begin}" if begin else ""
    texts = f"    wanted {shown(wanted[begin:])}\n    came   {shown(came[begin:])}"
    return f"{what} differs at byte {at} ({len(wanted)} bytes are wanted, {len(came)} came){since}:\n{texts}"


def status_fault(wanted, came):
    how = f"status {came}" if came >= 0 else f"stopped by signal {-came}"
    return f"status:\n    wanted status {wanted}\n    came   {how}"


def stream_faults(row, stream, wanted, came):
    """What differs of standard output or standard error, of which a row may state the beginning alone."""
    if not row.begins(stream):
        return [] if came == wanted else [text_fault(stream, wanted, came)]
    if came.startswith(wanted) and came.endswith(b"\n"):
        return []
    return [f"{stream}:\n    wanted {shown(wanted)}, some text and a newline\n    came   {shown(came)}"]


def differences(row, outcome):
    """What is not as the row wants it."""
    faults = stream_faults(row, "output", row.output, outcome.output)
    faults += stream_faults(row, "error", row.error, outcome.error)
    if outcome.status != row.status:
        faults.append(status_fault(row.status, outcome.status))
    return faults


def in_order(text):
    """The lines of a text in the order of their bytes, whichever byte ends them."""
    return b"".join(sorted(re.findall(rb"[^\n\0]*[\n\0]|[^\n\0]+", text)))


def differences_of_grep(row, outcome):
    """What the machine's grep does otherwise than the row says; texts of faults are each program's own."""
    output, came = row.output, outcome.output
    if row.grep == "any order":
        output, came = in_order(output), in_order(came)
    faults = stream_faults(row, "output", output, came)
    if bool(outcome.error) != bool(row.error):
        faults.append(f"error:\n    wanted {shown(row.error)}\n    came   {shown(outcome.error)}")
    if outcome.status != row.status:
        faults.append(status_fault(row.status, outcome.status))
    return faults


def run_case(program, case, compare, locks_hold):
    """Runs a case in a new folder, and keeps in it what differs."""
    room = tempfile.mkdtemp(prefix="pargrep-row-")
    try:
        folder = os.path.join(room, "folder")
        os.mkdir(folder)
        make_entries(case.row.entries, folder, locks_hold)
        case.faults = compare(case.row, outcome_of(program, case, folder))
    except (SetupFault, OSError) as fault:
        case.faults = [str(fault)]
    finally:
        remove(room)
    return case


def quoted(word):
    """A word as bash reads it."""
    text = os.fsdecode(word)
    if text.isascii() and text.isprintable():
        return shlex.quote(text)
    plain = [chr(byte) if 32 <= byte < 127 and byte not in b"'\\" else f"\\x{byte:02x}" for byte in word]
    return f"$'{''.join(plain)}'"


def keep(program, case, locks_hold):
    """Makes a case's folder, and prints what to type in bash to run the case."""
    room = tempfile.mkdtemp(prefix="pargrep-row-")
    folder = os.path.join(room, "folder")
    os.mkdir(folder)
    make_entries(case.row.entries, folder, locks_hold)
    Path(room, "input").write_bytes(case.row.input)
    row, parts = case.row, ["env -i", 'PATH="$PATH"', "LC_ALL=C"]
    if os.geteuid() == 0 and any(entry.mode is not None for entry in row.entries):
        parts.append("setpriv --bounding-set=-dac_override,-dac_read_search")
    parts += [quoted(word) for word in (os.fsencode(program), *case.words)]
    if "input" in row.closed:
        parts.append("<&-")
    else:
        parts.append(f"< {quoted(row.input_from) if row.input_from is not None else '../input'}")
    parts += [f"{STREAMS[it]}>&-" for it in sorted(row.closed - {"input"})]
    if row.output_to is not None:
        parts.append(f"> {quoted(row.output_to)}")
    if row.unread:
        parts.append("> >(exec true)")
    if row.input_fails:
        parts.append("# without the failed read behind the input")
    print(f"{case.label}:\n  cd {folder} && {' '.join(parts)}")


def told(case, words):
    """What differs at a case, and how to run it alone."""
    print(f"{case.row.place}: {case.label}")
    for fault in case.faults:
        print("  " + fault.replace("\n", "\n  "))
    print(f"  alone: {shlex.join([*words, case.label])}")


def closing(passed, failed):
    print(f"{passed} passed, {failed} failed")
    return 0 if passed and not failed else 1


def read_chosen():
    """The rows at which grep differs by choice, and the faults of their file."""
    chosen, faults = {}, []
    for number, line in enumerate(CHOSEN.read_text().splitlines(), 1):
        name, colon, reason = line.partition(":")
        if not line.strip() or line.startswith("#"):
            continue
        if not colon or not reason.strip():
            faults.append(f"tests/{CHOSEN.name}:{number}: a line is NAME: REASON")
        elif name in chosen:
            faults.append(f"tests/{CHOSEN.name}:{number}: {name} stands twice")
        chosen[name] = f"tests/{CHOSEN.name}:{number}"
    return chosen, faults


def run_all(program, cases, compare, locks_hold):
    workers = os.cpu_count() or 1
    with ThreadPoolExecutor(workers) as pool:
        return list(pool.map(lambda case: run_case(program, case, compare, locks_hold), cases))


def check_program(program, cases, words, locks_hold):
    ran = run_all(program, cases, differences, locks_hold)
    failed = [case for case in ran if case.faults]
    for case in failed:
        told(case, words)
    return closing(len(ran) - len(failed), len(failed))


def check_grep(program, cases, is_whole, locks_hold):
    """Compares the machine's grep with what the rows want; a chosen difference has to be one."""
    chosen, faults = read_chosen()
    asked = [case for case in cases if case.row.grep != "no"]
    for case in asked:
        case.words = own_words_left_out(case.words)
    failed = 0
    for case in run_all(program, asked, differences_of_grep, locks_hold):
        place = chosen.pop(case.label, None)
        if bool(case.faults) == bool(place):
            continue
        failed += 1
        if place:
            print(f"{place}: grep doesn't differ at {case.label}")
        else:
            told(case, ["tests/run_rows.py", "--grep"])
    if is_whole:
        faults += [f"{place}: grep is asked no row called {name}" for name, place in chosen.items()]
    for fault in faults:
        print(fault)
    return closing(len(asked) - failed, failed + len(faults))


def wanted_cases(rows, names, with_variants):
    """The cases that were asked for, and the names that no case has."""
    cases = [case for row in rows for case in cases_of(row, with_variants)]
    known = {it for case in cases for it in (case.row.name, case.label)}
    if names:
        cases = [case for case in cases if case.row.name in names or case.label in names]
    return cases, [f"no row is called {name!r}" for name in names if name not in known]


def program_faults(program):
    if not os.path.isabs(program):
        return [f"the program is to be given by an absolute path, and {program!r} is none"]
    if not os.path.isfile(program) or not os.access(program, os.X_OK):
        return [f"there is no program at {program}; make builds it"]
    return []


def read_arguments():
    parser = argparse.ArgumentParser(description="Runs the command lines in tests/rows on the program.")
    parser.add_argument("names", nargs="*", metavar="NAME", help="a row with its variants, or one variant")
    parser.add_argument("--program", help="absolute path of the program (default: the one that make builds)")
    parser.add_argument("--keep", action="store_true", help="make each row's folder, and print what to type there")
    parser.add_argument("--grep", action="store_true", help="ask the machine's own grep in place of the program")
    return parser.parse_args()


def main():
    given = read_arguments()
    program = given.program or (shutil.which("grep") or "grep" if given.grep else str(PROGRAM))
    rows, faults = read_rows(HERE / "rows", "tests/rows")
    cases, unknown = ([], []) if faults else wanted_cases(rows, given.names, not given.grep)
    faults += unknown + program_faults(program)
    if given.keep and not given.names:
        faults.append("--keep wants the names of rows")
    if faults:
        print(*faults, sep="\n")
        return closing(0, len(faults))
    locks_hold = heed_locks()
    if given.keep:
        for case in cases:
            keep(program, case, locks_hold)
        return 0
    if given.grep:
        return check_grep(program, cases, not given.names, locks_hold)
    words = ["tests/run_rows.py", *(["--program", program] if given.program else [])]
    return check_program(program, cases, words, locks_hold)


if __name__ == "__main__":
    sys.exit(main())
