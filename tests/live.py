#!/usr/bin/env python3
"""Sees that rows come while the input is still open: `tests/live.py [--program PATH]`

Who writes the input sends its next line only once the rows have come that the lines so far have to give. So a program
that keeps rows back, or waits for more input than it needs, stands still. The input comes by a pipe, by a FIFO that is
an operand, or by a terminal, on which the rows and the faults come too. Each case of CASES is run by each of its ways,
with 1 and with 4 workers. No time is measured: what doesn't come within LIMIT seconds is missing.

The cases of STOPPED are run once more, and each program is stopped before each line is sent and goes on behind it. On a
terminal of its own, with a shell's job control, a search is stopped by Ctrl-Z, goes on by `fg`, and is ended by Ctrl-C:
no row is lost, and none comes twice. And the system tells of each opening of a directory: a search lists one only where
its listing matters.

The program may be GNU grep, which is given `--line-buffered` and no workers. The last line is `N passed, M failed`.
"""

import ctypes
import errno
import fcntl
import os
import pty
import select
import shlex
import signal
import subprocess
import sys
import tempfile
import termios
import time
from dataclasses import dataclass
from pathlib import Path

import built

# GNU grep colors rows on a terminal only where that has a name.
ENVIRONMENT = {"LC_ALL": "C", "PATH": os.environ.get("PATH", os.defpath), "TERM": "vt100"}
WORKERS = (1, 4)

# What hasn't come after so many seconds is missing.
LIMIT = 20

# The files beside the input, and what is named of them.
FILES = {
    "first": "x in first\nnone\n",
    "other": "none\nx in other\n",
    "tree/a/f": "x in f\n",
    "tree/b": "none\nx in b\n",
}
NAMED = ("first", "other", "tree")

# How the input comes: a FIFO is opened for writing when the first line is sent, or, if it is held, before the program
# starts. The program's faults come by the terminal too, and else by a pipe of their own.
PIPE, FIFO, HELD, TERMINAL = "pipe", "FIFO", "held FIFO", "terminal"
EACH = (PIPE, FIFO, TERMINAL)


@dataclass(frozen=True)
class Case:
    """A command, and what is sent to it and has to come from it.

    The words are those behind the program's name; IN stands for the input, and `|` between two commands. A step is a
    line that is sent, None for nothing, and then the rows that have to come before the next step; IN stands there for
    the input's name. A row `..WORD..` is any line with that word. `last` are the rows that come once the input was
    closed. It isn't closed where the program ends by itself.
    """

    words: str
    steps: tuple
    last: tuple = ()
    ends: bool = False
    status: int = 0
    ways: tuple = EACH




def colored(code, text):
    """A text in a color, as GNU grep writes it."""
    return f"\x1b[{code}m\x1b[K{text}\x1b[m\x1b[K"


CASES = [
    Case("x IN", (("x1", "x1"), ("none",), ("2x", "2x"), ("",), ("x", "x"))),
    Case("y IN", (("x1",), ("x2",)), status=1),
    Case(
        "-n -C 1 x IN",
        (("a",), ("x2", "1-a", "2:x2"), ("b", "3-b"), ("c",), ("d",), ("x6", "--", "5-d", "6:x6"), ("x7", "7:x7")),
    ),
    Case("-A 1 x IN", (("x1", "x1"), ("a", "a"), ("b",), ("c",), ("x5", "--", "x5"))),
    Case("-o x[0-9] IN", (("x1 and x2", "x1", "x2"), ("none",), ("ax3", "x3"))),
    Case("-v x IN", (("x1",), ("a", "a"), ("", ""), ("x4",), ("b", "b"))),
    Case("-m 2 x IN", (("x1", "x1"), ("none",), ("x3", "x3")), ends=True),
    Case("x IN | y", (("x1",), ("xy2", "xy2"), ("y3",), ("yx4", "yx4"))),
    Case("-n x IN | -v y | -o [0-9]:x", (("x1", "1:x"), ("a",), ("xy3",), ("x4", "4:x"))),
    Case("-c x IN", (("x1",), ("none",), ("x3",)), ("2",)),
    # On a terminal rows have colors, where that is asked for, and else none.
    Case("--color -n x IN", (("ax1", "1:ax1"), ("none",), ("x", "3:x")), ways=(PIPE, FIFO)),
    Case(
        "--color -n x IN",
        (("ax1", f"{colored(32, 1)}{colored(36, ':')}a{colored('01;31', 'x')}1"), ("none",)),
        ways=(TERMINAL,),
    ),
    Case("-n x IN", (("ax1", "1:ax1"),), ways=(TERMINAL,)),
    Case("--color=never -n x IN", (("ax1", "1:ax1"),), ways=(TERMINAL,)),
    # It ends, though more could come.
    Case("-q x IN", (("none",), ("x2",)), ends=True),
    Case("-m 1 x IN", (("none",), ("x2", "x2")), ends=True),
    Case("-l x IN", (("none",), ("x2", "IN")), ends=True),
    # The rows of the first file come before anything is known of the second one; but rows are sent on before reads
    # alone, and the opening of a FIFO that nobody writes to waits too.
    Case("-h x first IN", ((None, "x in first"), ("x1", "x1"), ("none",), ("x3", "x3")), ways=(PIPE, HELD, TERMINAL)),
    # Where rows are sent on at once, they come before such an opening too.
    Case("--line-buffered -h x first IN", ((None, "x in first"), ("x1", "x1")), ways=(*EACH, HELD)),
    Case("--line-buffered -h -c x first IN", ((None, "1"), ("x1",)), ("1",), ways=(*EACH, HELD)),
    # What a file gives at its end comes before anything is known of the next one.
    Case("-c x first IN", ((None, "first:1"), ("x1",), ("x2",)), ("IN:2",), ways=(PIPE, HELD, TERMINAL)),
    Case("-l x first IN", ((None, "first"), ("none",), ("x2", "IN")), ends=True, ways=(PIPE, HELD, TERMINAL)),
    Case("-L y first IN", ((None, "first"), ("x1",)), ("IN",), status=1, ways=(PIPE, HELD, TERMINAL)),
    Case("-n x first other IN", ((None, "first:1:x in first", "other:2:x in other"),), ways=(PIPE, HELD, TERMINAL)),
    Case("-q x first IN", ((None,),), ends=True, ways=(PIPE, HELD, TERMINAL)),
    # A tree is walked as its files are read: its rows come before what stands behind it is read, and a search that is
    # settled goes no further.
    Case(
        "-r -n x tree IN",
        ((None, "tree/a/f:1:x in f", "tree/b:2:x in b"), ("x1", "IN:1:x1"), ("none",), ("x3", "IN:3:x3")),
        ways=(PIPE, HELD, TERMINAL),
    ),
    Case("-r -q x tree IN", ((None,),), ends=True, ways=(*EACH, HELD)),
    # A fault is told where it comes in the order of the files.
    Case(
        "-H x first missing other IN",
        ((None, "first:x in first", "..missing..", "other:x in other"), ("x1", "IN:x1")),
        status=2,
        ways=(TERMINAL,),
    ),
    # The same where blocks wait for a round, as they do for an expression without literals.
    Case(
        "-H -E [^noe] first missing other IN",
        ((None, "first:x in first", "..missing..", "other:x in other"), ("x1", "IN:x1")),
        status=2,
        ways=(TERMINAL,),
    ),
]

# Those that are run once more while each program is stopped and goes on.
STOPPED = [case for case in CASES if case.words in ("x IN", "-n -C 1 x IN", "-c x IN", "-n x IN | -v y | -o [0-9]:x")]


# Searches of the files and the tree, and whether they list the tree: not before the patterns are read, nor once a
# selected line has settled what -q answers.
LISTINGS = {
    "-r x tree": True,
    "-r -l x first tree": True,
    "-r -E ( tree": False,
    "-r -e x -f missing tree": False,
    "-r -q x first tree": False,
    "-m 0 -r x tree": False,
}
# The event of an opening, as Linux numbers it.
IN_OPEN = 0x20


class Missing(Exception):
    """What had to come has not, or something else has come."""


class Output:
    """What comes by a file descriptor, line by line."""

    def __init__(self, source):
        self.source = source
        self.held = b""

    def more(self):
        """Whether more came before the end. A terminal that nobody has open any more fails with EIO."""
        if not select.select([self.source], [], [], LIMIT)[0]:
            raise Missing(f"nothing came for {LIMIT} seconds")
        try:
            text = os.read(self.source, 1 << 16)
        except OSError as fault:
            if fault.errno != errno.EIO:
                raise
            text = b""
        self.held += text
        return bool(text)

    def line(self):
        """The next line, without its newline; None at the end."""
        while b"\n" not in self.held:
            if not self.more():
                if self.held:
                    raise Missing(f"{self.held!r} came and no newline")
                return None
        line, self.held = self.held.split(b"\n", 1)
        return line.decode("ascii", "replace")

    def expect(self, row):
        """Waits for a row."""
        line = self.line()
        if line is None:
            raise Missing(f"the end came in place of {row!r}")
        is_right = row[2:-2] in line if row.startswith("..") else row == line
        if not is_right:
            raise Missing(f"{line!r} came in place of {row!r}")

    def expect_end(self):
        line = self.line()
        if line is not None:
            raise Missing(f"{line!r} came too")


class Pipe:
    """The input is a pipe, and the output another one."""

    name = "(standard input)"
    operand = "-"

    def __init__(self, folder):
        self.reader, self.writer = os.pipe()
        self.source, self.sink = os.pipe()
        self.fault_source, self.fault_sink = os.pipe()

    def theirs(self):
        """What the commands read and write by; it is closed here once they run."""
        return {self.reader, self.sink, self.fault_sink} - {None}

    def send(self, text):
        os.write(self.writer, text)

    def close(self):
        """No more will be sent."""
        if self.writer is not None:
            os.close(self.writer)
            self.writer = None

    def end(self):
        """Closes what is still open here."""
        self.close()
        for descriptor in {self.source, self.fault_source} - {None}:
            os.close(descriptor)


class Fifo(Pipe):
    """The input is a FIFO, which is opened for writing when the first line is sent."""

    def __init__(self, folder):
        super().__init__(folder)
        os.close(self.reader)
        os.close(self.writer)
        self.reader, self.writer = os.open(os.devnull, os.O_RDONLY), None
        self.name = self.operand = str(folder / "fifo")
        os.mkfifo(self.name)

    def open(self):
        """Opens it once the program has: before that it can't be."""
        deadline = time.monotonic() + LIMIT
        while self.writer is None:
            try:
                self.writer = os.open(self.name, os.O_WRONLY | os.O_NONBLOCK)
            except OSError as fault:
                if fault.errno != errno.ENXIO or time.monotonic() > deadline:
                    raise Missing("the FIFO was not opened for reading") from fault
                time.sleep(0.001)

    def send(self, text):
        self.open()
        super().send(text)

    def close(self):
        super().close()
        if os.path.exists(self.name):
            os.unlink(self.name)


class HeldFifo(Fifo):
    """The same, but that it is open for writing from the first. It can be so without a reader only once it had one."""

    def __init__(self, folder):
        super().__init__(folder)
        both = os.open(self.name, os.O_RDWR)
        self.holder = os.open(self.name, os.O_WRONLY)
        os.close(both)

    def close(self):
        super().close()
        if self.holder is not None:
            os.close(self.holder)
            self.holder = None


class Terminal(Pipe):
    """Input, output and faults are one terminal, which sends nothing back by itself."""

    def __init__(self, folder):
        self.writer, self.reader = pty.openpty()
        self.source, self.sink, self.fault_source, self.fault_sink = self.writer, self.reader, None, self.reader
        modes = termios.tcgetattr(self.reader)
        modes[1] &= ~termios.OPOST
        modes[3] &= ~termios.ECHO
        termios.tcsetattr(self.reader, termios.TCSANOW, modes)

    def close(self):
        """Ends the input as a user does, by the key for it."""
        if self.writer is not None:
            os.write(self.writer, b"\x04")
            self.writer = None


WAYS = {PIPE: Pipe, FIFO: Fifo, HELD: HeldFifo, TERMINAL: Terminal}


def words_of(command, way):
    """The words of a command: standard input is named only where it is not the only operand."""
    words = shlex.split(command)
    if way.operand == "-" and not any(word in NAMED for word in words):
        return [word for word in words if word != "IN"]
    return [way.operand if word == "IN" else word for word in words]


def start(commands, folder, way):
    """Starts the commands, each of which reads what the one before it writes."""
    runs, reader = [], way.reader
    for number, command in enumerate(commands):
        link, sink = (None, way.sink) if number == len(commands) - 1 else os.pipe()
        streams = {"stdin": reader, "stdout": sink, "stderr": way.fault_sink}
        runs.append(subprocess.Popen(command, cwd=folder, env=ENVIRONMENT, **streams))
        for mine in {reader, sink} - way.theirs():
            os.close(mine)
        reader = link
    for descriptor in way.theirs():
        os.close(descriptor)
    return runs


def is_stopped(run):
    """Whether the system tells that a process stands still."""
    with open(f"/proc/{run.pid}/stat", encoding="ascii", errors="replace") as status:
        return status.read().rpartition(")")[2].split()[0] == "T"


def stop(runs):
    """Stops processes, and waits until they stand still."""
    for run in runs:
        run.send_signal(signal.SIGSTOP)
    deadline = time.monotonic() + LIMIT
    while not all(is_stopped(run) for run in runs):
        if time.monotonic() > deadline:
            raise Missing("a process didn't stop")
        time.sleep(0.001)


def send(line, way, stopped):
    """Sends a line; the processes that are to be stopped stand still meanwhile."""
    if stopped and isinstance(way, Fifo):
        way.open()
    stop(stopped)
    way.send(line.encode("ascii") + b"\n")
    for run in stopped:
        run.send_signal(signal.SIGCONT)


def talk(case, way, output, stopped):
    """Sends what is to be sent, and waits for the rows. The input stays open where the program ends by itself."""
    for line, *rows in case.steps:
        if line is not None:
            send(line, way, stopped)
        for row in rows:
            output.expect(row.replace("IN", way.name))
    if case.ends:
        return
    if isinstance(way, Fifo):
        way.open()
    way.close()
    for row in case.last:
        output.expect(row.replace("IN", way.name))


def fault_of(case, program, folder, way, are_stopped=False):
    """What is not as it has to be."""
    runs = start([[*program, *words_of(command, way)] for command in case.words.split(" | ")], folder, way)
    try:
        output = Output(way.source)
        talk(case, way, output, runs if are_stopped else [])
        statuses = [run.wait(LIMIT) for run in runs]
        output.expect_end()
        if way.fault_source is not None:
            Output(way.fault_source).expect_end()
    except Missing as missing:
        return str(missing)
    except subprocess.TimeoutExpired:
        return f"it has not ended after {LIMIT} seconds"
    finally:
        for run in runs:
            run.kill()
            run.wait()
        way.end()
    return None if statuses[-1] == case.status else f"status {statuses[-1]} in place of {case.status}"


def take_terminal():
    """Makes standard input the terminal of this process, whose keys send signals as they do at a login: who started the
    tests in the background has them ignored."""
    fcntl.ioctl(0, termios.TIOCSCTTY, 0)
    for number in (signal.SIGHUP, signal.SIGINT, signal.SIGQUIT, signal.SIGTSTP, signal.SIGTTIN, signal.SIGTTOU):
        signal.signal(number, signal.SIG_DFL)


class Shell:
    """An interactive shell on a terminal of its own, by whose keys its jobs are stopped and ended."""

    def __init__(self):
        self.keys, terminal = pty.openpty()
        words = ["bash", "--norc", "--noprofile", "--noediting", "-i"]
        streams = {"stdin": terminal, "stdout": terminal, "stderr": terminal}
        self.run = subprocess.Popen(words, env=ENVIRONMENT, start_new_session=True, preexec_fn=take_terminal, **streams)
        os.close(terminal)
        self.output, self.lines = Output(self.keys), []
        self.type("PS1= PS2=; stty -echo -opost; echo rea''dy\n")
        self.wait_for("ready")

    def type(self, text):
        os.write(self.keys, text.encode("ascii"))

    def wait_for_prompt(self):
        """Waits until the shell has the terminal again. What is typed before may be lost."""
        deadline = time.monotonic() + LIMIT
        while os.tcgetpgrp(self.keys) != self.run.pid:
            if time.monotonic() > deadline:
                raise Missing("the shell didn't get its terminal back")
            time.sleep(0.001)
        time.sleep(0.2)

    def wait_for(self, word):
        """Waits for a line with a word, and keeps all lines up to it."""
        while not self.lines or word not in self.lines[-1]:
            line = self.output.line()
            if line is None:
                raise Missing(f"the shell ended before {word!r} came")
            self.lines.append(line.strip("\r"))
        self.lines.append("")

    def end(self):
        self.run.kill()
        self.run.wait()
        os.close(self.keys)


def fault_of_keys(program):
    """What is not as it has to be where a search is stopped by Ctrl-Z, goes on by `fg`, and is ended by Ctrl-C."""
    shell = Shell()
    try:
        shell.type(shlex.join([*program, "x"]) + "\n")
        for lines, row in (("ax1\n", "ax1"), ("none\nax2\n", "ax2")):
            shell.type(lines)
            shell.wait_for(row)
            shell.type("\x1a")
            shell.wait_for("Stopped")
            shell.wait_for_prompt()
            shell.type("fg\n")
            shell.wait_for(program[0])
        shell.type("ax3\n")
        shell.wait_for("ax3")
        shell.type("\x03")
        shell.wait_for_prompt()
        shell.type("echo status $?\n")
        shell.wait_for("status")
    except Missing as missing:
        return str(missing)
    finally:
        shell.end()
    rows = [line for line in shell.lines if line in ("ax1", "none", "ax2", "ax3")]
    if rows != ["ax1", "ax2", "ax3"]:
        return f"the rows were {rows}"
    return None if "status 130" in shell.lines else f"it wasn't ended by the signal: {shell.lines[-3:]}"


def fault_of_listing(words, is_listed, program, folder):
    """What is not as it has to be where the openings of a directory are watched during a search."""
    system = ctypes.CDLL(None, use_errno=True)
    events = system.inotify_init1(os.O_NONBLOCK)
    try:
        if events < 0 or system.inotify_add_watch(events, os.fsencode(folder / "tree"), IN_OPEN) < 0:
            return f"the folder can't be watched: {os.strerror(ctypes.get_errno())}"
        streams = {"stdin": subprocess.DEVNULL, "stdout": subprocess.DEVNULL, "stderr": subprocess.DEVNULL}
        command = [*program, *shlex.split(words)]
        subprocess.run(command, cwd=folder, env=ENVIRONMENT, timeout=LIMIT, check=False, **streams)
        try:
            was_listed = bool(os.read(events, 1 << 16))
        except BlockingIOError:
            was_listed = False
    except subprocess.TimeoutExpired:
        return f"it has not ended after {LIMIT} seconds"
    finally:
        os.close(events)
    if was_listed == is_listed:
        return None
    return "the tree was listed" if was_listed else "the tree was not listed"


def options_of(program):
    """The options of each run, which stand in front: GNU grep knows no workers, and sends rows at once only if told."""
    told = subprocess.run([program, "--version"], env=ENVIRONMENT, capture_output=True, check=False).stdout
    if b"GNU grep" in told.split(b"\n", 1)[0]:
        return [["--line-buffered"]]
    return [["--workers", str(count)] for count in WORKERS]


def main():
    program = built.program("Sees that rows come while the input is still open.")
    if program is None:
        return 1
    passed, failed = 0, 0
    with tempfile.TemporaryDirectory(prefix="pargrep-live-") as name:
        folder = Path(name)
        for file, text in FILES.items():
            (folder / file).parent.mkdir(parents=True, exist_ok=True)
            (folder / file).write_text(text)
        for options in options_of(program):
            runs = [(case, kind, False) for case in CASES for kind in case.ways]
            runs += [(case, kind, True) for case in STOPPED for kind in case.ways]
            found = {
                f"{case.words}, by {kind}{', stopped' if stopped else ''}":
                    fault_of(case, [program, *options], folder, WAYS[kind](folder), stopped)
                for case, kind, stopped in runs
            }
            found["Ctrl-Z, fg and Ctrl-C"] = fault_of_keys([program, *options])
            for words, is_listed in LISTINGS.items():
                found[f"listing: {words}"] = fault_of_listing(words, is_listed, [program, *options], folder)
            passed, failed = passed + len(found), failed + sum(fault is not None for fault in found.values())
            for what, fault in found.items():
                if fault:
                    print(f"{' '.join(options)} {what}: {fault}", flush=True)
    passed -= failed
    print(f"{passed} passed, {failed} failed")
    return 1 if failed else 0


if __name__ == "__main__":
    sys.exit(main())
