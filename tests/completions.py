#!/usr/bin/env python3
"""Asks bash's completion what it offers for words that are begun: `tests/completions.py`

Each line of CASES has the words as bash cuts them, at `=` too, and what has to be offered for the last one, or for that
before HERE. It is asked in a folder with the files of FILES. Where files are offered, bash has to be told so: it then
quotes blanks in their names, and puts a slash behind a directory. Where a value is to follow, it has to be told that no
blank does. The last line is `N passed, M failed`.
"""

import os
import subprocess
import sys
import tempfile
from pathlib import Path

COMPLETION = Path(__file__).resolve().parent.parent / "completions/pargrep.bash"
ENVIRONMENT = {"LC_ALL": "C", "PATH": os.environ.get("PATH", os.defpath)}

FILES = ["--count", "-f", "many=one", "my file", "other"]
FOLDER = "my folder"
ALL = sorted([*FILES, FOLDER])
HERE = None

# Asks the function that is registered for the program, and tells what it offers, each in a line behind a blank, and how
# that is to be taken, in a line behind `o`. Bash has a `compopt` of its own only while something is typed.
SCRIPT = """
compopt() { printf 'o%s\\n' "$2"; }
source "$1" || exit
COMP_WORDS=("${@:3}") COMP_CWORD=$2 COMPREPLY=(before)
read -ra registered < <(complete -p pargrep)
for ((at = 1; at < ${#registered[@]} - 2; at += 2)); do
  [[ ${registered[at]} != -o ]] || printf 'o%s\\n' "${registered[at + 1]}"
done
${registered[-2]} pargrep "${COMP_WORDS[COMP_CWORD]}" "${COMP_WORDS[COMP_CWORD - 1]}"
((${#COMPREPLY[@]} == 0)) || printf ' %s\\n' "${COMPREPLY[@]}"
"""

COLORS = ["always", "auto", "never"]
ACTIONS = ["read", "recurse", "skip"]

# The words behind the program's name, what is offered, in the order of its bytes, and how that is to be taken.
CASES = [
    # A value joined to its option, by itself and begun.
    (["--file", "="], ALL, "filenames"),
    (["--file", "=", "my"], ["my file", "my folder"], "filenames"),
    (["--exclude-from", "="], ALL, "filenames"),
    (["-n", "--exclude-from", "=", "o"], ["other"], "filenames"),
    (["--directories", "="], ACTIONS, ""),
    (["--directories", "=", "re"], ["read", "recurse"], ""),
    (["--devices", "="], ["read", "skip"], ""),
    (["--devices", "=", "m"], [], ""),
    (["--binary-files", "="], ["text"], ""),
    (["--max-count", "="], [], ""),
    (["--max-count", "=", "m"], [], ""),
    (["--label", "=", "m"], [], ""),
    (["--color", "="], COLORS, ""),
    (["--colour", "=", "a"], ["always", "auto"], ""),
    # The same where bash cuts no words at `=`.
    (["--file=my"], ["--file=my file", "--file=my folder"], "filenames"),
    (["--directories=s"], ["--directories=skip"], ""),
    (["--color=n"], ["--color=never"], ""),
    (["--include=m"], [], ""),
    # A value in a word of its own, which that of --color never is.
    (["-d", ""], ACTIONS, ""),
    (["--directories", "s"], ["skip"], ""),
    (["-D", ""], ["read", "skip"], ""),
    (["-n", "-f", "my"], ["my file", "my folder"], "filenames"),
    (["-e", "m"], [], ""),
    (["--context", "m"], [], ""),
    (["--color", "o"], ["other"], "filenames"),
    (["-f", "-"], ["--count", "-f"], "filenames"),
    # Options, of which the long ones with a value end with `=`, and operands.
    (["--coun"], ["--count"], ""),
    (["-n", "--dire"], ["--directories="], "nospace"),
    (["--exclude"], ["--exclude-dir=", "--exclude-from=", "--exclude="], "nospace"),
    (["x", "--quie"], ["--quiet"], ""),
    (["x", "my"], ["my file", "my folder"], "filenames"),
    (["x", "many", "=", "o"], ["other"], "filenames"),
    (["x", "nothing"], [], "filenames"),
    # Behind `--` are operands alone, but where that is a value.
    (["--", "-"], ["--count", "-f"], "filenames"),
    (["-n", "--", "x", "--coun"], ["--count"], "filenames"),
    (["--", "--color", "=", "o"], ["other"], "filenames"),
    (["--", "--color", "="], ALL, "filenames"),
    (["--", "--color=o"], [], "filenames"),
    (["--", "-d", "o"], ["other"], "filenames"),
    (["--initi", HERE, "--", "x"], ["--initial-tab"], ""),
    (["-e", "--", "--initi"], ["--initial-tab"], ""),
    (["--group-separator", "=", "--", "--initi"], ["--initial-tab"], ""),
]


def asked(words, folder):
    """What is offered for a word, and how that is to be taken; where bash tells a fault, None and the fault."""
    at = words.index(HERE) if HERE in words else len(words)
    given = [str(COMPLETION), str(at), "pargrep", *words[:at], *words[at + 1 :]]
    command = ["bash", "--norc", "--noprofile", "-c", SCRIPT, "bash", *given]
    ran = subprocess.run(command, cwd=folder, env=ENVIRONMENT, capture_output=True, text=True, check=False)
    if ran.stderr:
        return None, ran.stderr.strip()
    lines = ran.stdout.splitlines()
    taken = {it[1:] for it in lines if it.startswith("o")}
    return sorted(it[1:] for it in lines if it.startswith(" ")), " ".join(sorted(taken))


def make(folder):
    (folder / FOLDER).mkdir()
    for name in FILES:
        (folder / name).touch()


def main():
    passed = failed = 0
    with tempfile.TemporaryDirectory(prefix="pargrep-completions-") as name:
        make(Path(name))
        for words, offered, taken in CASES:
            found = asked(words, name)
            is_right = found == (offered, taken)
            if not is_right:
                print(f"completions: {words}: {found} in place of {(offered, taken)}")
            passed, failed = passed + is_right, failed + (not is_right)
    print(f"{passed} passed, {failed} failed")
    return 1 if failed else 0


if __name__ == "__main__":
    sys.exit(main())
