"""The program that a script runs: the one that `make` built, or another that its words name."""

import argparse
import os
from pathlib import Path

BUILT = Path(__file__).resolve().parent.parent / "crates/pargrep/out/pargrep"


def program(description):
    """The path of the program; None, with a line that counts as a failure, where there is none that can be run."""
    parser = argparse.ArgumentParser(description=description)
    parser.add_argument("--program", default=BUILT)
    path = str(Path(parser.parse_args().program).resolve())
    if os.access(path, os.X_OK):
        return path
    print(f"there is no program at {path}; make builds it\n0 passed, 1 failed")
    return None
