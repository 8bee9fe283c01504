"""The program of this tree, for demonstrations: bin/hkrep, which `make` proves, else that of `make quick`.
Standard library only."""
from __future__ import annotations

import pathlib
import sys

BIN = pathlib.Path(__file__).resolve().parents[2] / "bin"


def hkrep() -> pathlib.Path:
    """The program that is there; where none is, the place of the proved one."""
    return next((it for it in (BIN / "hkrep", BIN / "hkrep-unproved") if it.exists()), BIN / "hkrep")


def needed_hkrep() -> pathlib.Path:
    """The same; where none is there, it ends with a line that says how to make one."""
    program = hkrep()
    if not program.exists():
        sys.exit(
            f"{program} isn't there: make proves and builds it in an hour or more, make quick makes one without proofs"
            " in minutes"
        )
    return program
