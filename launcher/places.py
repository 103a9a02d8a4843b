"""Where the program and its files lie: in a checkout, or where a package installed them, with the record of their proof and no sources."""
from pathlib import Path

TOP = Path(__file__).resolve().parent.parent
CRATES = TOP / "crates"
CRATE = "controller_program"
# What a package has and a checkout has not: the record of the proof.
RECORD = TOP / "PROVED"
IS_INSTALLED = RECORD.is_file() and not (TOP / "crates.txt").exists()
PROGRAM = TOP / CRATE if IS_INSTALLED else CRATES / CRATE / "out" / CRATE
# How the launcher is called, and a cell to begin with, as its lines name them.
COMMAND = "rapid_cell" if IS_INSTALLED else "./rapid_cell"
FIRST_CELL = f"{f'{TOP}/' if IS_INSTALLED else ''}examples/first_move/cell.toml"
# What to do where a file is missing.
FETCH = "install rapid_cell again" if IS_INSTALLED else "fetch the checkout again"
VERSION = TOP / "VERSION"
LANGUAGE = TOP / "docs" / "LANGUAGE.md"
CELL_SCRIPT = TOP / "docs" / "CELL_SCRIPT.md"
MANUAL = TOP / "launcher" / "manual.txt"
PAGE = TOP / "launcher" / "page"
RESERVED = TOP / "launcher" / "reserved.txt"
