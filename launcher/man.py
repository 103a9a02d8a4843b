"""The man page rapid_cell(1), from the tables of actions, options and statuses, so that it says what the help says."""
from typing import Iterator, List

from . import tables
from .actions import ACTIONS, OPTIONS
from .places import COMMAND

FILES = (
    ("/usr/share/rapid-cell/README.md", "where to begin; docs/CELL_SCRIPT.md and docs/LANGUAGE.md in its folder have the script and the language"),
    ("/usr/share/rapid-cell/examples", "cells to try"),
    ("/usr/share/rapid-cell/PROVED", "the record of the program's proof"),
    ("~/.cache/rapid_cell", "what the launcher keeps, or below XDG_CACHE_HOME"),
)
ABOUT = (
    "rapid_cell checks and runs robot cells programmed in RAPID, ABB's language, before a robot moves. It reads a cell script (TOML) and "
    "RAPID modules. It reports an error with its line, its cause and what to write instead, or it runs the cell and prints every setpoint."
)


def page(version: str, day: str) -> str:
    lines = [f'.TH RAPID_CELL 1 "{day}" "rapid_cell {version}" "User Commands"']
    lines += [".SH NAME", r"rapid_cell \- checks and runs robot cells programmed in RAPID"]
    lines += [".SH SYNOPSIS", ".B rapid_cell", r"[\fIoption\fR ...] \fIaction\fR [\fIword\fR ...]"]
    lines += [".SH DESCRIPTION", escaped(ABOUT), ".SH ACTIONS"]
    for it in ACTIONS:
        lines += entry(f"{it.name} {it.takes}".strip(), it.does)
    lines += [".SH OPTIONS", "They may stand anywhere among the words."]
    for option in OPTIONS:
        lines += entry(f"{option.name} {option.takes}".strip(), option.does)
    lines += [".SH EXIT STATUS", *statuses(), ".SH FILES"]
    for name, does in FILES:
        lines += entry(name, does)
    lines += [".SH EXAMPLES"]
    lines += entry("rapid_cell check /usr/share/rapid-cell/examples/first_move/cell.toml", "checks a first cell")
    lines += entry("rapid_cell explain CornerZone", "explains a rule")
    return "".join(f"{line}\n" for line in lines)


def statuses() -> Iterator[str]:
    """The rows of the table of statuses."""
    for row in tables.rows():
        if row.cells[0][0] == "Status":
            yield from entry(tables.plain(row.cells[0][1]), tables.plain(row.get("Comes where")))


def entry(words: str, does: str) -> List[str]:
    first, _, others = words.partition(" ")
    head = rf"\fB{escaped(first)}\fR" + (rf" \fI{escaped(others)}\fR" if others else "")
    return [".TP", head, escaped(does)]


def escaped(text: str) -> str:
    """A text as roff takes it, on one line."""
    text = text.replace(COMMAND, "rapid_cell").replace("\n", " ").replace("\\", r"\e").replace("-", r"\-")
    return rf"\&{text}" if text.startswith((".", "'")) else text
