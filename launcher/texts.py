"""The texts of a cell: its script and the modules that the script names."""
import os
from dataclasses import dataclass
from pathlib import Path
from typing import Dict, List, Mapping, Optional

from . import toml_places

# The sizes above which the program reads no text.
LONGEST_SCRIPT = 262_144
LONGEST_MODULE = 1_048_576
LONGEST_HISTORY = 33_554_432


@dataclass(frozen=True)
class Module:
    """A module of a task: `task` counts from 0, `name` is as the script spells it, `file` is where it is."""

    task: int
    name: str
    file: Path


@dataclass(frozen=True)
class Cell:
    """A cell's script and its modules, in the order of the script. What is not TOML has no modules here."""

    script: Path
    text: bytes
    modules: List[Module]

    def named(self, name: bytes) -> Optional[Module]:
        """The first module that the script names so."""
        wanted = os.fsdecode(name)
        return next((it for it in self.modules if it.name == wanted), None)

    def of_task(self, task: int) -> List[Module]:
        return [it for it in self.modules if it.task == task]


def read_cell(script: Path, changed: Mapping[Path, bytes] = {}) -> Cell:
    """Reads a script; `changed` has texts in place of those of files (resolved paths), as an editor's. OSError if it cannot
    be read."""
    text = read(script, changed)
    return Cell(script, text, modules_of(script, text))


def modules_of(script: Path, text: bytes) -> List[Module]:
    found = []
    for key in toml_places.keys_of(text):
        if len(key.path) == 3 and key.path[0] == "task" and key.path[2] == "modules":
            for name in key.strings:
                found.append(Module(int(key.path[1]), name, script.parent / name))
    return found


def read(file: Path, changed: Mapping[Path, bytes] = {}) -> bytes:
    """The bytes of a regular file, or of what is in its place. OSError for all else: a pipe is never opened here."""
    kept = changed.get(file.resolve()) if changed else None
    if kept is not None:
        return kept
    if not file.is_file():
        raise FileNotFoundError(2, "no regular file", str(file))
    return file.read_bytes()


def line_of(text: bytes, row: int) -> bytes:
    """The line of this number, from 1, without its end; the empty one past the end."""
    lines = text.split(b"\n", row)
    return lines[row - 1].rstrip(b"\r") if len(lines) >= row else b""


def offset_of(text: bytes, row: int, column: int) -> int:
    """The place of a byte, from 0, by its line and column, both from 1."""
    at = 0
    for _ in range(row - 1):
        at = text.index(b"\n", at) + 1
    return at + column - 1


def place_of(text: bytes, at: int) -> Dict[str, int]:
    """The line and the column of a byte's place."""
    return {"row": text.count(b"\n", 0, at) + 1, "column": at - (text.rfind(b"\n", 0, at) + 1) + 1}
