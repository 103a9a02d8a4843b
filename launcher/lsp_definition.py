"""Where a word is declared: a name of a module, or what a text of the script names."""
import re
from pathlib import Path
from typing import Any, Dict, Iterator, List, Tuple

from . import symbols, toml_places, toml_values
from .lsp_files import Files
from .lsp_text import Text
from .texts import Cell, Module

Location = Dict[str, Any]
QUOTED = re.compile(rb'"[^"\n]*"|\'[^\'\n]*\'')


def in_module(files: Files, cell: Cell, modules: List[Module], text: bytes, at: int) -> List[Location]:
    meant = symbols.meanings(cell, modules, text, at, files.changed)
    return [location(files, it.file, it.text, it.at, it.at + len(it.name.encode())) for it in meant]


def in_script(files: Files, cell: Cell, at: int) -> List[Location]:
    """A module goes to its file; the name of a signal or a task to its table."""
    name = quoted_at(cell.text, at)
    if not name:
        return []
    module = next((it for it in cell.modules if it.name == name), None)
    if module:
        text = files.text(module.file)
        return [location(files, module.file, text, 0, 0)] if text is not None else []
    return [location(files, cell.script, cell.text, start, end) for start, end in tables_named(cell, name)]


def quoted_at(text: bytes, at: int) -> str:
    """The text in quotes around a place of its line."""
    start = text.rfind(b"\n", 0, at) + 1
    end = text.find(b"\n", at)
    for found in QUOTED.finditer(text, start, end if end >= 0 else len(text)):
        if found.start() <= at <= found.end():
            return read_quoted(found[0])
    return ""


def read_quoted(text: bytes) -> str:
    """The value of a text in quotes; nothing if it is none."""
    try:
        return toml_values.string(text, 0)[0]
    except toml_values.NoToml:
        return ""


def tables_named(cell: Cell, name: str) -> Iterator[Tuple[int, int]]:
    """The places of the names of signals and tasks that are this one."""
    for key in toml_places.keys_of(cell.text):
        if len(key.path) == 3 and key.path[0] in ("signal", "task") and key.path[2] == "name" and key.strings:
            if key.strings[0].lower() == name.lower():
                yield key.value_at + 1, key.value_at + 1 + len(name.encode())


def location(files: Files, file: Path, text: bytes, start: int, end: int) -> Location:
    return {"uri": files.uri(file), "range": Text(text).range(start, end)}
