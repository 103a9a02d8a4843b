"""A refusal, shown with its line and a caret, its cause, and what to write instead."""
import os
from pathlib import Path
from typing import List, Mapping, Optional, Sequence

from . import actions, causes, hints, toml_faults, toml_places
from .abb import recognized
from .excerpt import Place, excerpt, note
from .refusals import Kind, Refusal
from .texts import Cell, Module, place_of, read, read_cell


def shown(refusal: Refusal, words: Sequence[bytes], is_coloured: bool = False) -> List[str]:
    """The lines after the program's own."""
    if refusal.kind is Kind.WORDS:
        return said(hints.of_words(refusal.place, words)) if words else [f"  {it}" for it in hints.of_words(0, words)]
    if refusal.kind is Kind.MEMORY:
        return said(["out of memory: use a machine with more memory, or smaller modules"])
    if refusal.kind is Kind.WRITE:
        return said(["not everything could be printed: check where standard output goes: a full disk, a closed pipe"])
    script, history = script_of(words), history_of(words)
    if refusal.kind is Kind.HISTORY:
        return of_history(refusal, history)
    return of_cell(refusal, script, {}, is_coloured, history=history) + recognized.advice(refusal, script) if script else []


def of_history(refusal: Refusal, history: Optional[bytes]) -> List[str]:
    name = hints.shown_word(history) if history else "the history"
    return said([f"line {refusal.row} of {name} is none that --history prints for this cell after the lines before it: docs/LANGUAGE.md, \"Reading a history\""])


def of_cell(
    refusal: Refusal,
    script: Path,
    changed: Mapping[Path, bytes],
    is_coloured: bool,
    seen: Optional[bytes] = None,
    history: Optional[bytes] = None,
) -> List[str]:
    """The same for what is refused in a cell's files. `seen` is the module's text as it was checked, if it differs from that of its
    file; both have the same length and the same lines."""
    try:
        cell = read_cell(script, changed)
    except (OSError, ValueError):
        cell = None
    if refusal.kind in (Kind.READ, Kind.LONG):
        return said(hints.of_file(refusal, cell, script, history))
    if cell is None:
        return []
    if refusal.kind is Kind.SCRIPT:
        return of_script(refusal, cell, is_coloured)
    module = cell.named(refusal.name)
    return of_module(refusal, cell, module, changed, is_coloured, seen) if module else []


def of_script(refusal: Refusal, cell: Cell, is_coloured: bool) -> List[str]:
    notes = causes.of_script(refusal, cell)
    if refusal.rule == "NotToml":
        fault = toml_faults.find(cell.text)
        if fault.at is None:
            return said([fault.cause])
        return block(cell.script, cell.text, fault.at, 1, fault.cause, notes[1:], is_coloured)
    at = toml_places.place_of_key(cell.text, refusal.key)
    if at is None:
        return said(notes)
    length = toml_places.length_of_key(cell.text, at)
    return block(cell.script, cell.text, at, length, notes[0], notes[1:], is_coloured)


def of_module(
    refusal: Refusal, cell: Cell, module: Module, changed: Mapping[Path, bytes], is_coloured: bool, seen: Optional[bytes]
) -> List[str]:
    try:
        text = read(module.file, changed)
    except OSError:
        return []
    cause = causes.of_module(refusal, cell, module, seen if seen is not None else text, changed)
    return block(module.file, text, cause.at, cause.length, cause.label, cause.notes, is_coloured)


def block(file: Path, text: bytes, at: int, length: int, label: str, notes: Sequence[str], is_coloured: bool) -> List[str]:
    where = place_of(text, at)
    lines = excerpt(file, text, Place(where["row"], where["column"], length), label, is_coloured)
    return [*lines, *(line for it in notes for line in note(it, len(str(where["row"])), is_coloured))]


def said(lines: Sequence[str]) -> List[str]:
    return [f"launcher: {line}" for line in lines]


def script_of(words: Sequence[bytes]) -> Optional[Path]:
    """The script's path among words that name one."""
    others = [word for word in words if word != hints.HISTORY]
    if not others:
        return None
    counts = [actions.word_count(others[0])] if actions.is_programs_action(others[0]) else [2, 3, 4]
    return Path(os.fsdecode(others[1])) if len(others) in counts else None


def history_of(words: Sequence[bytes]) -> Optional[bytes]:
    """The name of the history among words that name one."""
    others = [word for word in words if word != hints.HISTORY]
    return others[2] if len(others) == 3 else None
