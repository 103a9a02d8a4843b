"""Recognizes a backup of an ABB controller, and a module of one, where a cell was expected."""
import re
from pathlib import Path
from typing import List, Optional

from ..refusals import Kind, Refusal
from ..texts import Cell, read, read_cell
from .folders import child

# Words that a module of a controller has and that no cell takes: types of data, and instructions that move a tool.
WORDS = re.compile(rb"\b(robtarget|tooldata|wobjdata|loaddata|zonedata|Move[JLC]|Trigg[JLC]|Search[LC]|Arc[LC]\w*)\b", re.IGNORECASE)
# What is left out of the count: comments and strings.
PASSED_OVER = re.compile(rb'!.*|"[^"\n]*"')
# How many of these words a module has at least: one or two may be a slip.
LEAST = 3


def is_backup(folder: Path) -> bool:
    """Whether a folder looks as a backup of a controller does."""
    return folder.is_dir() and any(child(folder, it) for it in ("RAPID", "SYSPAR", "BACKINFO"))


def is_of_controller(text: bytes) -> bool:
    """Whether a module's text is one of a controller."""
    return len(WORDS.findall(PASSED_OVER.sub(b"", text))) >= LEAST


def is_refused_one(refusal: Refusal, cell: Optional[Cell]) -> bool:
    """Whether a refusal is one of a module of a controller."""
    module = cell.named(refusal.name) if cell and refusal.kind is Kind.MODULE else None
    try:
        return module is not None and is_of_controller(read(module.file))
    except OSError:
        return False


def advice(refusal: Refusal, script: Optional[Path]) -> List[str]:
    """What to do with a refused module of a controller; nothing for any other refusal."""
    if refusal.kind is not Kind.MODULE or not script:
        return []
    try:
        cell = read_cell(script)
    except (OSError, ValueError):
        return []
    said = "launcher: this is a module of an ABB controller: ./rapid_cell import BACKUP OUT makes a cell of its backup (docs/FROM_ABB.md)"
    return [said] if is_refused_one(refusal, cell) else []
