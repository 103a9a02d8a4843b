"""Why a text is refused and what to write instead: from the tables of the documents, and from the text around the place."""
import re
from dataclasses import dataclass, field
from pathlib import Path
from typing import List, Mapping, Optional

from . import form_causes, name_causes, script_causes, tables
from .places import COMMAND
from .refusals import Refusal
from .texts import Cell, Module
from .view import View, view

# The longest cause beside the caret.
BESIDE = 72


@dataclass
class Cause:
    """What is shown of a refusal: the bytes that are meant, the text beside the caret, and the notes below."""

    at: int
    length: int
    label: str
    notes: List[str] = field(default_factory=list)


def of_script(refusal: Refusal, cell: Cell) -> List[str]:
    """The text beside the caret, and the notes below."""
    return script_causes.of(refusal, cell)


def of_module(refusal: Refusal, cell: Cell, module: Module, text: bytes, changed: Mapping[Path, bytes]) -> Cause:
    seen = view(refusal, cell, module, text, changed)
    own = form_causes.of(refusal.rule, seen) or name_causes.of(refusal.rule, seen)
    row = row_of(refusal.rule, seen)
    cause = row.get("Cause") if row else ""
    label = own.label if own and own.label else cause if len(cause) <= BESIDE else refusal.rule
    notes = list(own.notes) if own else []
    if label == refusal.rule:
        notes[:0] = [cause]
    if row and not (own and own.is_enough):
        notes.append(f"write instead: {row.get('Write instead')}")
    notes.append(f"see {COMMAND} explain {refusal.rule}")
    return Cause(seen.at, length_of(refusal.rule, seen), label, notes)


def row_of(rule: str, seen: View) -> Optional[tables.Row]:
    """The row of a rule: of a declaration's where it stands at a declared name or its type, else that of names and types."""
    found = [it for it in tables.rows() if it.cells[0] == ("Rule", rule) and it.place.startswith("docs/LANGUAGE.md")]
    in_declarations = [it for it in found if it.place.endswith("Rules of declarations")]
    if in_declarations and name_causes.is_at_type(seen):
        return in_declarations[0]
    return found[-1] if found else None


def length_of(rule: str, seen: View) -> int:
    """How many bytes are meant."""
    if rule in ("OpenString", "OpenHeader"):
        end = seen.text.find(b"\n", seen.at)
        return max((end if end >= 0 else len(seen.text)) - seen.at, 1)
    if rule == "BadByte":
        after = re.compile(rb"[\xc0-\xff][\x80-\xbf]+").match(seen.text, seen.at)
        return len(after[0]) if after else 1
    if rule in ("NoMain", "DataRange"):
        return 1
    return len(seen.word) or 1
