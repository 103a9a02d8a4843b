"""Refusals as an editor shows them: diagnostics at places of the cell's files."""
from dataclasses import dataclass
from pathlib import Path
from typing import Any, Dict, List, Mapping, Optional, Tuple

from . import causes, hints, toml_faults, toml_places
from .lsp_text import Range, Text
from .places import COMMAND
from .refusals import Kind, Refusal
from .texts import Cell, read

ERROR = 1
# The last note of a refusal says where more of it is; an editor shows that when it hovers.
SEE = f"see {COMMAND} explain"


@dataclass(frozen=True)
class Diagnostic:
    """What is wrong in a file: where, by which rule, and what to say of it."""

    file: Path
    range: Tuple[int, int]
    rule: str
    message: str

    def shown(self, text: Text, source: str) -> Dict[str, Any]:
        where: Range = text.range(*self.range)
        if self.range[0] == self.range[1]:
            where = text.word_range(self.range[0])
        return {"range": where, "severity": ERROR, "code": self.rule, "source": source, "message": self.message}


def diagnostic(
    refusal: Refusal, cell: Cell, changed: Mapping[Path, bytes], seen: Optional[bytes] = None
) -> Optional[Diagnostic]:
    """The diagnostic of a refusal, or None if it is none of the cell's files. `seen` is the module's text as it was checked, if
    it is not that of its file; both have the same length and the same lines."""
    if refusal.kind is Kind.MODULE:
        return of_module(refusal, cell, changed, seen)
    if refusal.kind is Kind.SCRIPT:
        return of_script(refusal, cell)
    if refusal.kind in (Kind.READ, Kind.LONG):
        return of_file(refusal, cell)
    return None


def of_module(
    refusal: Refusal, cell: Cell, changed: Mapping[Path, bytes], seen: Optional[bytes]
) -> Optional[Diagnostic]:
    module = cell.named(refusal.name)
    if not module:
        return None
    try:
        text = read(module.file, changed)
        cause = causes.of_module(refusal, cell, module, text if seen is None else seen, changed)
    except (OSError, ValueError):
        return None
    # The end of a line or of the text has no byte to mark.
    end = cause.at if text[cause.at : cause.at + 1] in (b"", b"\n", b"\r") else cause.at + cause.length
    return Diagnostic(module.file, (cause.at, end), refusal.rule, message(refusal.rule, [cause.label, *cause.notes]))


def of_script(refusal: Refusal, cell: Cell) -> Diagnostic:
    notes = causes.of_script(refusal, cell)
    if refusal.rule == "NotToml":
        fault = toml_faults.find(cell.text)
        at = fault.at or 0
        return Diagnostic(cell.script, (at, at), refusal.rule, message(refusal.rule, [fault.cause, *notes[1:]]))
    at = toml_places.place_of_key(cell.text, refusal.key) or 0
    end = at + toml_places.length_of_key(cell.text, at)
    return Diagnostic(cell.script, (at, end), refusal.rule, message(refusal.rule, [f"{refusal.key}: {notes[0]}", *notes[1:]]))


def of_file(refusal: Refusal, cell: Cell) -> Diagnostic:
    """A file that cannot be read, or is too long: at the key of the script that names it."""
    module = cell.named(refusal.name)
    at = toml_places.place_of_key(cell.text, f"task[{module.task}].modules") if module else 0
    rule = refusal.kind.value
    return Diagnostic(cell.script, (at or 0, at or 0), rule, message(rule, hints.of_file(refusal, cell, cell.script)))


def message(rule: str, said: List[str]) -> str:
    lines = [it.replace("`", "") for it in said if it and it != rule and not it.startswith(SEE)]
    return "\n".join([f"{rule}: {lines[0]}", *lines[1:]] if lines else [rule])
