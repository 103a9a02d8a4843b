"""What a name means at a place of a module: the declarations that it stands for, in the modules of the tasks that have the module.

The order is that of docs/LANGUAGE.md ("What a name means"); a module may be one that the program refuses.
"""
import functools
import re
from dataclasses import dataclass
from pathlib import Path
from typing import Dict, Iterator, List, Mapping, Optional, Tuple

from . import toml_places
from .names import Declared
from .texts import Cell, Module, read
from .tokens import NAME, WORD, Token, index_at, tokens_of
from .view import declared_in

KINDS_OF_ROUTINES = ("PROC", "FUNC", "TRAP")


@dataclass(frozen=True)
class Symbol:
    """A declaration and where it is: `name`, `kind` and `type` as in names.Declared, or the kind SIGNAL."""

    file: Path
    text: bytes
    name: str
    kind: str
    type: str
    at: int

    def line(self) -> str:
        """The declaration as it is written, up to its end or that of its head, in one line of at most 200 characters."""
        start = self.text.rfind(b"\n", 0, self.at) + 1
        if self.kind in KINDS_OF_ROUTINES:
            found = re.compile(rb"[^\n]*?\([^)]*\)|[^\n]*").match(self.text, start)
        else:
            found = re.compile(rb"[^;\n]*;?").match(self.text, start)
        shown = found[0].decode(errors="replace") if found else self.name
        return " ".join(shown.split())[:200]

    def comment(self) -> str:
        """The comment in the lines right above the declaration."""
        above = self.text[: self.text.rfind(b"\n", 0, self.at) + 1].decode(errors="replace").split("\n")[:-1]
        lines: List[str] = []
        while above and above[-1].strip().startswith("!"):
            lines.insert(0, above.pop().strip().lstrip("!").strip())
        return "\n".join(lines)


@functools.lru_cache(maxsize=32)
def tokens(text: bytes) -> Tuple[Token, ...]:
    return tuple(tokens_of(text))


def token_at(text: bytes, at: int) -> Optional[Tuple[int, Token]]:
    """The token that covers a place, or that ends there if none begins, with its number."""
    found = list(tokens(text))
    k = index_at(found, at + 1) - 1
    if 0 <= k < len(found) and found[k].at <= at <= found[k].end:
        return k, found[k]
    return None


def name_at(text: bytes, at: int) -> Optional[Tuple[int, Token]]:
    """The same, but only for a name or a reserved word; of two tokens that meet at a place, the name."""
    for place in (at, at - 1):
        found = token_at(text, place) if place >= 0 else None
        if found and found[1].kind in (NAME, WORD) and found[1].at <= at <= found[1].end:
            return found
    return None


def before(text: bytes, k: int) -> str:
    """The token before one, or the empty text."""
    return tokens(text)[k - 1].text if k else ""


def meanings(cell: Cell, modules: List[Module], text: bytes, at: int, changed: Mapping[Path, bytes]) -> List[Symbol]:
    """The declarations that the name at a place stands for: one, or one for each task that has the module, if they differ."""
    found = name_at(text, at)
    if not found or found[1].kind != NAME or not modules:
        return []
    k, token = found
    if before(text, k) in ("\\", "."):
        return []
    own = innermost(text, token.text, token.at, before(text, k) == "GOTO")
    if own:
        return [symbol_of(modules[0].file, text, own)]
    if before(text, k) == "GOTO":
        return []
    each = [in_task(cell, it.task, token.text, changed) for it in modules]
    unique = list(dict.fromkeys(it for it in each if it))
    return unique or signals(cell, token.text)


def innermost(text: bytes, name: str, at: int, is_label: bool) -> Optional[Declared]:
    """The declaration in the same module that is visible at a place and hides the others."""
    names = [it for it in declared_in(text) if it.name.lower() == name.lower() and (it.kind == "LABEL") == is_label]
    seen = [it for it in names if it.kind != "MODULE" and it.start is not None and it.start <= at <= (it.end or 0)]
    if seen:
        # The first one of the smallest part of the text: of two of one name in a scope the first one counts.
        return min(seen, key=lambda it: ((it.end or 0) - (it.start or 0), it.at))
    return next((it for it in names if it.start is None and it.kind != "MODULE"), None)


def in_task(cell: Cell, task: int, name: str, changed: Mapping[Path, bytes]) -> Optional[Symbol]:
    """The item of a task that is not LOCAL and has this name."""
    return next((it for it in items_of(cell, task, changed) if it.name.lower() == name.lower()), None)


def items_of(cell: Cell, task: int, changed: Mapping[Path, bytes]) -> Iterator[Symbol]:
    """Each item of a task's modules that is not LOCAL."""
    for module in cell.of_task(task):
        try:
            text = read(module.file, changed)
        except (OSError, ValueError):
            continue
        for it in declared_in(text):
            if it.start is None and it.kind != "MODULE":
                yield symbol_of(module.file, text, it)


def symbol_of(file: Path, text: bytes, found: Declared) -> Symbol:
    return Symbol(file, text, found.name, found.kind, found.type, found.at)


def visible(cell: Cell, modules: List[Module], text: bytes, at: int, changed: Mapping[Path, bytes]) -> Iterator[Symbol]:
    """Each declaration that is visible at a place of a module, those of the module itself first; one that is hidden comes too."""
    for it in declared_in(text):
        if it.kind not in ("MODULE", "LABEL") and (it.start is None or it.start <= at <= (it.end or 0)):
            yield symbol_of(modules[0].file if modules else cell.script, text, it)
    for module in modules:
        yield from (it for it in items_of(cell, module.task, changed) if it.file != module.file)
    yield from signals(cell)


def signals(cell: Cell, name: Optional[str] = None) -> List[Symbol]:
    """The script's signals, or the one of a name. The type is that of RAPID: signaldi or signaldo."""
    keys: Dict[str, Dict[str, toml_places.Key]] = {}
    for key in toml_places.keys_of(cell.text):
        if len(key.path) == 3 and key.path[0] == "signal" and key.strings:
            keys.setdefault(key.path[1], {})[key.path[2]] = key
    found = []
    for row in keys.values():
        own = row.get("name")
        if own and (name is None or own.strings[0].lower() == name.lower()):
            kind = row["kind"].strings[0] if "kind" in row else ""
            found.append(Symbol(cell.script, cell.text, own.strings[0], "SIGNAL", f"signal{kind}", own.value_at + 1))
    return found
