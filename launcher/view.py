"""A place in a module of a cell, with the forms around it and the modules beside it."""
import functools
from dataclasses import dataclass, field
from pathlib import Path
from typing import Dict, Iterator, List, Mapping, Optional, Sequence, Tuple

from . import grammar, names, toml_places
from .refusals import Refusal
from .texts import Cell, Module, offset_of, read
from .tokens import Token, index_at, tokens_of

STARTS = ("PROC", "FUNC", "TRAP")
ENDS = ("ENDPROC", "ENDFUNC", "ENDTRAP")


@dataclass
class View:
    cell: Cell
    module: Module
    text: bytes
    at: int
    tokens: List[Token]
    # The number of the token at the place, or of the first one after it.
    k: int
    changed: Mapping[Path, bytes] = field(default_factory=dict)

    @property
    def token(self) -> Optional[Token]:
        return self.tokens[self.k] if self.k < len(self.tokens) else None

    @property
    def word(self) -> str:
        """The word at the place."""
        return self.token.text if self.token and self.token.at == self.at else ""

    def row(self, at: int) -> int:
        return self.text.count(b"\n", 0, at) + 1

    def others(self) -> Iterator[Tuple[Module, bytes]]:
        """The other modules of the tasks that have this one, with their texts."""
        tasks = {it.task for it in self.cell.modules if it.name == self.module.name}
        seen = {self.module.name}
        for it in self.cell.modules:
            if it.task in tasks and it.name not in seen:
                seen.add(it.name)
                try:
                    yield it, read(it.file, self.changed)
                except OSError:
                    continue

    def signals(self) -> Dict[str, str]:
        """The script's signals, each with its kind."""
        return signals_of(self.cell.text)

    def forms(self) -> List[grammar.Node]:
        """The forms around the place, from the item of the module to the innermost one, with the numbers of its tokens."""
        start, end = item_around(self.tokens, self.k)
        tree = grammar.parse(self.tokens[start:end], "item").tree
        path = []
        while tree:
            path.append(grammar.Node(tree.rule, tree.start + start, tree.end + start))
            tree = next((it for it in tree.inner if it.start + start <= self.k < it.end + start), None)
        return path


def view(refusal: Refusal, cell: Cell, module: Module, text: bytes, changed: Mapping[Path, bytes]) -> View:
    at = offset_of(text, refusal.row, refusal.column)
    tokens = tokens_of(text)
    return View(cell, module, text, at, tokens, index_at(tokens, at), changed)


def item_around(tokens: Sequence[Token], k: int) -> Tuple[int, int]:
    """The numbers of the first token of the item around a token, and of the one after the item, in a module that is well formed."""
    start = next((n for n in range(min(k, len(tokens) - 1), -1, -1) if tokens[n].text in STARTS), None)
    if start is not None:
        end = next((n + 1 for n in range(start, len(tokens)) if tokens[n].text in ENDS), len(tokens))
        if k < end:
            return (start - 1 if start and tokens[start - 1].text == "LOCAL" else start), end
    start = next((n + 1 for n in range(k - 1, -1, -1) if tokens[n].text in (";", *ENDS)), None)
    if start is None:
        start = next((n for n in range(k, -1, -1) if tokens[n].text in ("LOCAL", "TASK")), None)
    if start is None:
        start = next((n for n in range(k, -1, -1) if tokens[n].text in ("CONST", "VAR", "PERS", *STARTS)), k)
    end = next((n + 1 for n in range(k, len(tokens)) if tokens[n].text == ";"), len(tokens))
    return start, end


@functools.lru_cache(maxsize=64)
def declared_in(text: bytes) -> Tuple[names.Declared, ...]:
    return tuple(names.declared(tokens_of(text)))


@functools.lru_cache(maxsize=8)
def signals_of(script: bytes) -> Dict[str, str]:
    found: Dict[str, Dict[str, str]] = {}
    for key in toml_places.keys_of(script):
        if len(key.path) == 3 and key.path[0] == "signal" and key.strings:
            found.setdefault(key.path[1], {})[key.path[2]] = key.strings[0]
    return {it["name"]: it.get("kind", "") for it in found.values() if "name" in it}
