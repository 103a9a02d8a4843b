"""What an editor shows of a word: its declaration in the cell, or the rows of the documents' tables."""
import functools
from typing import FrozenSet, List, Optional

from . import explain, symbols
from .lsp_files import Files
from .lsp_text import Text
from .symbols import Symbol
from .texts import Cell, Module, place_of

# So many parts are shown of one word.
MOST = 4


def in_module(files: Files, cell: Cell, modules: List[Module], text: bytes, at: int) -> Optional[str]:
    """The Markdown for the name at a place of a module."""
    found = symbols.name_at(text, at)
    if not found:
        return None
    k, token = found
    if symbols.before(text, k) == "\\":
        return of_word("\\" + token.text)
    if symbols.before(text, k) == ".":
        return None
    meant = symbols.meanings(cell, modules, text, at, files.changed)
    if meant:
        return "\n\n---\n\n".join(of_symbol(it) for it in meant)
    return of_word(token.text)


def in_script(text: bytes, at: int) -> Optional[str]:
    """The same for a key of the script."""
    word = Text(text).name_at(at)[1].decode()
    return of_word(word) if word else None


def of_symbol(symbol: Symbol) -> str:
    row = place_of(symbol.text, symbol.at)["row"]
    language = "toml" if symbol.kind == "SIGNAL" else "rapid"
    shown = f"```{language}\n{symbol.line()}\n```\n{symbol.file.name}, line {row}"
    comment = symbol.comment() if symbol.kind != "SIGNAL" else ""
    return f"{shown}\n\n{comment}" if comment else shown


def of_word(word: str) -> Optional[str]:
    """What `explain` says of a word that it knows, in either case."""
    if word.lstrip("\\").lower() not in known():
        return None
    parts = [f"**{place}**\n\n```text\n{chr(10).join(lines)}\n```" for place, lines in explain.parts_for(word)]
    return "\n\n".join(parts[:MOST]) or None


@functools.lru_cache(maxsize=None)
def known() -> FrozenSet[str]:
    return frozenset(it.lower() for it in explain.known_words())
