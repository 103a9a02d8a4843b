"""The names that may be meant at the place where an editor asks for one."""
import re
from typing import Any, Dict, Iterator, List, Tuple

from . import names, symbols, tables
from .lsp_files import Files
from .texts import Cell, Module
from .tokens import NAME, RESERVED

# The protocol's numbers of kinds.
FUNCTION, FIELD, VARIABLE, CLASS, PROPERTY, KEYWORD, CONSTANT, EVENT = 3, 5, 6, 7, 10, 14, 21, 23
KINDS = {"CONST": CONSTANT, "PROC": FUNCTION, "FUNC": FUNCTION, "TRAP": EVENT, "SIGNAL": EVENT}
PREDEFINED = {names.TYPE: CLASS, names.DATA: CONSTANT, names.FUNCTION: FUNCTION, names.INSTRUCTION: FUNCTION}
Item = Dict[str, Any]


def in_module(files: Files, cell: Cell, modules: List[Module], text: bytes, at: int) -> List[Item]:
    """The items for a place of a module: options after a backslash, components after a point, else all names that are visible."""
    line = text[text.rfind(b"\n", 0, at) + 1 : at]
    if is_in_text(line):
        return []
    before = re.sub(rb"[A-Za-z0-9_]*\Z", b"", line)
    if before.endswith(b"\\"):
        return [item(it, PROPERTY, "option") for it in options(text, at)]
    if before.endswith(b"."):
        return [item(it, FIELD, sort) for it, sort in components(files, cell, modules, text, at)]
    return every(files, cell, modules, text, at)


def is_in_text(line: bytes) -> bool:
    """Whether a place after these bytes of its line is in a string or a comment."""
    without = re.sub(rb'"[^"]*"', b"", line)
    return b'"' in without or b"!" in without


def every(files: Files, cell: Cell, modules: List[Module], text: bytes, at: int) -> List[Item]:
    found: Dict[str, Item] = {}
    for it in symbols.visible(cell, modules, text, at, files.changed):
        found.setdefault(it.name.lower(), item(it.name, KINDS.get(it.kind, VARIABLE), it.line() if it.kind != "SIGNAL" else it.type))
    for name, kind in names.predefined().items():
        found.setdefault(name.lower(), item(name, PREDEFINED[kind], kind))
    for word in sorted(RESERVED):
        found.setdefault(word.lower(), item(word, KEYWORD, ""))
    return list(found.values())


def item(label: str, kind: int, detail: str) -> Item:
    return {"label": label, "kind": kind, "detail": detail}


def options(text: bytes, at: int) -> List[str]:
    """The options of the instruction whose statement a place stands in, or those of all instructions."""
    own = {name.lower(): codes for name, codes in instruction_options()}
    for token in reversed([it for it in symbols.tokens(text) if it.at < at]):
        if token.text == ";":
            break
        if token.kind == NAME and token.text.lower() in own:
            return own[token.text.lower()]
    return sorted({it for codes in own.values() for it in codes})


def instruction_options() -> Iterator[Tuple[str, List[str]]]:
    """Each instruction that has options, with these."""
    for row in tables.rows():
        if row.cells[0][0] == "Instruction":
            found = re.findall(r"\\(\w+)", row.cells[1][1])
            for name in tables.plain(row.cells[0][1]).split(", ") if found else []:
                yield name, list(dict.fromkeys(found))


def components(files: Files, cell: Cell, modules: List[Module], text: bytes, at: int) -> Iterator[Tuple[str, str]]:
    """The components of the record before a point, each with the record's type; of all records if its type is not known."""
    sort = type_before(files, cell, modules, text, at)
    for record, own in names.COMPONENTS.items():
        if sort in ("", record):
            yield from ((it, record) for it in own)


def type_before(files: Files, cell: Cell, modules: List[Module], text: bytes, at: int) -> str:
    """The type of what stands before the point before a place, or the empty text."""
    tokens = [it for it in symbols.tokens(text) if it.at < at]
    while tokens and tokens[-1].text != ".":
        tokens.pop()
    if tokens:
        tokens.pop()
    if tokens and tokens[-1].text == "}":
        while tokens and tokens[-1].text != "{":
            tokens.pop()
        if tokens:
            tokens.pop()
    if not tokens:
        return ""
    name = tokens[-1]
    part = {"robax": "robjoint", "extax": "extjoint"}.get(name.text.lower())
    if len(tokens) > 1 and tokens[-2].text == ".":
        return part or ""
    meant = symbols.meanings(cell, modules, text, name.at, files.changed)
    return meant[0].type.lower() if meant and meant[0].type.lower() in names.COMPONENTS else ""
