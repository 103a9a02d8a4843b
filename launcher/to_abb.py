"""`check --abb CELL`: what the program accepts of a cell's modules, and ABB's controller refuses. docs/TO_ABB.md has the rules."""
from dataclasses import dataclass
from pathlib import Path
from typing import Iterator, List, Sequence, Set

from . import manual, names, shown
from .say import is_coloured, say, show
from .texts import Cell, Module, place_of, read_cell
from .tokens import NAME, Token, tokens_of

TASK_LIST, STATIONARY, PREDEFINED = "TaskList", "Stationary", "Predefined"
# Zones that stay until the controller is started again.
OF_ZONES = ("wzlimsup", "wzdoset")


@dataclass(frozen=True)
class Finding:
    """What ABB's controller refuses: by which rule of docs/TO_ABB.md, where, and what to write instead."""

    rule: str
    module: Module
    text: bytes
    at: int
    length: int
    label: str
    write: str


def findings(cell: Cell) -> Iterator[Finding]:
    """What is found in the modules of a cell that the program accepts, each file once."""
    texts = {it.file: (it, it.file.read_bytes()) for it in cell.modules}
    lists = {name for _, text in texts.values() for name in task_lists(tokens_of(text))}
    for module, text in texts.values():
        tokens = tokens_of(text)
        found = [*of_lists(module, text, tokens, lists), *of_zones(module, text, tokens), *of_names(module, text, tokens)]
        yield from sorted(found, key=lambda it: it.at)


def task_lists(tokens: Sequence[Token]) -> Iterator[str]:
    """The names of the lists of WaitSyncTask."""
    for k, token in enumerate(tokens[:-3]):
        if token.kind == NAME and token.text.lower() == "waitsynctask":
            yield tokens[k + 3].text.lower()


def of_lists(module: Module, text: bytes, tokens: List[Token], lists: Set[str]) -> Iterator[Finding]:
    for it in names.declared(tokens):
        if it.kind in ("CONST", "VAR") and it.type.lower() == "tasks" and it.name.lower() in lists:
            label = f"the list of WaitSyncTask is a {it.kind}"
            yield Finding(TASK_LIST, module, text, it.at, len(it.name), label, f"`PERS tasks {it.name}`")


def of_zones(module: Module, text: bytes, tokens: List[Token]) -> Iterator[Finding]:
    for k, token in enumerate(tokens[:-2]):
        if token.kind == NAME and token.text.lower() in OF_ZONES and tokens[k + 2].text.lower() == "stat":
            at = tokens[k + 1].at
            label = f"{token.text}\\Stat is allowed only in the routine of the event POWER ON"
            yield Finding(STATIONARY, module, text, at, tokens[k + 2].end - at, label, "`\\Temp` and a wztemporary, or a routine that the controller's POWER ON calls")


def of_names(module: Module, text: bytes, tokens: List[Token]) -> Iterator[Finding]:
    for it in names.declared(tokens):
        known = manual.find(it.name)
        if known and it.kind not in ("LABEL", "MODULE"):
            label = f"`{known.name}` is {known.called} of ABB's controller"
            yield Finding(PREDEFINED, module, text, it.at, len(it.name), label, "another name")


def tell(script: Path) -> None:
    """Says what is found in a cell that the program accepts."""
    found = list(findings(read_cell(script)))
    for it in found:
        where = place_of(it.text, it.at)
        say(f"ABB's controller refuses {it.module.name} {where['row']}:{where['column']} {it.rule}")
        for line in shown.block(it.module.file, it.text, it.at, it.length, it.label, [f"write instead: {it.write}"], is_coloured()):
            show(line)
    say(f"{len(found) or 'nothing'} of what docs/TO_ABB.md lists {'was' if len(found) < 2 else 'were'} found")
