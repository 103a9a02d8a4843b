"""The names of ABB's manuals that are not supported here, with what to write instead, from manual.txt."""
import functools
from dataclasses import dataclass
from typing import Dict, Iterator, List, Optional

from . import tables
from .places import MANUAL

# What a kind is called.
CALLED = {
    "instruction": "an instruction",
    "function": "a function",
    "type": "a data type",
    "data": "a predefined datum",
    "option": "an option",
    "component": "a component",
}
# The kinds of which a module cannot use a name by itself.
PARTS = ("option", "component")
SEEN = {"option": "`ArgName` at the backslash", "component": "`NoName` at the name"}


@dataclass(frozen=True)
class Entry:
    """A name of RAPID that is not supported: its kind, its group, and what to write instead."""

    name: str
    kind: str
    group: str
    write: str

    @property
    def called(self) -> str:
        return CALLED[self.kind]

    def lines(self) -> Iterator[str]:
        yield f"  Of RAPID: {self.name}, {self.called} ({self.group})"
        seen = SEEN.get(self.kind, "`NoName` at the name, unless a module declares it")
        yield f"  What you will see here: it is not supported; {seen}"
        yield f"  Write instead: {self.write}"


@functools.lru_cache(maxsize=None)
def entries() -> Dict[str, List[Entry]]:
    """The entries of each name in small letters."""
    found: Dict[str, List[Entry]] = {}
    for it in read():
        found.setdefault(it.name.lower(), []).append(it)
    return found


def read() -> Iterator[Entry]:
    group = write = ""
    for line in MANUAL.read_text(encoding="utf-8").splitlines():
        word, _, rest = line.partition(" ")
        if line.startswith("["):
            group = line.strip("[]")
        elif word == "write":
            write = rest
        elif word in CALLED:
            yield from (Entry(name, word, group, write) for name in rest.split())


def find(word: str) -> Optional[Entry]:
    """The name that a module can use by itself."""
    return next((it for it in entries().get(word.lower(), []) if it.kind not in PARTS), None)


def find_part(word: str, kind: str) -> Optional[Entry]:
    """The option or the component of this name."""
    return next((it for it in entries().get(word.lower(), []) if it.kind == kind), None)


def entries_for(word: str) -> List[Entry]:
    """What `explain` shows of a word: after a backslash the option, or else the name; without one the name, or else the option or
    the component of exactly this spelling, since many are English words, but no option of one letter."""
    name = word.lstrip("\\")
    found = find(name)
    if name != word:
        found = find_part(name, "option") or found
        return [found] if found else []
    parts = [it for it in entries().get(name.lower(), []) if it.name == name and (it.kind != "option" or len(name) > 1)]
    return [found] if found else parts


def notes_on(word: str) -> List[str]:
    """What to write instead of a word or a form of RAPID that is missing here."""
    row = missing_row(word)
    entry = find_part(word[1:], "option") if word.startswith("\\") else find(word)
    instead = entry.write if entry else row.get("Write instead") if row else ""
    return [f"write instead: {instead}"] if instead else []


def missing_row(word: str) -> Optional[tables.Row]:
    """The row of the table of what is missing that has a word, or that begins so."""
    for row in tables.rows():
        head, cell = row.cells[0]
        codes = [it.lower() for it in tables.codes(cell)]
        if head == "Of RAPID" and (word.lower() in codes or tables.plain(cell).startswith(word)):
            return row
    return None
