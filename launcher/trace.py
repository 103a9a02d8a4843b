"""The lines of a trace: M for an event, with the place of the statement that asks; E for how a task ended.

An M line is that of a history with the place between the task and the request: `M TASK FILE LINE:COLUMN REQUEST > ANSWER`. FILE is
the module as the script names it. Where a task has not looked yet, and for the input script, the place is `- -`.
"""
import re
from typing import Iterable, NamedTuple, Optional, Tuple

from . import history
from .history import Event

PLACE = re.compile(r"(\d+):(\d+) ")
NOWHERE = "- - "
# What a program says that does not have the action yet.
NO_TRACE = b"rapid_cell: words 0\n"


class Place(NamedTuple):
    """The first byte of a statement: the name of its module, and line and column from 1."""

    module: str
    row: int
    column: int


class Traced(NamedTuple):
    event: Event
    place: Optional[Place]


class Reader:
    """Reads the lines of events, M or H; the latter have no places. The name of a module may hold spaces, so they are given."""

    def __init__(self, modules: Iterable[str]) -> None:
        self.modules = sorted(set(modules), key=len, reverse=True)

    def read(self, line: str) -> Traced:
        if line.startswith("H "):
            return Traced(history.event_of(line), None)
        _, actor, words = line.split(" ", 2)
        place, words = self.parted(words)
        return Traced(history.asked(actor, words), place)

    def parted(self, words: str) -> Tuple[Optional[Place], str]:
        """The place that words begin with, and the words after it."""
        if words.startswith(NOWHERE):
            return None, words[len(NOWHERE) :]
        for name in self.modules:
            found = PLACE.match(words, len(name) + 1) if words.startswith(f"{name} ") else None
            if found:
                return Place(name, int(found[1]), int(found[2])), words[found.end() :]
        raise ValueError(f"no place in a module of the cell: {words[:80]}")
