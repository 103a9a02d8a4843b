"""A task of a run: its machine, its modules, what it did, and how it ended."""
from collections import Counter
from typing import Dict, List, NamedTuple, Optional, Sequence, Tuple

from . import trace
from .excerpt import Place
from .history import Event
from .machine import Machine
from .memory import Held
from .raising import Code
from .statements import Routine, Source
from .texts import Module, line_of

# How a task ended of which a history does not say it: the history ends first.
OPEN = "Open"


class Change(NamedTuple):
    """What an event changed: its number, the task or `-` for the input script, the place in the task's code, and the new value."""

    event: int
    actor: str
    pc: int
    value: Held


class Task:
    """A task: its machine, its modules with their texts, how it ended, its last event, and how many events and looks each statement had
    that looked, by its place in the code. `notes` say why it ended with a fault; if a signal had to do with that, `later` is its next
    change. `meeting` is the last one that it came to."""

    has_failed = False

    def __init__(self, name: str, machine: Machine, modules: Sequence[Module], held: Sequence[bytes]) -> None:
        self.name, self.machine, self.modules, self.texts = name, machine, modules, held
        self.fate = ""
        self.notes: List[str] = []
        self.signal: Optional[int] = None
        self.meeting = -1
        self.later: Optional[Change] = None
        self.number, self.last = -1, Event(name, "", "", "")
        self.spots: Dict[int, Place] = {}
        self.places: Dict[int, trace.Place] = {}
        self.events: Dict[int, int] = Counter()
        self.looks: Dict[int, int] = Counter()

    @property
    def code(self) -> Code:
        return self.machine.code

    @property
    def routines(self) -> List[Routine]:
        return [it for source in self.code.sources for it in source.routines]

    @property
    def counted(self) -> int:
        return sum(self.events.values())

    def source(self, pc: int) -> Tuple[Module, bytes, Source]:
        """The module that a place in the code belongs to."""
        owner = self.code.walk.owners[pc]
        assert owner
        return self.modules[owner.module], self.texts[owner.module], self.code.sources[owner.module]

    def spot(self, pc: int) -> Place:
        """Where the statement of a place in the code stands in its module."""
        if pc not in self.spots:
            self.spots[pc] = self.spot_of(pc)
        return self.spots[pc]

    def spot_of(self, pc: int) -> Place:
        owner = self.code.walk.owners[pc]
        assert owner
        _, text, source = self.source(pc)
        row, column = source.place_of(owner.first)
        last = source.tokens[owner.past - 1]
        end = last.end - source.lines[row - 1] if source.row(last.at) == row else len(line_of(text, row))
        return Place(row, column, max(end - column + 1, 1))

    def place(self, pc: int) -> trace.Place:
        """The same as a trace has it."""
        if pc not in self.places:
            spot = self.spot(pc)
            self.places[pc] = trace.Place(self.source(pc)[0].name, spot.row, spot.column)
        return self.places[pc]

    def where(self, pc: int) -> str:
        """The same in words."""
        return f"line {self.spot(pc).row} of {self.source(pc)[0].name}"

    def line(self, pc: int) -> str:
        return line_of(self.source(pc)[1], self.spot(pc).row).decode("utf-8", "replace").strip()

    def routine(self, pc: int) -> str:
        """The routine of a place in the code, as `PROC main`."""
        owner = self.code.walk.owners[pc]
        assert owner
        found = self.routines[owner.routine]
        return f"{found.kind} {found.name}"

    def words(self, pc: int) -> List[str]:
        """The tokens of a statement."""
        owner = self.code.walk.owners[pc]
        assert owner
        return [it.text for it in self.source(pc)[2].tokens[owner.first : owner.past]]


def many(count: int, what: str) -> str:
    """A count of things."""
    return f"{count:,} {what}" + ("" if count == 1 else "s")
