"""Which statements of a cell's modules ran, and which of the lists inside them, by the places in a trace.

A statement's count is that of its looks that were answered Go. Of a FOR each turn is one, of a wait each time that it is tried, and
of a move each setpoint.
"""
from dataclasses import dataclass, field
from pathlib import Path
from typing import Dict, Iterator, List, Optional, Tuple

from .history import Event
from .statements import FOR, LABEL, Arm, Routine, Statement, source_of
from .texts import Cell, read
from .trace import Place, Traced

# Line and column.
Spot = Tuple[int, int]


@dataclass
class Branch:
    """A way out of a statement: a list inside it, or none of them. `entered` is how often it was taken; of a list without statements
    that is not known."""

    row: int
    arm: Optional[Arm]
    entered: Optional[int]


@dataclass
class Entry:
    """A statement where it stands: how often it looked, and, if it is the first one of a list inside another statement, how often the
    list was entered by it. `bounds` are the tokens of that list."""

    statement: Statement
    routine: int
    is_handler: bool
    bounds: Optional[Tuple[int, int]] = None
    count: int = 0
    entered: int = 0


class Module:
    """A module: its file, its text, and its statements by their places."""

    def __init__(self, file: Path, text: bytes) -> None:
        self.file, self.text = file, text
        self.source = source_of(text)
        self.entries: Dict[Spot, Entry] = {}
        for number, routine in enumerate(self.source.routines):
            self.add(routine, number)

    def add(self, routine: Routine, number: int) -> None:
        for it in routine.walk():
            if it.form != LABEL:
                is_handler = routine.error is not None and it.start > routine.error
                self.entries[self.source.place_of(it.start)] = Entry(it, number, is_handler)
        for it in routine.walk():
            for arm in it.arms:
                first = first_of(arm.statements)
                if first:
                    self.entry(first).bounds = (arm.head[1], arm.statements[-1].past)

    def entry(self, it: Statement) -> Entry:
        return self.entries[self.source.place_of(it.start)]

    def rows(self) -> Dict[int, int]:
        """How often each line ran on which a statement starts: the statement that ran most counts."""
        found: Dict[int, int] = {}
        for (row, _), entry in self.entries.items():
            found[row] = max(found.get(row, 0), entry.count)
        return dict(sorted(found.items()))

    def branches(self) -> Iterator[Tuple[Statement, List[Branch]]]:
        """The ways out of each statement with lists inside it. Where all lists may be passed over, the last way is that."""
        for entry in self.entries.values():
            it = entry.statement
            if it.arms:
                found = [Branch(self.source.row_of(arm.head[0]), arm, self.entered(arm.statements)) for arm in it.arms]
                counts = [branch.entered for branch in found]
                if it.form != FOR and it.arms[-1].word not in ("ELSE", "DEFAULT") and None not in counts:
                    passed = entry.count - sum(count or 0 for count in counts)
                    found.append(Branch(self.source.row_of(it.start), None, max(passed, 0)))
                yield it, found

    def add_counts(self, other: "Module") -> None:
        """Adds the counts of the same module in another cell."""
        for spot, entry in self.entries.items():
            if spot in other.entries:
                entry.count += other.entries[spot].count
                entry.entered += other.entries[spot].entered

    def entered(self, statements: List[Statement]) -> Optional[int]:
        first = first_of(statements)
        return self.entry(first).entered if first else None


def first_of(statements: List[Statement]) -> Optional[Statement]:
    """The first statement of a list that looks."""
    return next((it for it in statements if it.form != LABEL), None)


# The last place that looked in each routine of a module.
Lasts = Dict[Tuple[str, int], Entry]


@dataclass
class Walker:
    """Where a task is: its last looks outside a TRAP, and inside one while it runs one."""

    outside: Lasts = field(default_factory=dict)
    inside: Optional[Lasts] = None


class Coverage:
    """The counts of the modules of one cell, by the names that its script gives them."""

    def __init__(self, cell: Cell) -> None:
        self.modules: Dict[str, Module] = {}
        self.walkers: Dict[str, Walker] = {}
        for it in cell.modules:
            try:
                self.modules.setdefault(it.name, Module(it.file, read(it.file)))
            except OSError:
                # What gives its text only once, as a pipe, has no lines here.
                continue

    def take(self, traced: Traced) -> None:
        event, place = traced
        if place and event.kind in ("Look", "Leave"):
            self.look(event, place)

    def entry(self, place: Place) -> Optional[Entry]:
        """The statement at a place. ValueError if there is none in its module."""
        module = self.modules.get(place.module)
        entry = module.entries.get((place.row, place.column)) if module else None
        if module and not entry:
            raise ValueError(f"no statement begins at {place.module} {place.row}:{place.column}")
        return entry

    def look(self, event: Event, place: Place) -> None:
        walker = self.walkers.setdefault(event.actor, Walker())
        if event.kind == "Leave":
            walker.inside = None
        elif event.answer.startswith("Trap "):
            walker.inside = {}
        elif event.answer.startswith("Go "):
            entry = self.entry(place)
            if not entry:
                return
            lasts = walker.outside if walker.inside is None else walker.inside
            entry.count += 1
            entry.entered += is_entered(entry, lasts.get((place.module, entry.routine)))
            lasts[place.module, entry.routine] = entry


def is_entered(entry: Entry, last: Optional[Entry]) -> bool:
    """Whether a look enters the list that its statement is the first one of: the look before it, in the same routine, was outside the
    list, and not in the ERROR part, from which RETRY comes back."""
    if not entry.bounds or not last:
        return False
    first, past = entry.bounds
    return not first <= last.statement.start < past and (entry.is_handler or not last.is_handler)
