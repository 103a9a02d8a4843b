"""The data of a task while it runs: what its modules and its active routines keep."""
from dataclasses import dataclass
from typing import Any, Dict, List, NamedTuple, Sequence

from . import values
from .lengths import Room

MODULE, ROUTINE, SHARED = "module", "routine", "persistent"
# What a datum holds: a value, the number of an interrupt or a zone, a shape, or, of a reference, a place.
Held = Any


class Shape(NamedTuple):
    """A shape of world zones that was defined: the side, and a low and a high bound of each axis that has bounds, from 0."""

    is_inside: bool
    bounds: Dict[int, List[int]]


class Place(NamedTuple):
    """A place of data: its root; the active routine, or the number of the persistent; its number there; and the part of it. Of a
    persistent the number is that of the element, or 0."""

    root: str
    owner: int
    number: int
    part: str = ""

    @property
    def path(self) -> str:
        """A persistent as a history writes it."""
        return f"P{self.owner}" + (f"{{{self.number}}}" if self.number else "") + self.part


@dataclass
class Frame:
    """An active routine, by its number, and its data."""

    routine: int
    held: List[Held]


class Memory:
    """The data of a task. `rooms` has the places of the modules and of each routine, `persistents` the names in the cell."""

    def __init__(self, slots: Sequence[Room], rooms: Sequence[Sequence[Room]], persistents: Sequence[str]) -> None:
        self.slots, self.rooms, self.persistents = slots, rooms, persistents
        self.modules: List[Held] = [it.first for it in slots]
        self.frames: List[Frame] = []
        # What the statement has read, by its places.
        self.reads: Dict[Place, Held] = {}

    def name(self, place: Place) -> str:
        """A place as its module names it."""
        if place.root == SHARED:
            return self.array(place) + (f"{{{place.number}}}" if place.number else "") + place.part
        return self.room(place).full_name + place.part

    def array(self, place: Place) -> str:
        """The name of the datum that a place belongs to."""
        return self.persistents[place.owner] if place.root == SHARED else self.room(place).name

    def room(self, place: Place) -> Room:
        return (self.slots if place.root == MODULE else self.rooms[self.frames[place.owner].routine])[place.number]

    def is_there(self, place: Place) -> bool:
        """Whether the routine of a place is still active."""
        return place.root != ROUTINE or place.owner < len(self.frames)

    def cells(self, place: Place) -> List[Held]:
        return self.modules if place.root == MODULE else self.frames[place.owner].held

    def get(self, place: Place) -> Held:
        held = self.cells(place)[place.number]
        return values.part(held, place.part) if place.part else held

    def put(self, place: Place, new: Held) -> None:
        cells = self.cells(place)
        old = cells[place.number]
        cells[place.number] = values.with_part(old, place.part, new) if place.part else new
