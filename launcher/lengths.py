"""The places where a task keeps its data, and their first values: each array takes as many places as it has elements."""
from typing import List, NamedTuple, Sequence

from .constants import Constants, Names
from .statements import FOR, Datum, Routine, Source
from .values import Value

# A FOR has its variable, its last value and its step.
OF_FOR = ("{0}", "last value of {0}", "step of {0}")


class Room(NamedTuple):
    """A place of data: its name, the element from 1, or 0 if it is no array's, its first value, and whether it is a CONST's."""

    name: str
    element: int
    first: Value
    is_constant: bool = False

    @property
    def full_name(self) -> str:
        return f"{self.name}{{{self.element}}}" if self.element else self.name


def slots(sources: Sequence[Source]) -> List[Room]:
    """A task's module data in the order of their places: its VARs, and its CONST arrays."""
    constants = Constants(sources)
    kept = [(it, constants.names(n)) for n, source in enumerate(sources) for it in source.data]
    return [room for it, names in kept if it.kind == "VAR" or (it.kind == "CONST" and it.length) for room in rooms(constants, it, names)]


def frames(sources: Sequence[Source]) -> List[List[Room]]:
    """The data of each routine: its parameters, its VARs and CONSTs, and the FORs in it."""
    constants = Constants(sources)
    return [frame(constants, it, n, source) for n, source in enumerate(sources) for it in source.routines]


def frame(constants: Constants, routine: Routine, module: int, source: Source) -> List[Room]:
    names = constants.names(module, routine)
    found = [Room(it, 0, 0) for it in routine.params]
    for it in routine.data:
        found += rooms(constants, it, names)
    loops = [it for it in routine.walk() if it.form == FOR]
    return found + [Room(name.format(source.tokens[it.start + 1].text), 0, 0) for it in loops for name in OF_FOR]


def rooms(constants: Constants, datum: Datum, names: Names) -> List[Room]:
    found = constants.values(datum, names)
    return [Room(datum.name, k + 1 if datum.length else 0, it, datum.kind == "CONST") for k, it in enumerate(found)]
