"""What the parameters of a routine become: the parameters that the routine has in the cell, and the arguments for them."""
from dataclasses import dataclass
from typing import TYPE_CHECKING, List

from . import types
from .expressions import is_dropped
from .job import plain
from .tree import Name
from .tree_items import Parameter, Routine
from .walking import nodes_in

if TYPE_CHECKING:
    from .rendering import Rendering

SWITCH = "switch"


@dataclass(frozen=True)
class Slot:
    """A parameter in the cell. `role` says what it holds of the original one: `given` whether it is there, `value` its value, `part` a
    component of a record (`number` counts them), `signal` the number of a signal, `frame` that of a work object."""

    role: str
    kind: str
    type: str
    name: str
    number: int = 0

    @property
    def text(self) -> str:
        return f"{self.kind} {self.type} {self.name}".lstrip()


def slots_of(at: "Rendering", routine: Routine, it: Parameter) -> List[Slot]:
    """The parameters in the cell for one of the controller; none where nothing of it remains."""
    base = at.base(it.type)
    if base == SWITCH:
        return [Slot("given", "", "bool", plain(it.name))]
    found = value_slots(at, it, base)
    if it.is_optional and (found or is_asked(routine, it.name)):
        return [Slot("given", "", "bool", given_name(at, it.name)), *found]
    return found


def value_slots(at: "Rendering", it: Parameter, base: str) -> List[Slot]:
    if base in types.SIGNALS:
        return [Slot("signal", "", "num", plain(it.name))]
    if base == types.WORK_OBJECT:
        return [Slot("frame", "", "num", plain(it.name))] if at.job.reading.is_places else []
    if is_dropped(at, base):
        return []
    if it.dimensions:
        return []
    if at.job.names.fields(at.text, base) is None:
        return [Slot("value", it.kind, types.renamed(base), plain(it.name))]
    leaves = at.job.names.leaves(at.text, base)
    return [
        Slot("part", it.kind, types.renamed(kind), at.job.of_parts(it.name, *names), number) for number, (names, kind) in enumerate(leaves)
    ]


def given_name(at: "Rendering", name: str) -> str:
    """The name of the bool that says whether an optional parameter is there."""
    return at.job.of_parts("has", name)


def is_asked(routine: Routine, name: str) -> bool:
    """Whether a routine asks if an optional parameter is there, or passes it on with a question mark."""
    small = name.lower()
    for node in nodes_in(routine):
        if isinstance(node, Name) and node.name.lower() == small:
            return True
        if getattr(node, "given", "").lower() == small:
            return True
    return False


def has_lost_array(at: "Rendering", routine: Routine) -> bool:
    """Whether a routine takes an array of any length, of a type that stays."""
    return any(it.dimensions and not is_dropped(at, it.type) for it in routine.parameters)
