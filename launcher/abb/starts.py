"""Where an arm starts: at the first position that its task moves to, as far as the text tells."""
from dataclasses import dataclass
from typing import Iterator, List, Optional, Set

from .literals import Literals, Value, jointtarget, numbers, robtarget
from .tree import Call, Expression, Instruct, Name
from .tree_items import Routine
from .walking import nodes_in

MOVES = ("movej", "movel", "moveabsj", "moveextj", "movejdo", "moveldo", "movejsync", "movelsync")


@dataclass(frozen=True)
class Target:
    """A position: the module that declares it, its name, its value, and the value of the work object of the move, None for wobj0."""

    module: str
    name: str
    value: Value
    wobj: Optional[Value]


def first_target(literals: Literals, entry: str) -> Optional[Target]:
    """The first target with a known value of a move that a task comes to, calls followed, by the order of the text."""
    main = literals.routines.get(entry.lower())
    for it in moves_of(literals, main, set()) if main else ():
        found = target_of(literals, it)
        if found:
            return found
    return None


def moves_of(literals: Literals, routine: Routine, seen: Set[str]) -> Iterator[Instruct]:
    """The moves of a routine and of those that it calls, each routine once."""
    seen.add(routine.name.lower())
    for statement in routine.body:
        for node in nodes_in(statement):
            if isinstance(node, Instruct) and node.name.lower() in MOVES:
                yield node
            called = literals.routines.get(node.name.lower()) if isinstance(node, (Instruct, Call)) else None
            if called and called.name.lower() not in seen:
                yield from moves_of(literals, called, seen)


def target_of(literals: Literals, move: Instruct) -> Optional[Target]:
    values = [it.value for it in move.arguments if not it.option and it.value]
    if not values:
        return None
    wobj = next((it.value for it in move.arguments if it.option.lower() == "wobj"), None)
    frame = literals.value(wobj) if isinstance(wobj, Name) and wobj.name.lower() != "wobj0" else None
    return position_of(literals, values[0], frame)


def position_of(literals: Literals, node: Expression, wobj: Optional[Value]) -> Optional[Target]:
    """A named position, or one with an offset."""
    if isinstance(node, Call) and node.name.lower() == "offs" and len(node.arguments) == 4:
        values = [it.value for it in node.arguments if it.value]
        base = position_of(literals, values[0], wobj)
        way = numbers([literals.value(it) for it in values[1:]], 3)
        target = robtarget(base.value) if base else None
        if not base or not way or not target:
            return None
        moved: List[Value] = [a + b for a, b in zip(target[0], way)]
        assert isinstance(base.value, list)
        return Target(base.module, f"Offs({base.name})", [moved, *base.value[1:]], wobj)
    if not isinstance(node, Name) or node.parts or node.name.lower() not in literals.data:
        return None
    value = literals.value(node)
    module, it = literals.data[node.name.lower()]
    is_position = value is not None and (robtarget(value) or jointtarget(value))
    return Target(module, it.name, value, wobj) if is_position and value is not None else None
