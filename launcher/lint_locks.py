"""Which locks a task holds at its statements, in the order of the text: from a TestAndSet of a bool to where that is set to FALSE."""
from typing import Dict, FrozenSet, List, Optional, Set

from .lint_places import Found, Step
from .tasks import Task

Locks = FrozenSet[int]


def held_at(found: Found, task: Task) -> Dict[int, Locks]:
    """The locks, persistents by their numbers, that are held at each statement; in a called routine those of all its calls."""
    entries: Dict[int, Optional[Locks]] = {task.code.main(): frozenset()}
    held: Dict[int, Locks] = {}
    # A routine may call another one that calls a third: each round goes one call further.
    for _ in range(len(task.routines) + 1):
        before = dict(entries)
        held = {}
        for number in range(len(task.routines)):
            walk(found, task, number, entries.get(number) or frozenset(), held, entries)
        if entries == before:
            break
    return held


def walk(found: Found, task: Task, number: int, entry: Locks, held: Dict[int, Locks], entries: Dict[int, Optional[Locks]]) -> None:
    """The same for a routine. Calls give their routines the locks that are held there."""
    own: Set[int] = set(entry)
    for pc, step in sorted(found.steps[task.name].items()):
        if step.routine == number:
            held[pc] = frozenset(own)
            own |= taken(task, pc)
            own -= released(task, step)
            for called in calls(task, step):
                old = entries.get(called)
                entries[called] = frozenset(own) if old is None else old & frozenset(own)


def own_ops(task: Task, pc: int) -> List[int]:
    """The operations of a statement itself, without those of statements inside it."""
    spans = task.code.walk.spans
    return [k for k in range(pc, spans[pc][1]) if spans[k] == spans[pc]] if spans[pc] else []  # type: ignore[index]


def taken(task: Task, pc: int) -> Set[int]:
    ops = task.code.ops
    return {ops[k - 1].number() for k in own_ops(task, pc) if ops[k].name == "TestSet" and ops[k - 1].name == "Pers"}


def released(task: Task, step: Step) -> Set[int]:
    ops, found = task.code.ops, set()
    for k in own_ops(task, step.pc):
        if ops[k].name == "Store" and ops[k - 1].name == "Push" and ops[k - 1].args == "FALSE" and ops[k - 2].name == "Pers":
            found.add(ops[k - 2].number())
    return found


def calls(task: Task, step: Step) -> List[int]:
    return [task.code.ops[k].number() for k in own_ops(task, step.pc) if task.code.ops[k].name == "Call"]
