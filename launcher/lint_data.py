"""Warnings about persistents and outputs: updates that can be lost, first values that differ, outputs that stay set."""
from typing import Dict, FrozenSet, Iterator, List, NamedTuple, Optional, Tuple

from .code import Op
from .constants import Constants
from .lint_locks import held_at
from .lint_places import At, Found, Warning, at, at_token, reachable
from .tasks import Task
from .values import shown
from .writers import Writers

# A persistent by its number, and its element, or 0 for the whole or for one that only the run shows.
Part = Tuple[int, int]
# The operation that names a persistent.
SHARED = "Pers"


class Root(NamedTuple):
    """A datum that an operation names: the operation, its number, and the element as above."""

    kind: str
    number: int
    element: int


class Update(NamedTuple):
    """A read of a persistent and the write of a value that was made of it: the places in the code, and the locks that are held all the
    while."""

    read: int
    write: int
    locks: FrozenSet[int]


def lost_updates(found: Found) -> Iterator[Warning]:
    each = [(task, updates_of(found, task)) for task in found.tasks]
    for k, (task, own) in enumerate(each):
        for part, first in own.items():
            for other, others in each[k + 1 :]:
                second = next((it for at_part, it in others.items() if meets(part, at_part)), None)
                if second and not first.locks & second.locks:
                    yield lost(found, part[0], (task, first), (other, second))


def meets(one: Part, other: Part) -> bool:
    return one[0] == other[0] and (one[1] == other[1] or 0 in (one[1], other[1]))


def lost(found: Found, number: int, *both: Tuple[Task, Update]) -> Warning:
    name = found.story.names["P"][number]
    places: List[At] = []
    for task, it in both:
        places.append(at(task, it.read, f"{task.name} reads it"))
        if task.spot(it.write) != task.spot(it.read):
            places.append(at(task, it.write, f"{task.name} writes it"))
    names = " and ".join(task.name for task, _ in both)
    notes = [
        "the read and the write are two events: what the other task writes between them is lost",
        "write instead: WaitTestAndSet before the read, and after the write the lock := FALSE",
    ]
    return Warning("LostUpdate", f"{names} each read {name} and write what they made of it, without a lock", places, notes)


def updates_of(found: Found, task: Task) -> Dict[Part, Update]:
    """The first update of each shared persistent that holds the fewest locks."""
    locks, result = held_at(found, task), {}
    for read, write, part in pairs(found, task):
        it = Update(read, write, locks.get(read, frozenset()) & locks.get(write, frozenset()))
        if part not in result or len(it.locks) < len(result[part].locks):
            result[part] = it
    return result


def pairs(found: Found, task: Task) -> Iterator[Tuple[int, int, Part]]:
    """A statement that reads a persistent and a statement that writes it: the same one, or one that writes a VAR that the first set."""
    copies: Dict[Tuple[int, Root], Tuple[int, Root]] = {}
    alive = reachable(task)
    for pc, step in sorted(found.steps[task.name].items()):
        if step.routine not in alive or step.statement.arms:
            continue
        reads, written = touched(found.writers[task.name], pc)
        if written and written.kind == SHARED:
            part = written.number, written.element
            yield from ((pc, pc, part) for it in reads if it.kind == SHARED and meets((it.number, it.element), part))
            for first, root in filter(None, (copies.get((step.routine, it)) for it in reads)):
                if meets((root.number, root.element), part):
                    yield first, pc, part
        elif written:
            made_of = [(pc, it) if it.kind == SHARED else copies.get((step.routine, it)) for it in reads]
            copies.pop((step.routine, written), None)
            copies.update({(step.routine, written): it for it in made_of if it})


def touched(writers: Writers, pc: int) -> Tuple[List[Root], Optional[Root]]:
    """The data that a statement reads, and the one that it writes, if it writes one."""
    ops, span = writers.code.ops, writers.code.walk.spans[pc]
    stack: List[Optional[Root]] = []
    reads: List[Root] = []
    written: Optional[Root] = None
    for k in range(pc + 1, span[1] if span else pc + 1):
        op = ops[k]
        if op.name in (SHARED, "Slot", "Local"):
            stack.append(Root(op.name, op.number(), element(writers, k)))
        elif op.name in ("Dup", "Over"):
            stack += stack[-1:] if op.name == "Dup" else stack[-2:-1]
        elif op.name == "Index":
            del stack[-1:]
        elif op.name == "Load":
            reads += [it for it in stack[-1:] if it]
            stack[-1:] = [None]
        else:
            if op.name == "Store" and len(stack) > 1:
                written = stack[-2]
            writers.pop(stack, op)
    return reads, written


def element(writers: Writers, pc: int) -> int:
    """The element of an array that an index names, if the index is a constant."""
    index, name = writers.code.ops[pc + 1 : pc + 3] if pc + 2 < len(writers.code.ops) else (Op("", ""), Op("", ""))
    return int(index.args) if index.name == "Push" and name.name == "Index" and index.args.isdigit() else 0


# First values


def first_values(found: Found) -> Iterator[Warning]:
    """A persistent whose tasks give it different first values."""
    first: Dict[str, Tuple[str, At]] = {}
    for task in found.tasks:
        constants = Constants(task.code.sources)
        for module, source in enumerate(task.code.sources):
            for it in source.data:
                is_own = it.is_local or source.tokens[it.name_at - 3].text == "TASK"
                if it.kind != "PERS" or is_own or not it.value:
                    continue
                value = ", ".join(shown(held) for held in constants.values(it, constants.names(module)))
                place = at_token(task, module, it.name_at, f"{task.name} gives it {value}")
                old = first.setdefault(it.name.lower(), (value, place))
                if old[0] != value:
                    notes = [f"it starts as {old[0]}: the task that comes first in the script wins"]
                    yield Warning("FirstValue", f"the tasks give {it.name} different first values", [old[1], place], notes)


# Outputs


def never_reset(found: Found) -> Iterator[Warning]:
    """An output that statements set, and that nothing resets."""
    script = found.story.script
    for number, signal in enumerate(script.signals):
        each = [(task, pc) for task in found.tasks for pc in found.writers[task.name].signals.get(number, [])]
        writes = [(task, pc) for task, pc in each if is_alive(found, task, pc)]
        values = {value_at(task, pc) for task, pc in writes}
        if signal.kind == "do" and values == {"1"}:
            places = [at(task, pc, f"{task.name} sets it") for task, pc in writes[:3]]
            note = "from then on it stays 1: a wait for 1 does not wait again, and ISignalDO does not fire again"
            yield Warning("NeverReset", f"{signal.name} is set, and no statement resets it", places, [note])


def is_alive(found: Found, task: Task, pc: int) -> bool:
    step = found.step(task, pc)
    return step is not None and step.routine in reachable(task)


def value_at(task: Task, pc: int) -> str:
    """The value that an operation writes, if it is a constant."""
    op, before = task.code.ops[pc], task.code.ops[pc - 1]
    return before.args if op.name == "PutSignal" and before.name == "Push" else ""
