"""A warning about meetings: tasks whose lists can never name the same tasks."""
from typing import Dict, Iterator, List, NamedTuple, Optional, Set

from .code import Op
from .constants import Constants
from .lint_places import Found, Warning, at, reachable
from .tasks import Task


class Coming(NamedTuple):
    """A WaitSyncTask: its task, its place in the code, and the tasks that it waits with, itself among them."""

    task: Task
    pc: int
    names: Set[str]


def never_agree(found: Found) -> Iterator[Warning]:
    """Two tasks at one meeting, one of which always lists the other one, which never lists it."""
    meetings: Dict[int, List[Coming]] = {}
    unknown: Set[int] = set()
    for task in found.tasks:
        alive = reachable(task)
        for pc, op in found.ops(task, "Arrive"):
            step = found.step(task, pc)
            if step and step.routine in alive:
                names = listed(task, pc)
                if names is None:
                    unknown.add(op.number())
                else:
                    meetings.setdefault(op.number(), []).append(Coming(task, pc, names | {task.name}))
    for number, comings in sorted(meetings.items()):
        if number not in unknown:
            yield from of_meeting(found.story.names["G"][number], comings)


def of_meeting(name: str, comings: List[Coming]) -> Iterator[Warning]:
    for k, one in enumerate(comings):
        for other in comings[k + 1 :]:
            if one.task is not other.task and is_one_sided(one.task, other.task, comings):
                yield disagreeing(name, one, other)


def is_one_sided(one: Task, other: Task, comings: List[Coming]) -> bool:
    """Whether no lists of two tasks name the same tasks, and one of the two waits with the other."""
    ours, theirs = ([it.names for it in comings if it.task is task] for task in (one, other))
    return not any(it in theirs for it in ours) and (any(other.name in it for it in ours) or any(one.name in it for it in theirs))


def disagreeing(name: str, one: Coming, other: Coming) -> Warning:
    lists = [f"{it.task.name} waits with {', '.join(sorted(it.names - {it.task.name})) or 'nobody'}" for it in (one, other)]
    says = f"the lists of {one.task.name} and {other.task.name} for {name} never name the same tasks"
    note = f"{lists[0]}, and {lists[1]}: so one goes on without the other, or waits for one that does not wait for it"
    return Warning("NeverAgree", says, [at(one.task, one.pc), at(other.task, other.pc, f"{other.task.name} is here")], [note])


def listed(task: Task, pc: int) -> Optional[Set[str]]:
    """The names in the list of a WaitSyncTask, if it never changes."""
    at_set = next(k for k in range(pc, -1, -1) if task.code.ops[k].name == "TaskSet")
    root, count = task.code.ops[at_set - 1], task.code.ops[at_set].number()
    if root.name == "Slot":
        rooms = task.code.slots[root.number() : root.number() + count]
        return {str(it.first) for it in rooms} if rooms[0].is_constant or is_only_listed(task, root) else None
    if root.name == "Pers":
        return first_names(task, root.number()) if is_only_listed(task, root) else None
    return None


def is_only_listed(task: Task, root: Op) -> bool:
    """Whether the code has an array only as the list of a meeting."""
    ops = task.code.ops
    return all(ops[k + 1].name == "TaskSet" for k, it in enumerate(ops) if it == root)


def first_names(task: Task, number: int) -> Optional[Set[str]]:
    """The first values of a persistent list."""
    name, constants = task.machine.persistents[number].lower(), Constants(task.code.sources)
    for module, source in enumerate(task.code.sources):
        for it in source.data:
            if it.kind == "PERS" and it.name.lower() == name:
                return {str(held) for held in constants.values(it, constants.names(module))}
    return None
