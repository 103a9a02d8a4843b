"""Warnings about a task's course: a RAISE of a number that none may have, and loops that poll."""
from typing import Iterator, Set

from .lint_places import Found, Step, Warning, at, reachable
from .raising import MOST_OWN_ERROR
from .statements import WHILE
from .tasks import Task
from .values import UNIT, read_value, shown


def raises_out_of_range(found: Found) -> Iterator[Warning]:
    for task in found.tasks:
        alive = reachable(task)
        for pc, _ in found.ops(task, "Raise"):
            step, before = found.step(task, pc), task.code.ops[pc - 1]
            value = read_value(before.args) if before.name == "Push" else UNIT
            is_wrong = isinstance(value, int) and (value % UNIT or not UNIT <= value <= MOST_OWN_ERROR * UNIT)
            if step and step.routine in alive and is_wrong:
                note = f"RAISE gives a whole number from 1 to {MOST_OWN_ERROR}: this statement is the fault RaiseRange whenever it runs"
                yield Warning("RaiseRange", f"the number is {shown(value)}", [at(task, pc)], [note])


def polls(found: Found) -> Iterator[Warning]:
    """A WHILE with a WaitTime in which nothing waits."""
    for task in found.tasks:
        alive, waiting = reachable(task), routines_that_wait(task)
        for step in found.steps[task.name].values():
            is_loop = step.statement.form == WHILE and step.routine in alive and has_wait_time(task, step)
            if is_loop and not waits_inside(task, step, waiting):
                notes = [
                    f"WaitTime takes no time here, so the turns take the script's {found.story.script.steps:,} steps from all tasks",
                    "write instead: WaitUntil with the condition that it looks for",
                ]
                yield Warning("Polls", "this loop polls: nothing in it waits", [at(task, step.pc)], notes)


def has_wait_time(task: Task, step: Step) -> bool:
    owner = task.code.walk.owners[step.pc]
    assert owner
    tokens = task.code.sources[owner.module].tokens
    return any(tokens[it.start].is_name("WaitTime") for it in step.statement.walk())


def waits_inside(task: Task, step: Step, waiting: Set[int]) -> bool:
    """Whether a statement of a loop may be held, moves the arm, or leaves the loop."""
    span = task.code.walk.spans[step.pc]
    assert span
    return any(is_wait(it.name) or (it.name == "Call" and it.number() in waiting) for it in task.code.ops[span[0] : span[1]])


def is_wait(name: str) -> bool:
    return name in ("Wait", "Point", "Exit")


def routines_that_wait(task: Task) -> Set[int]:
    """The routines in which a task may be held, also in those that they call."""
    found: Set[int] = set()
    pairs = [(owner.routine, op) for op, owner in zip(task.code.ops, task.code.walk.owners) if owner]
    while True:
        more = {number for number, op in pairs if is_wait(op.name) or (op.name == "Call" and op.number() in found)}
        if more <= found:
            return found
        found |= more
