"""The ERROR parts that a task is in: for which error, raised where, and through which calls."""
from typing import Iterator, List

from .constants import ERRORS
from .raising import Origin, Running
from .tasks import Task
from .values import ERR_DIVZERO
from .why_faults import calls


def parts(task: Task) -> List[str]:
    """A note for each, the innermost one first, and one for each call that its error went through."""
    machine = task.machine
    running = [*(it.running for it in machine.saved[1:]), machine.running]
    return [it for depth in reversed(range(len(running))) for it in part(task, running[depth], depth)]


def part(task: Task, running: Running, depth: int) -> Iterator[str]:
    """The same for a routine, which so many active ones called."""
    if not running.failed:
        return
    _, _, origin = running.failed
    pc, routine = origin.chain[0][0], task.routines[running.routine]
    entered = f"in the ERROR part of {routine.kind} {routine.name}, entered by {error_text(origin)}"
    yield f"{entered} at {task.where(pc)}: {task.line(pc)}"
    yield from calls(task, origin.chain[: len(origin.chain) - depth])


def error_text(origin: Origin) -> str:
    """An error by its number and its name, and what raised it."""
    number = int(origin.what)
    if number < ERR_DIVZERO:
        return f"error {number}, which RAISE raised"
    return f"error {number}, {ERRORS[number - ERR_DIVZERO].upper()} ({origin.about}), raised"
