"""Why a task ended with a fault: what it means, its values, and how the task came there."""
from typing import Callable, Dict, Iterator, List, Sequence

from . import why_zones
from .constants import ERRORS
from .explain import cause_of, instead_of
from .raising import TRAPPED, Link, Origin
from .memory import Held, Place, Shape
from .story import Story
from .tasks import Task, many
from .values import ERR_DIVZERO, Mark, shown

# How many values that a statement has read are shown, how many calls from each end, and how many kinds of interrupts.
MOST_READ, MOST_CALLS, MOST_KINDS = 6, 4, 4


def notes_of(story: Story, task: Task) -> List[str]:
    """Why a task ends with a fault, at the event at which it does."""
    assert task.machine.origin
    return list(said(story, task, task.machine.origin))


def said(story: Story, task: Task, origin: Origin) -> Iterator[str]:
    name = task.fate.split()[1]
    about = raised(origin) if name == "Unhandled" else origin.about
    if about:
        yield about
    yield from OWN.get(name, lambda story, task: [])(story, task)
    read = [f"{path} is {shown(value)}" for path, value in origin.read if is_value(value)]
    if read:
        yield ", ".join(read[:MOST_READ])
    yield from called(task, origin.chain)
    if name == "Unhandled":
        yield from unhandled(task, origin)


def is_value(held: Held) -> bool:
    """Whether a datum has a value that can be shown, and is no interrupt, zone or shape."""
    return held is not None and not isinstance(held, (Mark, Shape, Place))


def raised(origin: Origin) -> str:
    """An error by its number and its name, and what raised it."""
    number = int(origin.what)
    if number < ERR_DIVZERO:
        return f"error {number} is raised here, by RAISE"
    return f"{origin.about}: error {number}, {ERRORS[number - ERR_DIVZERO].upper()}"


def called(task: Task, chain: Sequence[Link]) -> List[str]:
    """From where the active routines were called, the innermost one first."""
    notes = list(calls(task, chain))
    left_out = len(notes) - 2 * MOST_CALLS
    if left_out > 1:
        notes[MOST_CALLS : len(notes) - MOST_CALLS] = [f"and so on: {left_out} calls are left out here"]
    return notes


def calls(task: Task, chain: Sequence[Link]) -> Iterator[str]:
    """A note for each call, or for several in a row from the same place."""
    at = 1
    while at < len(chain):
        pc, how = chain[at]
        count = 1
        while at + count < len(chain) and chain[at + count] == chain[at]:
            count += 1
        times = f" {many(count, 'time')}, one inside the other," if count > 1 else ""
        verb = "interrupted" if how == TRAPPED else f"was called{times} at"
        yield f"{task.routine(chain[at - 1][0])} {verb} {task.where(pc)}: {task.line(pc)}"
        at += count


def unhandled(task: Task, origin: Origin) -> Iterator[str]:
    """Which ERROR parts the error went through."""
    names = [f"{task.routines[it].kind} {task.routines[it].name}" for it in origin.parts]
    if names:
        yield f"the ERROR part of {' and of '.join(names)} ran for it, but neither RETRY, TRYNEXT nor RETURN ended it there"
    elif origin.before:
        pc = origin.before.chain[0][0]
        yield f"this is in an ERROR part, which was entered by error {origin.before.what} at {task.where(pc)}: {task.line(pc)}"
    else:
        yield "none of the routines on the way has an ERROR part that could handle it"


# Notes of single faults


def moved_in_trap(story: Story, task: Task) -> List[str]:
    number = task.machine.trap
    return [f"interrupt {number}, `{task.machine.interrupts[number]}`, is running its TRAP"] if number is not None else []


def no_return(story: Story, task: Task) -> List[str]:
    assert task.machine.origin
    return [f"{task.routine(task.machine.origin.chain[0][0])} came to its end without a RETURN"]


def flooded(story: Story, task: Task) -> List[str]:
    """Which interrupts fill the queue, and what holds them back."""
    alike: Dict[str, List[int]] = {}
    of_task = story.interrupts.of[task.name]
    for number, it in sorted(of_task.items()):
        if it.waiting:
            alike.setdefault(f"TRAP {task.routines[it.trap].name}, {watched(story, it.watched)}", []).append(number)
    notes = []
    for words, numbers in list(alike.items())[:MOST_KINDS]:
        name = f"`{task.machine.interrupts[numbers[0]]}`" + (f" and {len(numbers) - 1} others" if numbers[1:] else "")
        count = sum(of_task[it].waiting for it in numbers)
        notes.append(f"{name} fired {many(count, 'time')} for which no TRAP has run yet: {words}")
    disabled = story.interrupts.disabled.get(task.name)
    if disabled is not None:
        notes.append(f"IDisable holds all TRAPs back since event {disabled}")
    elif task.machine.trap is not None:
        notes.append(f"they wait for the TRAP that is running, of `{task.machine.interrupts[task.machine.trap]}`")
    return notes


def watched(story: Story, words: str) -> str:
    """What an interrupt is ordered on."""
    if words.startswith("D"):
        signal, value = words[1:].split()
        return f"each time that {story.names['D'][int(signal)]} becomes {value}"
    return f"each time that {story.names['P'][int(words[1:])]} changes" if words else "without an order now"


def traps(story: Story, task: Task) -> Iterator[str]:
    """The interrupts of a task, which alone could change its own data while it waits."""
    of_task = story.interrupts.of.get(task.name, {})
    for number, it in sorted(of_task.items()):
        state = ", asleep" if it.sleeps else ""
        yield f"`{task.machine.interrupts[number]}`: TRAP {task.routines[it.trap].name}, {watched(story, it.watched)}{state}"
    if not of_task:
        yield "no interrupt of the task is connected to a TRAP"
    elif story.interrupts.disabled.get(task.name) is not None:
        yield f"IDisable holds all TRAPs back since event {story.interrupts.disabled[task.name]}"


OWN: Dict[str, Callable[[Story, Task], List[str]]] = {
    "ZoneStop": why_zones.stopped,
    "TiedOutput": why_zones.tied,
    "ZoneFull": lambda story, task: why_zones.full(task),
    "ZoneUsed": lambda story, task: why_zones.used(task),
    "MoveInTrap": moved_in_trap,
    "NoReturn": no_return,
    "TrapFlood": flooded,
}


def meaning(task: Task) -> Iterator[str]:
    """What a fault means in general, by the documents."""
    name, what = task.fate.split()[1], task.fate.split()[-1]
    yield f"{name} means: {cause_of(name)}"
    yield f"write instead: {instead_of(what) or instead_of(name)}"
