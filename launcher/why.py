"""`why CELL`: how each task of a run ended, where, and why."""
import os
from dataclasses import replace
from pathlib import Path
from typing import Dict, Iterator, List, NamedTuple, Optional, Sequence

from . import program, why_errors, why_faults, why_steps, why_zones
from .events import Run, is_open, read_events
from .excerpt import excerpt, note
from .hints import shown_word
from .listing import Listing
from .program import Answer, Program
from .rings import ring_lines, rings
from .say import REFUSED, say
from .story import Story
from .tasks import OPEN, Task
from .why_waits import Edges, Waits

# How many columns are marked below a statement.
WIDEST = 80


class Reason(NamedTuple):
    """Why a task ended as it did: the place in its code, a label for that, notes, and lines below them."""

    pc: int
    label: str
    notes: List[str]
    lines: Sequence[str] = ()


def explained(found: Program, name: bytes, file: Path, run: Run, is_coloured: bool) -> Answer:
    """Runs the cell, or reads a history of it, and answers why the run ended so."""
    lines: List[str] = []
    listed = program.read(found, [b"list", name], lines.extend)
    if listed.status:
        return listed
    try:
        story = Story(file, Listing(lines), why_faults.notes_of)
    except OSError as error:
        say(f"why reads the modules a second time: {shown_word(os.fsencode(error.filename or ''))} is no regular file any more")
        return Answer(REFUSED, b"", b"")
    answer = read_events(found, name, run, story.take)
    if run.history is not None and not answer.status:
        story.settle(is_open(answer))
    if any(not it.fate for it in story.tasks):
        return answer
    text = "".join(f"{line}\n" for line in lines_of(story, is_coloured))
    return Answer(answer.status, text.encode("utf-8", "surrogateescape"), answer.err)


def lines_of(story: Story, is_coloured: bool) -> Iterator[str]:
    waits, edges = Waits(story), {}
    for number, task in enumerate(story.tasks):
        if number:
            yield ""
        yield from of_task(story, task, waits, edges, is_coloured)
    for ring in rings(edges):
        yield ""
        yield from ring_lines(ring, edges)
    if story.watching.caught:
        yield ""
        yield from why_zones.all_caught(story)


def of_task(story: Story, task: Task, waits: Waits, edges: Dict[str, Edges], is_coloured: bool) -> Iterator[str]:
    """A screen about a task."""
    at = f", after event {task.number}" if task.number >= 0 and task.fate not in ("Done", "Exit") else ""
    yield f"{head_of(task)}{at}"
    reason = reason_of(story, task, waits, edges)
    if reason:
        yield from shown(task, reason, is_coloured)
        yield from reason.lines


def reason_of(story: Story, task: Task, waits: Waits, edges: Dict[str, Edges]) -> Optional[Reason]:
    """Why a task ended so. What each other task could do for it is added to the edges, if it waits."""
    machine = task.machine
    if task.fate == "Done":
        return None
    if task.fate.startswith("Fault") and machine.origin:
        later = [f"later it became {task.later.value}, by {story.by(task.later)}"] if task.later else []
        notes = [*task.notes, *later, *why_faults.meaning(task)]
        return Reason(machine.origin.chain[0][0], task.fate[len("Fault ") :], notes)
    shares = [why_steps.shares(story, task)] if task.fate == "Cut" else []
    if machine.asked == "Rise":
        wait = waits.of(task)
        edges[task.name] = wait.edges
        return Reason(machine.pc, "waits here", [*shares, *wait.notes, *why_errors.parts(task)])
    if task.fate not in ("Cut", OPEN):
        return Reason(machine.pc, "", [])
    notes = [*shares, *why_faults.called(task, machine.chain()), *why_errors.parts(task)]
    if task.fate == OPEN:
        return Reason(machine.pc, "is here", notes)
    return Reason(machine.pc, "is here", [*notes, *why_steps.loops(task), "its steps by line:"], why_steps.lines(task))


def head_of(task: Task) -> str:
    if task.fate == OPEN:
        return f"{task.name} goes on where the history ends"
    heads = {"Done": f"{task.name} is Done: main came to its end", "Exit": f"{task.name} ended by EXIT"}
    return heads.get(task.fate, f"{task.name}: {task.fate}")


def shown(task: Task, reason: Reason, is_coloured: bool) -> Iterator[str]:
    """The line of a statement with a caret, and the notes below it."""
    module, text, _ = task.source(reason.pc)
    spot = task.spot(reason.pc)
    yield from excerpt(module.file, text, replace(spot, length=min(spot.length, WIDEST)), reason.label, is_coloured)
    for it in reason.notes:
        yield from note(it, len(str(spot.row)), is_coloured)
