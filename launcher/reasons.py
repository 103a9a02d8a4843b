"""Why the tasks of a run ended, for the page of `show`: what `why` says."""
from typing import Any, Dict, List

from . import why_faults
from .caught import START
from .rings import ring_lines, rings
from .story import Story
from .why import reason_of
from .why_waits import Edges, Waits
from .why_zones import caught, stood


def reasons_of(story: Story) -> List[List[str]]:
    """The notes of each task; those of a ring of tasks that wait for one another come with each of them."""
    waits = Waits(story)
    edges: Dict[str, Edges] = {}
    found: Dict[str, List[str]] = {}
    for task in story.tasks:
        reason = reason_of(story, task, waits, edges)
        # What a fault means stands beside these notes.
        means = list(why_faults.meaning(task))[:1] if task.has_failed else []
        notes = [] if reason is None else [it for it in (*reason.notes, *reason.lines) if it not in means]
        found[task.name] = [] if reason is None else lines_of(task.where(reason.pc), reason.label, notes)
    for ring in rings(edges):
        for name in ring:
            found[name] += ring_lines(ring, edges)
    return [found[it.name] for it in story.tasks]


def lines_of(where: str, label: str, notes: List[str]) -> List[str]:
    return [f"{label} at {where}" if label else f"at {where}", *(" ".join(it.split()) for it in notes)]


def caught_of(story: Story) -> List[Dict[str, Any]]:
    """The zones that became watched while an arm stood in them, each at its event; one from the start is at event 0."""
    found = []
    for it in story.watching.caught:
        event = 0 if it.by == START else it.by.event
        found.append({"event": event, "task": it.task, "words": f"{caught(story, it).rstrip(';')}; {stood(story, it).rstrip(';')}"})
    return found
