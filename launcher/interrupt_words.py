"""An interrupt in words: its TRAP, its order, whether it sleeps, and how often it waits in the queue."""
from typing import Dict, List, Tuple

from .interrupts import Interrupt
from .story import Story
from .tasks import Task

# The events from which on an interrupt is so, and how it is.
Course = Tuple[List[int], List[str]]


def words_of(story: Story, task: Task, it: Interrupt) -> str:
    parts = [f"TRAP {task.routines[it.trap].name}", order_of(story, it)]
    parts += ["asleep"] if it.sleeps else []
    parts += [f"{it.waiting} queued"] if it.waiting else []
    return ", ".join(parts)


def order_of(story: Story, it: Interrupt) -> str:
    """What an interrupt is ordered on."""
    if not it.watched:
        return "no order"
    once = ", once" if it.is_single else ""
    if it.watched.startswith("D"):
        signal, value = it.watched[1:].split()
        return f"when {story.names['D'][int(signal)]} becomes {value}{once}"
    return f"when {story.names['P'][int(it.watched[1:])]} changes{once}"


class Courses:
    """How the interrupts of a run went, each by its task and its variable: for the rows of a page."""

    def __init__(self, story: Story) -> None:
        self.story = story
        self.of: Dict[str, Course] = {}
        self.last: Dict[Tuple[str, int], Tuple[str, str]] = {}

    def take(self) -> None:
        """Notes what the last event has changed."""
        now: Dict[Tuple[str, int], Tuple[str, str]] = {}
        for task in self.story.tasks:
            held = ", disabled" if self.story.interrupts.disabled.get(task.name) is not None else ""
            for number, it in self.story.interrupts.of.get(task.name, {}).items():
                name = f"{task.name} {task.machine.interrupts[number]}"
                now[task.name, number] = name, words_of(self.story, task, it) + held
        for key, (name, _) in self.last.items():
            if key not in now:
                self.put(name, "deleted")
        for key, (name, words) in now.items():
            if self.last.get(key) != (name, words):
                self.put(name, words)
        self.last = now

    def put(self, name: str, words: str) -> None:
        events, values = self.of.setdefault(name, ([], []))
        events.append(self.story.count - 1)
        values.append(words)
