"""What is said below the lines of `state`: the interrupts of the tasks."""
import os
from pathlib import Path
from typing import Iterator, List, Sequence

from . import hints, program
from .events import Run, read_events
from .hints import HISTORY
from .interrupt_words import words_of
from .listing import Listing
from .program import Program
from .story import Story


def notes(found: Program, words: Sequence[bytes]) -> List[str]:
    """The notes for the words of a `state` that the program has answered. None if a file gives its text only once."""
    _, name, history = (it for it in words if it != HISTORY)
    if hints.is_read_once(name) or hints.is_read_once(history):
        return []
    lines: List[str] = []
    program.read(found, [b"list", name], lines.extend)
    story = Story(Path(os.fsdecode(name)), Listing(lines), lambda story, task: [])
    read_events(found, name, Run(history=history), story.take)
    return list(of_tasks(story))


def of_tasks(story: Story) -> Iterator[str]:
    """Each interrupt of each task, and whether IDisable holds them back."""
    for task in story.tasks:
        for number, it in sorted(story.interrupts.of.get(task.name, {}).items()):
            yield f"{task.name} interrupt {number}, `{task.machine.interrupts[number]}`: {words_of(story, task, it)}"
        disabled = story.interrupts.disabled.get(task.name)
        if disabled is not None:
            yield f"{task.name}: IDisable holds all TRAPs back since event {disabled}"
