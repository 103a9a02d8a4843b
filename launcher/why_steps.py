"""What took the steps of a task that was cut: the loops that it is in, and its steps by line."""
from typing import Dict, Iterator, List, Tuple

from .statements import FOR, WHILE, Statement
from .story import Story
from .tasks import Task, many

# How many lines are shown, and the columns of their counts.
MOST, COLUMN = 8, 13


def shares(story: Story, task: Task) -> str:
    """How many of the steps each task took."""
    others = ", ".join(f"{it.name} {it.counted:,}" for it in story.tasks if it is not task)
    return f"{task.name} took {task.counted:,} of the script's {story.script.steps:,} steps" + (f"; the others: {others}" if others else "")


def loops(task: Task) -> Iterator[str]:
    """The loops around the place where a task is, and around those that called its routine, the outermost one first."""
    looks = looks_of(task)
    for pc, _ in reversed(task.machine.chain()):
        owner = task.code.walk.owners[pc]
        assert owner
        routine = task.routines[owner.routine]
        for it in around([*routine.statements, *routine.handler], owner.first):
            places = looks.get((owner.module, it.start), [])
            if it.form in (FOR, WHILE) and places:
                count = task.looks[places[-1]]
                turns = many(count, "turn") if it.form == FOR else f"its condition was tried {many(count, 'time')}"
                yield f"in the {it.form} of {task.where(places[0])}, {turns}: {task.line(places[0])}"
        for it in routine.walk():
            word = task.code.sources[owner.module].tokens[it.start].text
            for place in looks.get((owner.module, it.start), []) if word in ("GOTO", "RETRY") else []:
                if task.looks[place] > 1:
                    yield f"{word} at {task.where(place)} ran {many(task.looks[place], 'time')}: {task.line(place)}"


def looks_of(task: Task) -> Dict[Tuple[int, int], List[int]]:
    """The places of the looks of each statement, by its module and its first token."""
    found: Dict[Tuple[int, int], List[int]] = {}
    for pc, (op, owner) in enumerate(zip(task.code.ops, task.code.walk.owners)):
        if op.name == "Look" and owner:
            found.setdefault((owner.module, owner.first), []).append(pc)
    return found


def around(statements: List[Statement], token: int) -> Iterator[Statement]:
    """The statements with lists that a token is in, the outermost one first."""
    for it in statements:
        if it.arms and it.start <= token < it.past:
            yield it
            for arm in it.arms:
                yield from around(arm.statements, token)


def lines(task: Task) -> List[str]:
    """The lines that took the most steps, in the order of the text."""
    counts: Dict[Tuple[int, int], int] = {}
    lines_of: Dict[Tuple[int, int], str] = {}
    for pc, count in task.events.items():
        owner = task.code.walk.owners[pc] if pc >= 0 else None
        if owner:
            key = owner.module, task.spot(pc).row
            counts[key] = counts.get(key, 0) + count
            lines_of[key] = f"{task.where(pc)}: {task.line(pc)}"
    most = sorted(counts, key=lambda key: -counts[key])[:MOST]
    return [f"{counts[key]:>{COLUMN},}  {lines_of[key]}" for key in sorted(most)]
