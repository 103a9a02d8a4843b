"""What the checks of `lint` look at: the tasks of a cell with their code, and the places that they tell."""
from dataclasses import dataclass
from pathlib import Path
from typing import Dict, Iterator, List, NamedTuple, Optional, Sequence, Set, Tuple

from .code import Op
from .excerpt import Place as Spot
from .statements import FOR, WHILE, Routine, Statement
from .story import Story
from .tasks import Task
from .texts import line_of
from .writers import Writers


@dataclass(frozen=True)
class At:
    """A place in a module: its file and text, the line in words, and what is said of it besides the first place."""

    file: Path
    text: bytes
    spot: Spot
    where: str
    says: str = ""

    @property
    def key(self) -> Tuple[Path, int, int]:
        return self.file, self.spot.row, self.spot.column

    @property
    def line(self) -> str:
        return line_of(self.text, self.spot.row).decode("utf-8", "replace").strip()


class Warning(NamedTuple):
    """A warning: a name for its kind, what it says, its places, and why."""

    name: str
    says: str
    places: Sequence[At]
    notes: Sequence[str]


class Step(NamedTuple):
    """A statement in the code of a task: its place there, the routine, and the statements around it, the outermost one first."""

    pc: int
    routine: int
    statement: Statement
    around: Tuple[Statement, ...]

    @property
    def is_in_loop(self) -> bool:
        return any(it.form in (WHILE, FOR) for it in self.around)


class Found:
    """A cell to be looked at."""

    def __init__(self, story: Story) -> None:
        self.story = story
        self.tasks = story.tasks
        self.writers = {it.name: Writers(it.code) for it in story.tasks}
        self.steps = {it.name: steps_of(it) for it in story.tasks}

    def step(self, task: Task, pc: int) -> Optional[Step]:
        """The statement that an operation belongs to."""
        span = task.code.walk.spans[pc]
        return self.steps[task.name].get(span[0]) if span else None

    def ops(self, task: Task, *names: str) -> Iterator[Tuple[int, Op]]:
        """The operations of these names, with their places."""
        return ((pc, op) for pc, op in enumerate(task.code.ops) if op.name in names)


def steps_of(task: Task) -> Dict[int, Step]:
    """The statements of a task by the places where their code begins."""
    starts: Dict[Tuple[int, int], int] = {}
    for pc, (op, owner) in enumerate(zip(task.code.ops, task.code.walk.owners)):
        if op.name == "Look" and owner:
            starts.setdefault((owner.module, owner.first), pc)
    found: Dict[int, Step] = {}
    number = -1
    for module, source in enumerate(task.code.sources):
        for routine in source.routines:
            number += 1
            for it, around in inside([*routine.statements, *routine.handler], ()):
                pc = starts.get((module, it.start))
                if pc is not None:
                    found[pc] = Step(pc, number, it, around)
    return found


def inside(statements: Sequence[Statement], around: Tuple[Statement, ...]) -> Iterator[Tuple[Statement, Tuple[Statement, ...]]]:
    """Statements and those inside them, each with those around it."""
    for it in statements:
        yield it, around
        for arm in it.arms:
            yield from inside(arm.statements, (*around, it))


def at(task: Task, pc: int, says: str = "") -> At:
    """The place of a statement."""
    module, text, _ = task.source(pc)
    return At(module.file, text, task.spot(pc), task.where(pc), says)


def at_token(task: Task, module: int, token: int, says: str = "") -> At:
    """The place of a token of a module."""
    source, own = task.code.sources[module], task.modules[module]
    row, column = source.place_of(token)
    return At(own.file, task.texts[module], Spot(row, column, len(source.tokens[token].text)), f"line {row} of {own.name}", says)


def reachable(task: Task) -> Set[int]:
    """The routines that a task can come to: main, those that are called, and the TRAPs that are connected."""
    code = task.code
    found, waiting = {code.main()}, [code.main()]
    links: Dict[int, List[int]] = {}
    for op, owner in zip(code.ops, code.walk.owners):
        if op.name in ("Call", "Connect") and owner:
            links.setdefault(owner.routine, []).append(op.number())
    while waiting:
        for it in links.get(waiting.pop(), []):
            if it not in found:
                found.add(it)
                waiting.append(it)
    return found


def routine_of(task: Task, step: Step) -> Routine:
    return task.routines[step.routine]
