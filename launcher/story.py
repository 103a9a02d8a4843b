"""The story of a run: its tasks along its events, and what changed last and by whom."""
from collections import Counter
from pathlib import Path
from typing import Callable, Dict, Iterator, List, NamedTuple, Optional, Tuple

from . import lengths, script, texts
from .caught import Watching
from .code import Misfit, Walk
from .history import INPUTS, Event, end_of
from .interrupts import Interrupts
from .listing import Listing
from .machine import Machine
from .pulses import Pulses
from .raising import Code
from .replay import Replay
from .statements import source_of
from .tasks import OPEN, Change, Task
from .texts import Cell, read_cell
from .trace import Reader, Traced
from .values import read_value

# The events that the steps of a script do not count.
UNCOUNTED = ("Input", "End")


class Stand(NamedTuple):
    """A task at a meeting: how often it went on there, whether it waits, and which tasks it listed last, bit k for task k."""

    passed: int = 0
    waits: bool = False
    listed: int = 0

    @property
    def arrivals(self) -> int:
        return self.passed + self.waits


class Story:
    """A run. `explain` gives the notes of a task at the event at which it ends with a fault, as the cell is then."""

    def __init__(self, file: Path, listing: Listing, explain: "Callable[[Story, Task], List[str]]") -> None:
        self.explain = explain
        self.cell: Cell = read_cell(file)
        self.names = listing.names
        self.script = script.parse(self.cell.text)
        self.replay = Replay(self.script)
        self.reader = Reader(it.name for it in self.cell.modules)
        self.count = self.counted = self.inputs = 0
        self.signals: Dict[int, Change] = {}
        self.persistents: Dict[str, Change] = {}
        self.meetings: Dict[Tuple[int, int], Stand] = {}
        self.interrupts = Interrupts()
        self.watching, self.pulses = Watching(self.script, self.own_zone), Pulses()
        # How many setpoints each arm was given.
        self.given: Dict[str, int] = Counter()
        self.tasks = [self.task(number, listing) for number in range(len(self.script.tasks))]
        self.by_name = {it.name: it for it in self.tasks}

    def task(self, number: int, listing: Listing) -> Task:
        it, modules = self.script.tasks[number], self.cell.of_task(number)
        held = [texts.read(module.file) for module in modules]
        sources = [source_of(text) for text in held]
        ops = listing.code[it.name]
        try:
            walk = Walk(ops, sources)
        except Misfit:
            raise ValueError(f"the code of {it.name} is not that of its modules") from None
        code = Code(ops, sources, walk, lengths.slots(sources), lengths.frames(sources))
        machine = Machine(code, [task.name for task in self.script.tasks], len(it.arm or ()), self.names["P"])
        return Task(it.name, machine, modules, held)

    def take(self, lines: Iterator[str]) -> None:
        for line in lines:
            self.line(line)

    def line(self, line: str) -> Optional[Traced]:
        """Goes on by a line. Returns its event, with the place of its statement also if the line has none."""
        if line.startswith("E "):
            name, fate = end_of(line)
            self.by_name[name].fate = fate
            return None
        traced = self.placed(self.reader.read(line))
        self.go_on(traced)
        return traced

    def placed(self, traced: Traced) -> Traced:
        task = self.by_name.get(traced.event.actor)
        if traced.place or not task or task.machine.looked < 0:
            return traced
        return traced._replace(place=task.place(task.machine.looked))

    def settle(self, is_open: bool) -> None:
        """Gives each task of which the history does not say how it ended the end that it has by its events."""
        is_spent = self.counted >= self.script.steps
        for task in self.tasks:
            task.fate = task.fate or (OPEN if is_open else "Cut" if is_spent else "Held")

    def go_on(self, traced: Traced) -> None:
        """Goes on by an event."""
        event, pc = traced.event, -1
        if event.actor != INPUTS:
            task = self.by_name[event.actor]
            pc, looked = task.machine.pc, task.machine.looked
            self.compare(task, traced)
            task.machine.take(event)
            if event.kind == "End":
                task.fate = event.request.partition(" ")[2]
            else:
                task.number, task.last = self.count, event
                task.events[looked] += 1
                task.looks[pc] += event.kind == "Look" and event.answer.startswith("Go ")
            if task.machine.origin and not task.has_failed:
                self.fail(task, event)
        self.counted += event.kind not in UNCOUNTED
        self.inputs += event.kind == "Input"
        self.change(event, pc)
        self.count += 1

    def fail(self, task: Task, event: Event) -> None:
        """A task ends with a fault by its next event, or by this one if it has none before."""
        ending = event.request if event.kind == "End" else task.machine.asked
        task.fate, task.has_failed = ending.partition(" ")[2], True
        task.notes = self.explain(self, task)

    def compare(self, task: Task, traced: Traced) -> None:
        """Compares the place in a trace with that of the statement that looked last."""
        found, looked = traced.place, task.machine.looked
        if found and traced.event.kind == "Look":
            spot, name = task.spot(looked), task.source(looked)[0].name
            if (found.module, found.row, found.column) != (name, spot.row, spot.column):
                raise ValueError(f"{task.name} looks at line {found.row} of {found.module}, and not at {task.where(looked)}")

    def change(self, event: Event, pc: int) -> None:
        """Keeps what an event changes."""
        changes = self.replay.take(event)
        self.interrupts.take(event, self.count, changes)
        self.watching.take(event, Change(self.count, event.actor, pc, None), self.replay, changes)
        self.pulses.take(event, self.count)
        for signal, value in changes:
            self.pulses.change(signal, value, self.count, self.tasks)
            change = self.signals[signal] = Change(self.count, event.actor, pc, value)
            for task in self.tasks:
                if task.signal == signal and not task.later:
                    task.later = change
        if event.kind == "WriteP":
            _, path, value_text = event.request.split(" ", 2)
            self.persistents[root_of(path)] = Change(self.count, event.actor, pc, read_value(value_text))
        elif event.kind == "TestSet" and event.answer == "TRUE":
            self.persistents[root_of(event.request.split()[1])] = Change(self.count, event.actor, pc, True)
        elif event.kind == "Setpoint" and event.answer == "Given":
            self.given[event.actor] += 1
        elif event.kind == "Arrive":
            _, meeting, listed = event.request.split()
            self.by_name[event.actor].meeting = int(meeting)
            at = int(meeting), self.script.task(event.actor)
            passed = self.meetings.get(at, Stand()).passed
            has_met = event.answer == "Met"
            self.meetings[at] = Stand(passed + has_met, not has_met, int(listed))

    def own_zone(self, key: Tuple[int, int]) -> str:
        """A zone of an arm in words, by the numbers of its task and its own."""
        task, number = self.tasks[key[0]], key[1]
        return f"zone {number} of the task, `{task.machine.zones[number].name}`"

    def last_write(self, path: str) -> Optional[Change]:
        return self.persistents.get(root_of(path))

    def by(self, change: Change) -> str:
        """Who made a change, where, and at which event."""
        if change.actor == INPUTS:
            return f"the input script at event {change.event}"
        task = self.by_name[change.actor]
        return f"{change.actor} at event {change.event}, {task.where(change.pc)}: {task.line(change.pc)}"


def root_of(path: str) -> str:
    """A persistent, or an element of it, without the part."""
    return path.partition(".")[0]
