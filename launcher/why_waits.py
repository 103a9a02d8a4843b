"""What a task waits for: the values that it has read, who was last to change them, and who could."""
from typing import Dict, Iterator, List, NamedTuple, Optional, Tuple

from .blame import blamed
from .history import INPUTS
from .memory import MODULE, SHARED, Place
from .story import Story
from .tasks import Change, Task, many
from .pulses import missed_text
from .values import shown
from .why_faults import called, traps
from .why_meetings import at_meeting
from .writers import Writers

# Of a task: what each other one that waits could do for it.
Edges = Dict[str, str]
# How many statements are named that write something.
MOST_PLACES = 4


class Wait(NamedTuple):
    notes: List[str]
    edges: Edges


class Waits:
    """What the tasks of a run wait for."""

    def __init__(self, story: Story) -> None:
        self.story = story
        self.writers = {it.name: Writers(it.code) for it in story.tasks}

    def of(self, task: Task) -> Wait:
        edges: Edges = {}
        word = task.words(task.machine.pc)[0].lower()
        if word == "waitsynctask":
            notes = list(at_meeting(self, task, edges))
        elif word == "waittestandset":
            notes = list(self.lock(task, edges))
        else:
            notes = list(self.values(task, edges))
        return Wait(list(dict.fromkeys([*notes, *called(task, task.machine.chain())])), edges)

    def is_stuck(self, other: Task, task: Task) -> bool:
        return other is not task and other.fate in ("Held", "Cut")

    def how(self, other: Task) -> str:
        """How another task is now."""
        if other.fate == "Held":
            return f"is itself waiting at {other.where(other.machine.pc)}: {other.line(other.machine.pc)}"
        return {"Done": "is Done", "Exit": "ended by EXIT", "Cut": "was Cut"}.get(other.fate, f"ended with {other.fate}")

    def since(self, change: Optional[Change], verb: str = "changed") -> str:
        return f"last {verb} by {self.story.by(change)}" if change else f"nobody has {verb} it since the start"

    # Values

    def values(self, task: Task, edges: Edges) -> Iterator[str]:
        """The signals and the data that the condition has read: first those that keep it from being TRUE."""
        machine, found = task.machine, blamed(task.machine)
        for signal in (it for it in machine.signals if it in found.signals):
            yield from self.signal(task, signal, found.is_clear, edges)
        places = [it for it in machine.reads if machine.is_there(it)]
        for place in (it for it in places if it in found.places and it.root == SHARED):
            yield from self.persistent(task, place, edges)
        own = [it for it in places if it in found.places and it.root != SHARED]
        yield from (f"{machine.name(it)} is {shown(machine.reads[it])}{self.whose(task, it)}" for it in own)
        if any(it.root == MODULE and not machine.room(it).is_constant for it in own):
            yield from traps(self.story, task)
        others = [f"{self.story.script.signals[it].name} is {bit}" for it, bit in machine.signals.items() if it not in found.signals]
        others += [f"{machine.name(it)} is {shown(machine.reads[it])}" for it in places if it not in found.places]
        if others:
            yield f"read besides, and not in the way: {', '.join(others)}"
        if not machine.signals and all(it.root != SHARED for it in machine.reads):
            yield "the condition reads no signal and no persistent, so no other task and no input can change it"

    def whose(self, task: Task, place: Place) -> str:
        if task.machine.room(place).is_constant:
            return ""
        return ": a VAR of the module, which only a TRAP of this task can change now" if place.root == MODULE else ", of the routine itself"

    def signal(self, task: Task, signal: int, is_clear: bool, edges: Edges) -> Iterator[str]:
        found, bit = self.story.script.signals[signal], task.machine.signals[signal]
        waits = f", and it waits for {1 - bit}" if is_clear else ""
        yield f"{found.name} is {bit}{waits}: {self.since(self.story.signals.get(signal))}"
        missed = self.story.pulses.missed(task, signal, 1 - bit) if is_clear else None
        if missed:
            yield missed_text(task, found.name, 1 - bit, missed)
        if found.kind == "di":
            yield from self.inputs(task, signal, 1 - bit, edges)
        else:
            yield from self.written(task, found.name, self.signal_writers(signal), edges)

    def signal_writers(self, signal: int) -> Iterator[Tuple[Task, List[int]]]:
        return ((it, self.writers[it.name].signals.get(signal, [])) for it in self.story.tasks)

    def persistent(self, task: Task, place: Place, edges: Edges) -> Iterator[str]:
        name, held = task.machine.name(place), task.machine.reads[place]
        yield f"{name} is {shown(held)}: {self.since(self.story.last_write(place.path), 'written')}"
        found = ((it, self.writers[it.name].persistents.get(place.owner, [])) for it in self.story.tasks)
        yield from self.written(task, name, found, edges)

    def written(self, task: Task, name: str, found: Iterator[Tuple[Task, List[int]]], edges: Edges) -> Iterator[str]:
        """Which tasks have statements that write something."""
        others = [(it, self.writers[it.name].statements(pcs)) for it, pcs in found if pcs]
        for it, pcs in others:
            if it is not task:
                yield f"{it.name} writes it at {self.places(it, pcs)}"
                yield f"{it.name} {self.how(it)}"
                if self.is_stuck(it, task):
                    edges[it.name] = f"{name}, which {it.name} writes at {self.places(it, pcs)}"
        if not others:
            yield f"no task writes {name}"
        elif all(it is task for it, _ in others):
            yield f"no other task writes {name}, and a task does not end its own wait"

    def places(self, task: Task, pcs: List[int]) -> str:
        """Some statements of a task: their lines, and a single one itself."""
        if len(pcs) == 1:
            return f"{task.where(pcs[0])}: {task.line(pcs[0])}"
        rows = sorted({(task.source(pc)[0].name, task.spot(pc).row) for pc in pcs})
        return ", ".join(f"line {row} of {name}" for name, row in rows[:MOST_PLACES]) + (" .." if rows[MOST_PLACES:] else "")

    # Inputs of the script

    def inputs(self, task: Task, signal: int, wanted: int, edges: Edges) -> Iterator[str]:
        """Why the next input of the script does not come, and whether one is left that helps."""
        story = self.story
        left = story.script.inputs[story.inputs :]
        helps = next((story.inputs + k for k, it in enumerate(left) if it.signal == signal and it.value == wanted), None)
        name = story.script.signals[signal].name
        if helps is None:
            yield f"no input of the script is left that sets {name} to {wanted}" if left else "no input of the script is left"
            return
        if helps == story.inputs:
            yield f"input[{helps}] of the script sets {name} to {wanted}, and has not come"
        else:
            before = f"input[{story.inputs}], {story.script.signals[left[0].signal].name} = {left[0].value},"
            yield f"input[{helps}] of the script sets {name} to {wanted}, but {before} has to come before it"
        yield from self.gate(task, f"input[{story.inputs}]", edges)

    def gate(self, task: Task, name: str, edges: Edges) -> Iterator[str]:
        """What the gate of the next input waits for."""
        story = self.story
        it = story.script.inputs[story.inputs]
        if it.when and story.replay.signals[it.when[0]] != it.when[1]:
            signal = story.script.signals[it.when[0]]
            yield f"{name} waits until {signal.name} is {it.when[1]}; it is {1 - it.when[1]}: {self.since(story.signals.get(it.when[0]))}"
            if signal.kind == "do":
                yield from self.written(task, signal.name, self.signal_writers(it.when[0]), edges)
            else:
                yield f"{signal.name} is an input too, and none comes before {name}"
        if it.given:
            other = story.tasks[it.given[0]]
            if story.given[other.name] < it.given[1]:
                given = f"{many(it.given[1], 'setpoint')}, and it has {story.given[other.name]}"
                how = f"; {other.name} {self.how(other)}" if other is not task else ""
                yield f"{name} waits until {other.name} has been given {given}{how}"
                if self.is_stuck(other, task):
                    edges[other.name] = f"{name} of the script, which waits for setpoints of {other.name}"
        if story.counted < it.after:
            yield f"{name} waits until {many(it.after, 'event')} are counted; there were {story.counted:,}"

    # Locks

    def lock(self, task: Task, edges: Edges) -> Iterator[str]:
        place = list(task.machine.reads)[-1]
        name, change = task.machine.name(place), self.story.last_write(place.path)
        yield f"the lock {name} is TRUE: {self.since(change, 'written')}"
        if change is None:
            yield "it starts TRUE, so nobody can take it: its first value has to be FALSE"
        elif change.actor == task.name:
            yield "this task has the lock itself, and has to release it before it takes it again"
        elif change.actor != INPUTS:
            other = self.story.by_name[change.actor]
            yield f"{other.name} has it and did not release it; it {self.how(other)}"
            if self.is_stuck(other, task):
                edges[other.name] = f"{name}, which {other.name} has"
