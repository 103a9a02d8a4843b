"""Zones that became watched while an arm stood in them. Nothing stops an arm there until its next move, so the run itself is silent."""
from typing import Callable, Dict, List, NamedTuple, Sequence, Set, Tuple

from .history import Event
from .replay import OwnZone, Replay
from .replay import Change as SignalChange
from .script import Axes, Script, Shape
from .tasks import Change

# What holds from the start.
START = Change(-1, "", -1, None)
# A zone: the number of its task, or -1 for one of the script, and its own number.
Key = Tuple[int, int]
OF_SCRIPT = -1


class Caught(NamedTuple):
    """A zone, by its name in words, that became watched while the arm of a task stood in it: by what, where the arm was, and by which
    event it had come into the zone or, of a zone of the arm, to where it stood."""

    by: Change
    task: int
    name: str
    shape: Shape
    at: Axes
    since: Change


class Watching:
    """The zones that are watched along a run, and which of them caught an arm. `named` gives the words for a zone of an arm."""

    def __init__(self, script: Script, named: Callable[[Key], str]) -> None:
        self.script, self.named = script, named
        self.caught: List[Caught] = []
        self.on: Set[Key] = set()
        # Since when an arm is in a zone of the script, and since when it stands where it is.
        self.inside: Dict[int, Change] = {}
        self.stands: Dict[str, Change] = {it.name: START for it in script.tasks}
        for number, zone in enumerate(script.zones):
            at = script.tasks[zone.task].arm or ()
            if at and zone.shape.has(at):
                self.inside[number] = START
            self.watch(number, script.signals[zone.signal].start, START, at)

    def take(self, event: Event, by: Change, replay: Replay, changes: Sequence[SignalChange]) -> None:
        """Goes on by an event, with the signals that it changed; the replay has taken it."""
        if event.kind == "Setpoint" and event.answer == "Given":
            self.stands[event.actor] = by
            self.move(event.actor, by, replay.at(event.actor) or ())
        for signal, value in changes:
            for number, zone in enumerate(self.script.zones):
                if zone.signal == signal:
                    self.watch(number, value, by, replay.at(self.script.tasks[zone.task].name) or ())
        if event.kind.startswith("Zone"):
            self.own(self.script.task(event.actor), replay.zones[event.actor], by, replay.at(event.actor) or ())

    def move(self, task: str, by: Change, at: Axes) -> None:
        for number, zone in enumerate(self.script.zones):
            if self.script.tasks[zone.task].name == task:
                if zone.shape.has(at):
                    self.inside.setdefault(number, by)
                else:
                    self.inside.pop(number, None)

    def watch(self, number: int, value: int, by: Change, at: Axes) -> None:
        """The signal of a zone of the script gets a value."""
        zone, key = self.script.zones[number], (OF_SCRIPT, number)
        if value != zone.value:
            self.on.discard(key)
        elif key not in self.on:
            self.on.add(key)
            if number in self.inside:
                self.caught.append(Caught(by, zone.task, f"the zone `{zone.name}` of the script", zone.shape, at, self.inside[number]))

    def own(self, task: int, zones: Dict[int, OwnZone], by: Change, at: Axes) -> None:
        """The zones of an arm that stop it are these now."""
        is_on = {(task, number): it for number, it in zones.items() if it.is_on and it.change is None}
        self.on -= {it for it in self.on if it[0] == task and it not in is_on}
        for key, it in is_on.items():
            if key not in self.on:
                self.on.add(key)
                if it.shape.has(at):
                    since = self.stands[self.script.tasks[task].name]
                    self.caught.append(Caught(by, task, self.named(key), it.shape, at, since))
