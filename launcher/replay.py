"""A cell along a history: where its arms are, its zones, and the values of its signals, also of those that a zone sets."""
from dataclasses import dataclass
from typing import Dict, Iterable, List, Optional, Sequence, Tuple

from .history import Event
from .script import Axes, Script, Shape, thousandths

# A signal, by its number, and the value that it gets.
Change = Tuple[int, int]


@dataclass
class OwnZone:
    """A zone of an arm. One that sets an output has a change: the value while the arm is in the shape, else the other one."""

    shape: Shape
    change: Optional[Change]
    is_on: bool = True

    def output(self, at: Axes) -> List[Change]:
        if not self.change or not self.is_on:
            return []
        signal, value = self.change
        return [(signal, value if self.shape.has(at) else 1 - value)]


class Replay:
    def __init__(self, script: Script) -> None:
        self.script = script
        self.signals = [it.start for it in script.signals]
        self.starts = {it.name: it.arm for it in script.tasks}
        # The last setpoint that each arm was given, in the words of its event.
        self.setpoints: Dict[str, str] = {}
        self.zones: Dict[str, Dict[int, OwnZone]] = {it.name: {} for it in script.tasks}

    def at(self, task: str) -> Optional[Axes]:
        """Where the arm of a task is, if it has one."""
        given = self.setpoints.get(task)
        return tuple(map(thousandths, given.split()[1:])) if given else self.starts[task]

    def take(self, event: Event) -> List[Change]:
        """Goes on by an event. Returns the signals that it changes."""
        actor, kind, request, answer = event
        if kind == "Setpoint" and answer == "Given":
            self.setpoints[actor] = request
            return self.set_by(actor, self.zones[actor].values()) if self.zones[actor] else []
        if kind == "WriteS" and answer == "Ok":
            _, signal, value = request.split()
            return self.set_all([(int(signal[1:]), int(value))])
        if kind == "Input":
            given = self.script.inputs[int(request.split()[1])]
            return self.set_all([(given.signal, given.value)])
        return self.zone(kind, event) if kind.startswith("Zone") else []

    def zone(self, kind: str, event: Event) -> List[Change]:
        zones, words = self.zones[event.actor], event.request.split()
        if event.answer.startswith("Number "):
            number = int(event.answer.split()[1])
            change = (int(words[-2][1:]), int(words[-1])) if kind == "ZoneTie" else None
            zones[number] = OwnZone(shape_of(words[3:]), change)
        elif event.answer == "Ok":
            number = int(words[1])
            if kind == "ZoneFree":
                del zones[number]
                return []
            zones[number].is_on = kind == "ZoneOn"
        else:
            return []
        return self.set_by(event.actor, [zones[number]])

    def set_by(self, task: str, zones: Iterable[OwnZone]) -> List[Change]:
        """What zones of an arm set where it is."""
        at = self.at(task)
        return self.set_all([change for it in zones for change in it.output(at)]) if at else []

    def set_all(self, values: Sequence[Change]) -> List[Change]:
        changes = [it for it in values if self.signals[it[0]] != it[1]]
        for signal, value in changes:
            self.signals[signal] = value
        return changes


def shape_of(words: Sequence[str]) -> Shape:
    """The shape of a ZoneSet or a ZoneTie: its side, and then the bounds of twelve axes."""
    bounds = {}
    for axis, word in enumerate(words[1:13]):
        if word != "-":
            low, high = word.split(":")
            bounds[axis] = (thousandths(low), thousandths(high))
    return Shape(words[0] == "Inside", bounds)
