"""The events of a run as columns of numbers, as the page of `show` has them.

What is counted here is small and goes to the page as it is. What has an entry for each event, or for each change, is a column: an
array of numbers, which the page reads in place.
"""
import sys
from array import array
from typing import Any, Callable, Dict, List, Optional, Sequence, Tuple, Union

from .history import INPUTS, Event
from .replay import OwnZone, Replay
from .script import Script, Shape
from .trace import Place, Traced

# What the events are, by number: the request, and the answer where it makes a difference.
KINDS = (
    "Go Trap Flood ReadP WriteP TestSet ReadS WriteS Position Given Stopped Connect Order Sleep Watch Delete Disable Enable Leave "
    "ZoneSet ZoneTie ZoneOn ZoneOff ZoneFree Met Apart Hold Rise Input Say End Other"
).split()
NUMBERS = {name: number for number, name in enumerate(KINDS)}
BY_ANSWER = ("Look", "Setpoint", "Arrive")
LINE_END = 10
# The actor of the input script.
NOBODY = 255
Column = Union[bytearray, "array[int]"]


class Span:
    """The events between which a zone is watched, or sets an output: from the first one up to the one before `past`."""

    def __init__(self, task: int, name: str, shape: Shape, signal: Optional[int], start: int) -> None:
        self.task, self.name, self.shape, self.signal = task, name, shape, signal
        self.start, self.past = start, -1

    def row(self) -> Dict[str, Any]:
        bounds = [[axis, low, high] for axis, (low, high) in sorted(self.shape.bounds.items())]
        return {
            "task": self.task,
            "name": self.name,
            "inside": self.shape.is_inside,
            "bounds": bounds,
            "signal": self.signal,
            "from": self.start,
            "past": self.past,
        }


class Timeline:
    """`zone_name` gives a zone of an arm its name, by the numbers of the task and of the zone."""

    def __init__(self, script: Script, zone_name: Callable[[int, int], str]) -> None:
        self.script, self.replay, self.zone_name = script, Replay(script), zone_name
        self.numbers = {it.name: number for number, it in enumerate(script.tasks)}
        self.count = 0
        self.actors, self.kinds, self.lines = bytearray(), bytearray(), bytearray()
        self.places = array("I")
        self.place_numbers: Dict[Place, int] = {}
        self.arms: List[List["array[int]"]] = [[array("i") for _ in it.arm or ()] for it in script.tasks]
        self.at = [it.arm or () for it in script.tasks]
        self.signals = [(array("I"), bytearray()) for _ in script.signals]
        self.stored: Dict[str, Tuple["array[int]", List[str]]] = {}
        self.written: Dict[str, bool] = {}
        self.spans: List[Span] = []
        self.open: Dict[Tuple[int, str], Span] = {}
        self.watch_cell()

    def take(self, traced: Traced) -> None:
        """Goes on by an event."""
        event, place = traced
        kind = event.answer.partition(" ")[0] if event.kind in BY_ANSWER else event.kind
        self.actors.append(NOBODY if event.actor == INPUTS else self.numbers[event.actor])
        self.kinds.append(NUMBERS.get(kind, NUMBERS["Other"]))
        self.places.append(self.place_numbers.setdefault(place, len(self.place_numbers) + 1) if place else 0)
        changes = self.replay.take(event)
        if kind == "Given":
            # The columns of the arm say all of it.
            self.lines.append(LINE_END)
            self.move(self.numbers[event.actor])
        else:
            self.lines += f"{event.request} > {event.answer}\n".encode("utf-8", "surrogateescape")
        if kind in ("ReadP", "WriteP", "TestSet"):
            self.store(kind, event)
        for signal, value in changes:
            self.signals[signal][0].append(self.count)
            self.signals[signal][1].append(value)
        if kind.startswith("Zone"):
            self.watch_own(self.numbers[event.actor])
        if changes:
            self.watch_cell()
        self.count += 1

    def move(self, task: int) -> None:
        """Adds the way to a setpoint, axis by axis."""
        now = self.replay.at(self.script.tasks[task].name) or ()
        for column, value, before in zip(self.arms[task], now, self.at[task]):
            column.append(value - before)
        self.at[task] = now

    def store(self, kind: str, event: Event) -> None:
        """Adds the value that a persistent has from an event on, if it is another one than before."""
        _, path, *rest = event.request.split(" ", 2)
        value = event.answer if kind == "ReadP" else rest[0] if kind == "WriteP" else "TRUE"
        name = path.partition("{")[0].partition(".")[0]
        events, values = self.stored.setdefault(path, (array("I"), []))
        if not values or values[-1] != value:
            # What is read first has been there from the start, if nobody wrote to the persistent before.
            is_first = not values and kind != "WriteP" and not self.written.get(name)
            events.append(0 if is_first else self.count)
            values.append(value)
        if kind == "WriteP":
            self.written[name] = True

    def watch_own(self, task: int) -> None:
        """Opens and closes the spans of a task's own zones."""
        zones = self.replay.zones[self.script.tasks[task].name]
        for number in range(1, 11):
            self.watch(task, f"zone {number}", zones.get(number), number)

    def watch_cell(self) -> None:
        for it in self.script.zones:
            is_on = self.replay.signals[it.signal] == it.value
            self.watch(it.task, it.name, OwnZone(it.shape, None) if is_on else None)

    def watch(self, task: int, name: str, zone: Optional[OwnZone], number: int = 0) -> None:
        """Opens or closes the span of a zone; a zone of the arm has a number."""
        span = self.open.get((task, name))
        # What an event changes counts from the next event on.
        now = len(self.actors)
        if span and (zone is None or not zone.is_on or zone.shape != span.shape):
            span.past = now
            del self.open[task, name]
            span = None
        if zone and zone.is_on and not span:
            shown = self.zone_name(task, number) if number else name
            span = Span(task, shown, zone.shape, zone.change[0] if zone.change else None, now)
            self.open[task, name] = span
            self.spans.append(span)

    def columns(self) -> List[Tuple[str, Column]]:
        """The columns by name. Numbers of four bytes come first, so that each column begins at a multiple of its size."""
        wide: List[Tuple[str, Column]] = [("places", self.places)]
        wide += [(f"arm {task} {axis}", column) for task, arm in enumerate(self.arms) for axis, column in enumerate(arm)]
        wide += [(f"signal {number} events", events) for number, (events, _) in enumerate(self.signals)]
        wide += [(f"stored {number} events", events) for number, (events, _) in enumerate(self.stored.values())]
        narrow: List[Tuple[str, Column]] = [("actors", self.actors), ("kinds", self.kinds), ("lines", self.lines)]
        narrow += [(f"signal {number} values", values) for number, (_, values) in enumerate(self.signals)]
        narrow += [(f"stored {number} values", joined(values)) for number, (_, values) in enumerate(self.stored.values())]
        return wide + narrow


def joined(values: Sequence[str]) -> bytearray:
    """Values, each with a line's end."""
    return bytearray("".join(f"{it}\n" for it in values).encode("utf-8", "surrogateescape"))


def bytes_of(column: Column) -> bytes:
    """The bytes of a column, the lowest of a number first."""
    if isinstance(column, bytearray) or sys.byteorder == "little":
        return bytes(column) if isinstance(column, bytearray) else column.tobytes()
    swapped = array(column.typecode, column)
    swapped.byteswap()
    return swapped.tobytes()
