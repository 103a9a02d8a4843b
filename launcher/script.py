"""What the script of a cell says: its tasks, signals, zones and inputs, by the numbers that a history gives them.

The script is one that the program accepts. Angles are in thousandths of a degree.
"""
import functools
from dataclasses import dataclass
from typing import Dict, List, Mapping, Optional, Tuple

from . import toml_places
from .toml_places import Key

# The axes of a robot; an arm may have external ones besides.
AXES = 6
# How many events may be counted if the script does not say.
STEPS = 100_000
Axes = Tuple[int, ...]
Row = Dict[str, Key]


@dataclass(frozen=True)
class Task:
    """A task, and where its arm starts, if it has one."""

    name: str
    arm: Optional[Axes]


@dataclass(frozen=True)
class Signal:
    """A signal, of kind `di` or `do`, and its value at the start."""

    name: str
    kind: str
    start: int


@dataclass(frozen=True)
class Shape:
    """A part of joint space: the low and the high bound of some axes, from 0, and the side of them that is meant."""

    is_inside: bool
    bounds: Mapping[int, Tuple[int, int]]

    def has(self, at: Axes) -> bool:
        """Whether a position lies in it: a bound itself lies in what is inside, and not in what is outside."""
        within = all(low <= at[axis] <= high for axis, (low, high) in self.bounds.items())
        return within == self.is_inside


@dataclass(frozen=True)
class Zone:
    """A zone of the script: the number of its task, and of the signal that has to have the value for it to be watched."""

    name: str
    task: int
    shape: Shape
    signal: int
    value: int


@dataclass(frozen=True)
class Input:
    """An input: the number of its signal, and the signal's new value; and its gate: a signal with the value that it must have, a task
    with the setpoints that it must have been given, and the events that must have been counted."""

    signal: int
    value: int
    when: Optional[Tuple[int, int]] = None
    given: Optional[Tuple[int, int]] = None
    after: int = 0


@dataclass(frozen=True)
class Script:
    tasks: List[Task]
    signals: List[Signal]
    zones: List[Zone]
    inputs: List[Input]
    steps: int

    @property
    def axes(self) -> int:
        """The most axes that an arm of the cell has, and those of a robot at least."""
        return max([AXES, *(len(it.arm) for it in self.tasks if it.arm)])

    def task(self, name: str) -> int:
        """The number of a task, by its name in any case."""
        return next(k for k, it in enumerate(self.tasks) if it.name.lower() == name.lower())

    def signal(self, name: str) -> int:
        return next(k for k, it in enumerate(self.signals) if it.name.lower() == name.lower())


def parse(text: bytes) -> Script:
    """The script of a text. ValueError if it is none that the program accepts."""
    try:
        return Reader(text).script()
    except (KeyError, IndexError, StopIteration) as error:
        raise ValueError(f"no script: {error!r}") from None


class Reader:
    def __init__(self, text: bytes) -> None:
        self.tables: Dict[str, Dict[int, Row]] = {}
        # The keys outside the tables.
        self.top: Row = {}
        for key in toml_places.keys_of(text):
            if len(key.path) >= 2 and key.path[1].isdigit():
                row = self.tables.setdefault(key.path[0], {}).setdefault(int(key.path[1]), {})
                if len(key.path) == 3:
                    row[key.path[2]] = key
            elif len(key.path) == 1:
                self.top[key.path[0]] = key

    def script(self) -> Script:
        tasks = [Task(self.word(it, "name"), self.numbers(it, "arm") if "arm" in it else None) for it in self.rows("task")]
        signals = [Signal(self.word(it, "name"), self.word(it, "kind"), self.number(it, "start", 0)) for it in self.rows("signal")]
        script = Script(tasks, signals, [], [], self.number(self.top, "steps", STEPS))
        script.zones.extend(self.zone(it, script) for it in self.rows("zone"))
        script.inputs.extend(self.input(it, script) for it in self.rows("input"))
        return script

    def input(self, row: Row, script: Script) -> Input:
        when = (script.signal(self.word(row, "when")), self.number(row, "is")) if "when" in row else None
        given = (script.task(self.word(row, "task")), self.number(row, "setpoints")) if "task" in row else None
        return Input(script.signal(self.word(row, "signal")), self.number(row, "value"), when, given, self.number(row, "after", 0))

    def zone(self, row: Row, script: Script) -> Zone:
        bounds = zip(self.numbers(row, "low"), self.numbers(row, "high"))
        shape = Shape(self.word(row, "kind") == "inside", dict(zip((it - 1 for it in self.numbers(row, "axes")), bounds)))
        task, signal = script.task(self.word(row, "task")), script.signal(self.word(row, "signal"))
        return Zone(self.word(row, "name"), task, shape, signal, self.number(row, "value"))

    def rows(self, name: str) -> List[Row]:
        return [row for _, row in sorted(self.tables.get(name, {}).items())]

    def word(self, row: Row, key: str) -> str:
        return row[key].strings[0]

    def number(self, row: Row, key: str, default: Optional[int] = None) -> int:
        if key not in row and default is not None:
            return default
        return integer(row[key].value, key)

    def numbers(self, row: Row, key: str) -> Axes:
        given = row[key].value
        if not isinstance(given, list):
            raise ValueError(f"{key} is no array")
        return tuple(integer(it, key) for it in given)


def integer(value: toml_places.Value, key: str) -> int:
    if not isinstance(value, int) or isinstance(value, bool):
        raise ValueError(f"{key} is no integer")
    return value


@functools.lru_cache(maxsize=100_000)
def thousandths(word: str) -> int:
    """A num of a history, such as `-2.5`, in thousandths."""
    whole, _, part = word.lstrip("-").partition(".")
    size = int(whole) * 1000 + int((part + "000")[:3])
    return -size if word.startswith("-") else size


def degrees(size: int) -> str:
    """Thousandths as a num of a history: without needless digits."""
    whole, part = divmod(abs(size), 1000)
    return f"{'-' if size < 0 else ''}{whole}" + (f".{part:03}".rstrip("0") if part else "")
