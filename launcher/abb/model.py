"""A backup of a controller as the conversion sees it, and what a converted task is."""
from dataclasses import dataclass, field
from pathlib import Path
from typing import Dict, List, Optional, Tuple


class NotRead(Exception):
    """A text that is not what it should be: `file:line:column: what was expected`. Nothing is written then, status 3."""

    def __init__(self, file: str, row: int, column: int, expected: str) -> None:
        super().__init__(f"{file}:{row}:{column}: {expected}")


@dataclass
class Signal:
    """A signal of EIO.cfg. `kind` is the SignalType in capitals: DI, DO, GI, GO, AI or AO. `bits` is the width of a group.

    `is_crossed`: a digital input that a cross connection of `--cross`, or of the backup, gives its value. No task can write an input of
    a cell, so it is an output there, which the task of the cross connections sets. `is_guessed`: modules use it, EIO.cfg lacks it."""

    name: str
    kind: str
    start: int = 0
    bits: int = 1
    is_crossed: bool = False
    is_guessed: bool = False


@dataclass(frozen=True)
class Module:
    """The text of a module: where it is in the backup, and its bytes as the file has them. `name` is the file's name, as `MainModule.mod`;
    what is converted gets the same name. `is_encrypted`: the text cannot be read, so nothing of the module is known."""

    name: str
    file: Path
    text: bytes
    is_encrypted: bool = False


@dataclass
class Task:
    """A task of SYS.cfg with its modules, those that all tasks load among them. `has_arm`: it is a motion task. `unit` is its robot or
    positioner; `external_axes` is how many external axes MOC.cfg gives it, or 0 where that is not told. `is_background`: a task without an
    arm that is STATIC or SEMISTATIC, or any other task without one: the controller runs its `main` again and again. `entry` is the routine
    with which it starts."""

    name: str
    modules: List[Module] = field(default_factory=list)
    has_arm: bool = True
    external_axes: int = 0
    kind: str = "NORMAL"
    entry: str = "main"

    @property
    def is_background(self) -> bool:
        return not self.has_arm

    @property
    def short(self) -> str:
        """The name without its `T_`, as in `answers_ROB1`."""
        return self.name[2:] if self.name[:2].upper() == "T_" and len(self.name) > 2 else self.name


@dataclass(frozen=True)
class Actor:
    """A signal that a cross connection reads, inverted or not."""

    signal: str
    is_inverted: bool = False


@dataclass(frozen=True)
class Cross:
    """A cross connection: its result, its actors, and the operators between them, AND or OR. `is_given`: it is of the file of --cross."""

    result: str
    actors: Tuple[Actor, ...]
    operators: Tuple[str, ...]
    file: str
    line: int
    is_given: bool = False


@dataclass(frozen=True)
class SystemUse:
    """A signal that the system sets (`is_set`), or acts on, what for, and the line in EIO.cfg."""

    signal: str
    what: str
    is_set: bool
    line: int


@dataclass
class Backup:
    """What was read of a backup's folder. `signals` by their names in small letters."""

    folder: Path
    tasks: List[Task]
    signals: Dict[str, Signal]
    crosses: List[Cross] = field(default_factory=list)
    system: List[SystemUse] = field(default_factory=list)


@dataclass(frozen=True)
class Added:
    """A signal of the cell that no EIO.cfg has, as `timeout_ROB1`: `kind` is di or do."""

    name: str
    kind: str
    start: int = 0


@dataclass
class Converted:
    """A task as it is in the cell: its modules, in the order in which the script names them, each with its new text; the signals of EIO.cfg
    that its modules name, in small letters (a group stands for all of its bits); the signals that were added; and how many external axes its
    arm needs. `tables` are files beside the modules, as `joints.csv`, by their names in OUT."""

    task: Task
    modules: List[Tuple[str, bytes]] = field(default_factory=list)
    signals: List[str] = field(default_factory=list)
    added: List[Added] = field(default_factory=list)
    external_axes: int = 0


def bit_name(group: str, bit: int) -> str:
    """The name of a signal of the cell for a bit of a group, 0 the lowest one."""
    return f"{group}_{bit}"


def first_of(names: Dict[str, Signal], name: str) -> Optional[Signal]:
    return names.get(name.lower())
