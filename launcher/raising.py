"""The errors of a task: where each came up, and how it goes to an ERROR part and from there on."""
from dataclasses import dataclass
from typing import Any, List, NamedTuple, Optional, Sequence, Tuple

from .arm_operations import ArmOperations
from .code import Op, Walk
from .lengths import Room
from .memory import Held
from .operations import Fault
from .statements import Source
from .values import UNIT, Raised, shown

MOST_OWN_ERROR = 90
STARTED, CALLED, TRAPPED = "started", "called", "trapped"
Span = Tuple[int, int]
# A place in the code, and how the routine that is in it goes on from there: by a call or by a TRAP.
Link = Tuple[int, str]


@dataclass(frozen=True)
class Origin:
    """Where an error or a fault came up: its number or name, what it is about in words, the place in the code and those from which
    the active routines were called, the innermost one first, what the statement had read, and, in an ERROR part, the error by which it
    was entered. `parts` are the routines through whose ERROR parts an error went."""

    what: str
    about: str
    chain: Sequence[Link]
    read: Sequence[Tuple[str, Held]]
    before: Optional["Origin"]
    parts: List[int]


class Running(NamedTuple):
    """A running routine, by its number, and, while it is in its ERROR part, the statement that failed and its error."""

    routine: int
    failed: Optional[Tuple[Span, int, Origin]] = None


class Saved(NamedTuple):
    """What goes on when a routine is left."""

    how: str
    pc: int
    stack: List[Any]
    running: Running
    way: Any


@dataclass(frozen=True)
class Code:
    """The code of a task with what it was compiled from, and the places of its data."""

    ops: Sequence[Op]
    sources: Sequence[Source]
    walk: Walk
    slots: Sequence[Room]
    frames: Sequence[Sequence[Room]]

    def main(self) -> int:
        routines = [(source, it) for source in self.sources for it in source.routines]
        for number, (source, it) in enumerate(routines):
            if it.kind == "PROC" and it.name.lower() == "main" and source.tokens[it.start].text == "PROC" and not it.params:
                return number
        raise ValueError("there is no main")


class Raising(ArmOperations):
    """The operations about errors. `running` is the running routine, `saved` those that it goes back to, the last one the innermost, and
    `origin` where the error or the fault came up that ends the task."""

    code: Code
    next: int
    running: Running
    saved: List[Saved]
    origin: Optional[Origin]

    def leave(self) -> Saved:
        """Leaves the running routine."""
        raise NotImplementedError

    def op_raise(self, op: Op) -> None:
        value = self.stack.pop()
        number, rest = divmod(value, UNIT)
        if rest or not 1 <= number <= MOST_OWN_ERROR:
            raise Fault("RaiseRange", f"the number is {shown(value)}, and it has to be a whole one from 1 to {MOST_OWN_ERROR}")
        raise Raised(number, "")

    def fail(self, number: int, origin: Origin) -> None:
        """An error of the running statement."""
        self.handle(self.code.walk.spans[self.pc], number, origin)

    def op_again(self, op: Op) -> None:
        assert self.running.failed
        _, number, origin = self.running.failed
        self.handle(self.left_by(number, origin), number, origin)

    def handle(self, span: Optional[Span], number: int, origin: Origin) -> None:
        """An error of a statement goes to the ERROR part of its routine, or else it is one of the statement that called that."""
        while True:
            handler = self.code.walk.handlers[self.running.routine]
            if handler is not None and self.running.failed is None:
                origin.parts.append(self.running.routine)
                self.errno, self.stack, self.way = number, [], None
                self.running = Running(self.running.routine, (span or (self.pc, self.pc), number, origin))
                self.next = handler
                return
            span = self.left_by(number, origin)

    def left_by(self, number: int, origin: Origin) -> Optional[Span]:
        """An error leaves the running routine. Returns the statement that called it."""
        saved = self.leave()
        if saved.how != CALLED:
            self.origin = origin
            raise Fault(f"Unhandled {number}")
        self.stack, self.running, self.way = saved.stack, saved.running, saved.way
        return self.code.walk.spans[saved.pc]

    def op_retry(self, op: Op) -> None:
        self.behind(0)

    def op_next(self, op: Op) -> None:
        self.behind(1)

    def behind(self, side: int) -> None:
        """Leaves the ERROR part for the beginning or the end of the statement that failed."""
        assert self.running.failed
        self.next = self.running.failed[0][side]
        self.stack, self.running = [], Running(self.running.routine)
