"""Which parts of a wait's condition keep it from being TRUE.

AND and OR are jumps in the code, each after its left operand. So the condition falls into parts, each with a truth value of its own. A
part is to blame if the condition could be TRUE with the part's other truth value, whatever parts that were not evaluated would be.
"""
import copy
from typing import Any, List, NamedTuple, Optional, Set

from .machine import Machine
from .memory import SHARED, Place
from .operations import Fault
from .values import UNIT, OutOfRange, Raised

JUMPS = ("JumpTrue", "JumpFalse")
ASKING = ("Call", "Here", "TestSet", "TaskSet", "Arrive")


class Blamed(NamedTuple):
    """The signals, by number, and the places of data that are to blame, or that may be, if that is not clear."""

    signals: Set[int]
    places: Set[Place]
    is_clear: bool = True


class Unclear(Exception):
    """The condition calls a routine, or asks for more than values."""


def blamed(machine: Machine) -> Blamed:
    """What keeps the condition of a waiting task from being TRUE; all that it has read if that is not clear."""
    everything = Blamed(set(machine.signals), set(machine.reads), False)
    span = machine.code.walk.spans[machine.pc]
    if not span:
        return everything
    try:
        condition = Condition(machine)
        condition.can_be_true(span[0] + 1, [], 0, None)
        parts = condition.parts
        found = [it for k, it in enumerate(list(parts)) if condition.can_be_true(span[0] + 1, [], 0, k)]
    except Unclear:
        return everything
    result = Blamed(set().union(*(it.signals for it in found)), set().union(*(it.places for it in found)))
    return result if result.signals or result.places else everything


class Condition:
    """The condition of a wait, worked out with the values that the task has read."""

    def __init__(self, machine: Machine) -> None:
        self.machine = copy.copy(machine)
        self.ops = machine.code.ops
        # What each part has read, in the order in which they were evaluated.
        self.parts: List[Blamed] = []

    def can_be_true(self, pc: int, stack: List[Any], number: int, other: Optional[int]) -> bool:
        """Whether the rest of the condition can be TRUE from a place in the code, with another truth value of one of the parts."""
        below, read = list(stack), Blamed(set(), set())
        while True:
            if self.is_end(pc):
                if number == other:
                    stack[-1] = not stack[-1]
                if other is None:
                    self.parts.append(read)
                if self.ops[pc].name == "Wait":
                    return bool(stack[-1])
                pc = self.after(pc, stack)
                below, read, number = list(stack), Blamed(set(), set()), number + 1
                continue
            try:
                is_known = self.do(pc, stack, read)
            except (Fault, Raised, OutOfRange):
                return False
            if not is_known:
                end = next(k for k in range(pc, len(self.ops)) if self.is_end(k))
                return any([self.can_be_true(end, [*below, it], number, other) for it in (True, False)])
            pc += 1

    def is_end(self, pc: int) -> bool:
        """Whether a part has its truth value at a place in the code."""
        return self.ops[pc].name == "Wait" or (self.ops[pc].name == "Dup" and self.ops[pc + 1].name in JUMPS)

    def after(self, pc: int, stack: List[Any]) -> int:
        """Where the condition goes on after a part: past its right operand, or at that, without the left one."""
        jump = self.ops[pc + 1]
        if stack[-1] == (jump.name == "JumpTrue"):
            return jump.number()
        stack.pop()
        return pc + 3

    def do(self, pc: int, stack: List[Any], read: Blamed) -> bool:
        """Does an operation. Returns whether its value is known."""
        op, machine = self.ops[pc], self.machine
        if op.name in ASKING:
            raise Unclear
        if op.name == "GetSignal":
            read.signals.add(op.number())
            stack.append(machine.signals.get(op.number(), 0) * UNIT)
            return op.number() in machine.signals
        if op.name == "Load":
            place = stack.pop()
            read.places.add(place)
            stack.append(machine.reads.get(place) if place.root == SHARED else machine.get(place))
            return place.root != SHARED or place in machine.reads
        machine.stack = stack
        getattr(machine, f"op_{op.name.lower()}")(op)
        return True
