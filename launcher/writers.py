"""The statements that write a persistent or a signal, by the code of a task."""
from typing import Any, Dict, List, Optional, Set, Tuple

from .code import Op
from .raising import Code
from .values import SIZES

# How many operands each operation takes, and how many it leaves; those with others are below.
EFFECTS: Dict[str, Tuple[int, int]] = {
    "Push": (0, 1), "Errno": (0, 1), "Drop": (1, 0), "Slot": (0, 1), "Local": (0, 1), "Ref": (0, 1), "GetSignal": (0, 1),
    "Load": (1, 1), "PutSignal": (1, 0), "Binary": (2, 1), "JumpTrue": (1, 0), "JumpFalse": (1, 0), "Raise": (1, 0),
    "BackWith": (1, 0), "Wait": (1, 0), "TaskSet": (1, 1), "Arrive": (1, 1), "Here": (0, 1), "Aim": (2, 0), "Connect": (2, 0),
    "Shape": (3, 0), "ZoneSet": (3, 0), "ZoneTie": (4, 0), "Zone": (2, 0),
}  # fmt: skip
Operand = Optional[int]


class Writers:
    """The places in a task's code that write persistents and signals, by their numbers."""

    def __init__(self, code: Code) -> None:
        self.code = code
        self.persistents: Dict[int, List[int]] = {}
        self.signals: Dict[int, List[int]] = {}
        self.routines = [it for source in code.sources for it in source.routines]
        # The persistents whose places are operands; None for all other operands.
        stack: List[Operand] = []
        for pc, op in enumerate(code.ops):
            if op.name == "Look":
                stack = []
            self.walk(pc, op, stack)

    def walk(self, pc: int, op: Op, stack: List[Operand]) -> None:
        if op.name == "Pers":
            stack.append(op.number())
        elif op.name in ("Dup", "Over"):
            stack.append(stack[-1 if op.name == "Dup" else -2] if len(stack) > 1 or (stack and op.name == "Dup") else None)
        elif op.name == "Index":
            del stack[-1:]
        elif op.name in ("PutSignal", "ZoneTie"):
            self.signals.setdefault(op.number(op.name == "ZoneTie"), []).append(pc)
            self.pop(stack, op)
        else:
            taken = self.pop(stack, op)
            if op.name in ("Store", "TestSet", "Call"):
                for number in {it for it in taken if it is not None}:
                    self.persistents.setdefault(number, []).append(pc)

    def pop(self, stack: List[Any], op: Op) -> List[Any]:
        """Takes the operands of an operation, and leaves its results."""
        takes, leaves = self.effect(op)
        taken = stack[len(stack) - takes :] if takes else []
        del stack[len(stack) - len(taken) :]
        stack.extend([None] * leaves)
        return taken

    def effect(self, op: Op) -> Tuple[int, int]:
        if op.name == "Store":
            return 2, 0
        if op.name == "TestSet":
            return 1, 1
        if op.name == "Call":
            routine = self.routines[op.number()]
            return len(routine.params), routine.kind == "FUNC"
        if op.name == "Pack":
            return (2 if op.args == "jointtarget" else SIZES.get(op.args, 1)), 1
        if op.name == "Func":
            return (2 if op.args == "NumToStr" else 1), 1
        if op.name == "Say":
            return (1 if op.args == "None" else 2), 0
        if op.name == "Order":
            return (2 if op.args[0] == "D" else 1), 0
        if op.name == "Irq":
            return int(op.args not in ("Disable", "Enable")), 0
        return EFFECTS.get(op.name, (0, 0))

    def statements(self, pcs: List[int]) -> List[int]:
        """The places of the statements of these places, each once."""
        seen: Set[int] = set()
        for pc in pcs:
            span = self.code.walk.spans[pc]
            if span and span[0] not in seen:
                seen.add(span[0])
        return sorted(seen)
