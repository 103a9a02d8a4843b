"""The operations of a task's code. specs/Steps.antt of crates/stack_code has what each one does.

One that asks the cell yields its request, or the beginning of it with a space behind, and is sent the answer.
"""
import functools
from typing import Any, Callable, Dict, Generator, List, Optional

from . import values
from .code import Op
from .memory import MODULE, ROUTINE, SHARED, Memory, Place
from .script import degrees
from .values import ABSENT, UNIT, Mark, Raised, shown

Asking = Generator[str, str, None]
pushed = functools.lru_cache(maxsize=10_000)(values.read_value)
# What the functions of one value make of it.
OF_ONE_VALUE: Dict[str, Callable[[Any], Any]] = {
    "Abs": abs,
    "Trunc": values.truncated,
    "StrLen": lambda text: len(text) * UNIT,
    "TestDI": lambda value: value == UNIT,
}


class Unknown(Exception):
    """An operation or a function of the program that has no rule here. It holds its name in words."""


class Fault(Exception):
    """A fault, and what it is about in words."""

    def __init__(self, name: str, about: str = "") -> None:
        super().__init__(name, about)
        self.name, self.about = name, about


class Operations(Memory):
    """The operations by their names, but those of the arm. `tasks` are the names of the cell's tasks, `signals` the values of those that
    the statement has read, and `interrupts` the names of the variables that stand for them."""

    pc: int
    stack: List[Any]
    errno: int
    trap: Optional[int]
    tasks: List[str]
    signals: Dict[int, int]
    interrupts: Dict[int, str]

    # Values and places

    def op_push(self, op: Op) -> None:
        self.stack.append(pushed(op.args))

    def op_errno(self, op: Op) -> None:
        self.stack.append(self.errno * UNIT)

    def op_drop(self, op: Op) -> None:
        self.stack.pop()

    def op_dup(self, op: Op) -> None:
        self.stack.append(self.stack[-1])

    def op_over(self, op: Op) -> None:
        self.stack.append(self.stack[-2])

    def op_slot(self, op: Op) -> None:
        self.stack.append(Place(MODULE, 0, int(op.args)))

    def op_local(self, op: Op) -> None:
        self.stack.append(Place(ROUTINE, len(self.frames) - 1, int(op.args)))

    def op_pers(self, op: Op) -> None:
        self.stack.append(Place(SHARED, int(op.args), 0))

    def op_ref(self, op: Op) -> None:
        self.stack.append(self.frames[-1].held[int(op.args)])

    def op_index(self, op: Op) -> None:
        index, place, length = self.stack.pop(), self.stack.pop(), int(op.args)
        number, rest = divmod(index, UNIT)
        if rest or not 1 <= number <= length:
            elements = "element" if length == 1 else "elements"
            raise Fault("IndexRange", f"the index is {shown(index)}, and {self.array(place)} has {length} {elements}")
        at = number if place.root == SHARED else place.number + number - 1
        self.stack.append(place._replace(number=at))

    def op_part(self, op: Op) -> None:
        self.stack.append(self.stack.pop()._replace(part=op.args))

    def op_load(self, op: Op) -> Optional[Asking]:
        place = self.stack.pop()
        if place.root == SHARED:
            return self.load(place)
        self.keep(place, self.get(place))
        return None

    def load(self, place: Place) -> Asking:
        self.keep(place, values.read_value((yield f"ReadP {place.path}")))

    def keep(self, place: Place, found: Any) -> None:
        self.reads[place] = found
        self.stack.append(found)

    def op_store(self, op: Op) -> Optional[Asking]:
        new, place = self.stack.pop(), self.stack.pop()
        if place.root == SHARED:
            return self.store(place, new)
        self.put(place, new)
        return None

    def store(self, place: Place, new: Any) -> Asking:
        yield f"WriteP {place.path} {shown_in_history(new)}"

    def op_pack(self, op: Op) -> None:
        count = 2 if op.args == "jointtarget" else values.SIZES.get(op.args, 1)
        self.stack[-count:] = [values.record_of(self.stack[-count:])]

    def op_binary(self, op: Op) -> None:
        right, left = self.stack.pop(), self.stack.pop()
        self.stack.append(values.applied(op.args, left, right))

    def op_unary(self, op: Op) -> None:
        value = self.stack.pop()
        self.stack.append(-value if op.args == "Minus" else not value)

    def op_func(self, op: Op) -> None:
        value = self.stack.pop()
        if op.args == "NumToStr":
            self.stack.append(values.num_text(self.stack.pop(), value))
        elif op.args in OF_ONE_VALUE:
            self.stack.append(OF_ONE_VALUE[op.args](value))
        else:
            raise Unknown(f"the function {op.args}")

    # Signals, and what is written for the operator

    def op_getsignal(self, op: Op) -> Asking:
        bit = int((yield f"ReadS D{op.args}"))
        self.signals[int(op.args)] = bit
        self.stack.append(bit * UNIT)

    def op_putsignal(self, op: Op) -> Asking:
        self.op_bit(op)
        value = self.stack.pop() // UNIT
        if (yield f"WriteS D{op.args} {value}") == "Tied":
            raise Fault("TiedOutput")

    def op_bit(self, op: Op) -> None:
        if self.stack[-1] not in (0, UNIT):
            raise Fault("SignalValue", f"the value is {shown(self.stack[-1])}, and a signal is 0 or 1")

    def op_say(self, op: Op) -> Asking:
        del self.stack[-1 if op.args == "None" else -2 :]
        yield "Say "

    # Locks and meetings

    def op_testset(self, op: Op) -> Asking:
        place = self.stack.pop()
        if place.root == SHARED:
            was_free = (yield f"TestSet {place.path}") == "TRUE"
        else:
            was_free = not self.get(place)
            self.put(place, True)
        self.reads.pop(place, None)
        self.reads[place] = not was_free
        self.stack.append(was_free)

    def op_taskset(self, op: Op) -> Asking:
        first, found = self.stack.pop(), 0
        for k in range(int(op.args)):
            self.stack.append(first._replace(number=k + 1 if first.root == SHARED else first.number + k))
            yield from self.op_load(op) or ()
            name = self.stack.pop()
            if name not in self.tasks:
                raise Fault("TaskName", self.no_task(name, self.array(first), k + 1))
            found |= 1 << self.tasks.index(name)
        self.stack.append(found * UNIT)

    def no_task(self, name: str, array: str, element: int) -> str:
        near = next((it for it in self.tasks if it.lower() == name.lower()), None)
        hint = f"; one is spelled {shown(near)}" if near else f"; the tasks are {', '.join(self.tasks)}"
        return f"{array}{{{element}}} is {shown(name)}, and no task has that name{hint}"

    def op_arrive(self, op: Op) -> Asking:
        self.stack.append((yield f"Arrive {op.args} {self.stack.pop() // UNIT}") == "Met")

    # Interrupts

    def op_connect(self, op: Op) -> Asking:
        old, place = self.stack.pop(), self.stack.pop()
        answer = yield f"Connect {old} {op.args}"
        if answer == "Already":
            raise Raised(values.ERR_ALRDYCNT, f"{self.name(place)} is connected already, and has interrupt {old}")
        if answer == "NoMore":
            raise Raised(values.ERR_INOMAX, "all 64 interrupts of the task are taken")
        number = Mark(answer.split()[1])
        self.put(place, number)
        self.interrupts[number] = self.name(place)

    def op_order(self, op: Op) -> Asking:
        number, (watched, single) = self.stack.pop(), op.args.split()
        if watched[0] == "D":
            self.op_bit(op)
            watched += f" {self.stack.pop() // UNIT}"
        answer = yield f"Order {number} {watched}" + (" Single" if single == "TRUE" else "")
        if answer == "Already":
            raise Raised(values.ERR_ALRDYCNT, f"{self.interrupts[number]} has an order already")
        self.known(answer)

    def op_irq(self, op: Op) -> Asking:
        words = op.args if op.args in ("Disable", "Enable") else f"{op.args} {self.stack.pop()}"
        self.known((yield words))

    def known(self, answer: str) -> None:
        if answer == "Unknown":
            raise Raised(values.ERR_UNKINO, "the intnum is not connected to a TRAP")


def shown_in_history(value: Any) -> str:
    """A value as a history writes it, which has 9E9 in digits."""
    return shown(value).replace("9E9", degrees(ABSENT)) if not isinstance(value, str) else shown(value)
