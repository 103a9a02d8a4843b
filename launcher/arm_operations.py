"""The operations of a task's code that are about its arm: moves, and the zones of the arm."""
from typing import Dict, List, NamedTuple, Optional, Tuple

from . import values
from .code import Op
from .memory import Shape
from .operations import Asking, Fault, Operations
from .script import degrees
from .values import ABSENT, AXES, LARGEST, UNIT, Mark, shown

# The numbers of axes and the most that they may be, in thousandths: those of a robot, and the external ones.
ROBOT, FARTHEST, FARTHEST_OUTSIDE = 6, 720_000, 100_000_000
JOINTS = 12


class Way(NamedTuple):
    """A move: how many setpoints it has, and how many were given."""

    count: int
    given: int


class Made(NamedTuple):
    """A zone of the arm: the variable that stands for it, and the places in the code that made it and that last switched it on."""

    name: str
    pc: int
    on: Optional[int] = None


class ArmOperations(Operations):
    """The operations by their names. `axes` is how many axes the arm has, `way` the move between two of its setpoints."""

    axes: int
    way: Optional[Way]
    zones: Dict[int, Made]

    # Moves

    def op_here(self, op: Op) -> Asking:
        self.stack.append(position((yield "Position")))

    def op_still(self, op: Op) -> None:
        if self.trap is not None:
            raise Fault("MoveInTrap")

    def op_aim(self, op: Op) -> Asking:
        speed, target = self.stack.pop(), self.stack.pop()
        for axis in range(self.axes):
            most = FARTHEST if axis < ROBOT else FARTHEST_OUTSIDE
            if abs(target[axis]) > most:
                what = f"no value (9E9) for {axis_name(axis)}" if target[axis] == ABSENT else f"{axis_name(axis)} at {shown(target[axis])}"
                raise Fault("JointRange", f"the target has {what}, and it has to be between -{degrees(most)} and {degrees(most)}")
        if speed[0] <= 0:
            raise Fault("Speed", f"the first component of the speed is {shown(speed[0])}")
        start, cap = position((yield "Position")), max(1, speed[0] // UNIT)
        change = max(abs(target[axis] - start[axis]) for axis in range(self.axes))
        self.way = Way(max(1, -(-change // cap)), 0)

    # Zones

    def op_shape(self, op: Op) -> None:
        high, low, place = self.stack.pop(), self.stack.pop(), self.stack.pop()
        inside, home = op.args.split()
        if home == "TRUE":
            low, high = around(low, high)
        bounds = {k: [low[k], high[k]] for k in range(JOINTS) if low[k] != ABSENT or high[k] != ABSENT}
        self.check(bounds)
        for bound in bounds.values():
            bound[:] = [-LARGEST if bound[0] == ABSENT else bound[0], LARGEST if bound[1] == ABSENT else bound[1]]
        self.put(place, Shape(inside == "TRUE", bounds))

    def check(self, bounds: Dict[int, List[int]]) -> None:
        for axis in bounds:
            if axis >= self.axes:
                raise Fault("ExtAxis", f"the shape has a bound on {axis_name(axis)}, and the arm has {self.axes} axes")
        if not bounds:
            raise Fault("ZoneShape", "no axis has a bound: each low and high value is 9E9")
        for axis, (low, high) in bounds.items():
            if ABSENT not in (low, high) and low >= high:
                bounds_text = f"the low bound {shown(low)}, which is not below its high bound {shown(high)}"
                raise Fault("ZoneShape", f"{axis_name(axis)} has {bounds_text}")

    def op_zoneset(self, op: Op) -> Asking:
        yield from self.zone(f"ZoneSet {{}} {'Temp' if op.args == 'TRUE' else 'Stat'} ")

    def op_zonetie(self, op: Op) -> Asking:
        self.op_bit(op)
        self.stack.pop()
        yield from self.zone(f"ZoneTie {{}} {'Temp' if op.args.split()[0] == 'TRUE' else 'Stat'} ")

    def zone(self, request: str) -> Asking:
        shape, old, place = self.stack.pop(), self.stack.pop(), self.stack.pop()
        if not isinstance(shape, Shape):
            raise Fault("ZoneShape", "the shape was not defined: no WZLimJointDef or WZHomeJointDef came before")
        answer = yield request.format(old)
        if answer == "ZoneUsed":
            raise Fault(answer, f"{self.name(place)} stands for zone {old} already")
        if answer in ("ZoneFull", "Tied"):
            raise Fault("TiedOutput" if answer == "Tied" else answer)
        number = Mark(answer.split()[1])
        self.put(place, number)
        self.zones[number] = Made(self.name(place), self.pc)

    def op_zone(self, op: Op) -> Asking:
        number, place = self.stack.pop(), self.stack.pop()
        if (yield f"Zone{op.args} {number}") == "NoZone":
            raise Fault("NoZone", f"{self.name(place)} stands for no temporary zone: none was made with it, or WZFree has freed it")
        if op.args == "Free":
            self.put(place, Mark(0))
        elif op.args == "On":
            self.zones[number] = self.zones[number]._replace(on=self.pc)


def position(answer: str) -> values.Nums:
    """A position, with 9E9 for the axes that the arm does not have."""
    found = tuple(map(values.thousandths, answer.split()))
    return found + (ABSENT,) * (JOINTS - len(found))


def around(middle: values.Nums, delta: values.Nums) -> Tuple[List[int], List[int]]:
    """The low and the high position around a middle one."""
    low, high = [ABSENT] * JOINTS, [ABSENT] * JOINTS
    for axis, (at, reach) in enumerate(zip(middle, delta)):
        if ABSENT not in (at, reach):
            low[axis] = values.in_range(at - reach, f"{axis_name(axis)}: {shown(at)} - {shown(reach)}")
    for axis, (at, reach) in enumerate(zip(middle, delta)):
        if ABSENT not in (at, reach):
            high[axis] = values.in_range(at + reach, f"{axis_name(axis)}: {shown(at)} + {shown(reach)}")
    return low, high


def axis_name(axis: int) -> str:
    """An axis, from 0, as a cell builder calls it."""
    return f"axis {axis + 1}" if axis < ROBOT else f"the external axis {AXES[axis]}"
