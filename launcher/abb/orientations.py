"""What a task names of positions, looked at before the conversion: orientations, external axes, and whether positions leave axes out."""
from dataclasses import dataclass, field
from typing import Iterable, Iterator, List

from .geometry import Vector, angles_of, matrix_of, of_angles, product, shown, turned
from .literals import NONE_ABOVE, Literals, Value, jointtarget, numbers, robtarget
from .tree import Call
from .walking import nodes_in


@dataclass
class Named:
    """`angles` are the orientations of the robtargets that a task names, about x, y, z in thousandths of a degree, each once; the one that
    changes nothing comes first. `external_axes` is how many the positions have values for; `is_partial`: some position has 9E9 for one of
    those, or for the robot's axes, which then stay where they are."""

    angles: List[Vector] = field(default_factory=lambda: [[0.0, 0.0, 0.0]])
    external_axes: int = 0
    is_partial: bool = False

    def add_angles(self, angles: Vector) -> None:
        rounded = [float(shown(it)) for it in angles]
        if rounded not in self.angles:
            self.angles.append(rounded)


def named_in(literals: Literals, external_axes: int) -> Named:
    """What the modules of a task name; `external_axes` are those that its arm has by MOC.cfg."""
    found = Named(external_axes=external_axes)
    values = list(literals.brackets())
    for rot in orientations_in(values):
        matrix = matrix_of(rot)
        if matrix:
            found.add_angles(angles_of(matrix))
    for angles in computed_in(literals):
        found.add_angles(angles)
    extras = [it for it in map(extax_of, values) if it]
    for extax in extras:
        used = [n for n, it in enumerate(extax, 1) if it < NONE_ABOVE]
        found.external_axes = max([found.external_axes, *used])
    has_gaps = any(it >= NONE_ABOVE for extax in extras for it in extax[: found.external_axes])
    has_no_robot = any(it[0][0] >= NONE_ABOVE for it in map(jointtarget, values) if it)
    found.is_partial = has_gaps or has_no_robot
    return found


def orientations_in(values: Iterable[Value]) -> List[Vector]:
    """The quaternions of robtargets, and those that stand by themselves."""
    found = []
    for value in values:
        target, alone = robtarget(value), numbers(value, 4)
        if target:
            found.append(target[1])
        elif alone and abs(sum(it * it for it in alone) - 1) < 0.01:
            found.append(alone)
    return found


def computed_in(literals: Literals) -> Iterator[Vector]:
    """The orientations of OrientZYX and of RelTool with constant arguments, as angles."""
    for module in literals.modules:
        for node in nodes_in(module):
            if isinstance(node, Call) and node.name.lower() == "orientzyx":
                turns = numbers([literals.value(it.value) for it in node.arguments], 3)
                if turns:
                    yield angles_of(of_angles(turns[::-1]))
            elif isinstance(node, Call) and node.name.lower() == "reltool" and node.arguments:
                options = {it.option.lower(): it.value for it in node.arguments if it.option}
                given = [literals.value(options[it]) if it in options else 0.0 for it in ("rx", "ry", "rz")]
                target, turns = robtarget(literals.value(node.arguments[0].value)), numbers(given, 3)
                matrix = matrix_of(target[1]) if target else None
                if matrix and turns:
                    yield angles_of(product(matrix, turned(*turns)))


def extax_of(value: Value) -> List[float]:
    target, joints = robtarget(value), jointtarget(value)
    return target[2] if target else joints[1] if joints else []
