"""Where a way of an arm touches a zone: by which axis, and at which of its bounds."""
from fractions import Fraction
from typing import List, NamedTuple, Optional, Tuple

from .arm_operations import axis_name
from .script import Axes, Shape, degrees
from .values import LARGEST


class Touch(NamedTuple):
    """The axis by which a way comes to a zone, from 0, the bound that it comes to, and how much of the way is done there."""

    axis: int
    bound: int
    at: Fraction


def touch(start: Axes, end: Axes, shape: Shape) -> Optional[Touch]:
    """Where a way comes to a zone, or None if it begins in it. The way touches the zone."""
    found = entries(start, end, shape) if shape.is_inside else exits(start, end, shape)
    if not found:
        return None
    # All axes have to be within their bounds, and the last one to come there decides; one that is beyond is enough.
    return max(found, key=lambda it: it.at) if shape.is_inside else min(found, key=lambda it: it.at)


def entries(start: Axes, end: Axes, shape: Shape) -> List[Touch]:
    """The bounds by which axes come between their bounds."""
    found = []
    for axis, (low, high) in shape.bounds.items():
        bound = low if start[axis] < low else high if start[axis] > high else None
        if bound is not None and start[axis] != end[axis]:
            found.append(Touch(axis, bound, Fraction(bound - start[axis], end[axis] - start[axis])))
    return found


def exits(start: Axes, end: Axes, shape: Shape) -> List[Touch]:
    """The bounds by which axes leave their bounds; none if one is beyond them already."""
    found = []
    for axis, (low, high) in shape.bounds.items():
        if not low <= start[axis] <= high:
            return []
        bound = low if end[axis] < low else high if end[axis] > high else None
        if bound is not None:
            found.append(Touch(axis, bound, Fraction(bound - start[axis], end[axis] - start[axis])))
    return found


def bounds_text(shape: Shape) -> str:
    """A shape in words."""
    parts = [f"{axis_name(axis)} {bound_text(bound)}" for axis, bound in sorted(shape.bounds.items())]
    return ("inside " if shape.is_inside else "outside ") + ", ".join(parts)


def bound_text(bound: Tuple[int, int]) -> str:
    low, high = bound
    if low <= -LARGEST:
        return f"up to {degrees(high)}"
    return f"from {degrees(low)}" + ("" if high >= LARGEST else f" to {degrees(high)}")
