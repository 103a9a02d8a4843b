"""Texts of the reading by joints: the values of rows, and the functions over rows."""
from typing import List, Optional, Sequence, Tuple

from .geometry import shown
from .literals import NONE_ABOVE, Value
from .place_texts import axis, function
from .rows import Row

NO_AXES: List[float] = [9e9] * 6


def axes_text(row: Row, extax: Sequence[float]) -> str:
    """The jointtarget of a row, noughts where it is empty; external axes without a value are those of the backup."""
    values = row.values if row.is_filled else (0.0,) * 6 + (None,) * 6
    outer: List[Optional[float]] = [given if it is None else it for given, it in zip(extax, values[6:])]
    return f"[[{','.join(axis(it) for it in values[:6])}],[{','.join(axis(it) for it in outer)}]]"


def computed_function(name: str, rows: Sequence[Tuple[str, List[float], Row]], count: int) -> str:
    """Offs or RelTool over the rows of the table: for other numbers a text, and the fault NoReturn."""
    names = ("x", "y", "z", "rx", "ry", "rz")[:count]
    lines = []
    for base, given, row in rows:
        values = [*given, *[0.0] * count][:count]
        is_there = " AND ".join(f"{it}={shown(value)}" for it, value in zip(names, values))
        lines.append(f"IF p={base} AND {is_there} RETURN {axes_text(row, NO_AXES)};")
    told = '+" "+'.join(f"NumToStr({it},3)" for it in names)
    lines.append(f'TPWrite "no row {name} "+{told};')
    return function(f"jointtarget {name}(jointtarget p,{','.join(f'num {it}' for it in names)})", lines)


def plain_value(value: Optional[Value]) -> str:
    """A constant as RAPID has it."""
    if isinstance(value, list):
        return "[" + ",".join(plain_value(it) for it in value) + "]"
    return "9E9" if isinstance(value, float) and value >= NONE_ABOVE else f"{value:.10g}" if isinstance(value, float) else str(value)
