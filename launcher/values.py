"""Values of RAPID, as a history and a listing write them, and what operators make of them.

A num is an integer number of thousandths. A record of nums is a tuple: 12 nums of a jointtarget, 6 of a robjoint or an extjoint, 4 of
a speeddata. A datum of the type tasks is its text.
"""
import re
from typing import Any, Optional, Sequence, Tuple, Union

from .names import COMPONENTS
from .script import degrees, thousandths

Nums = Tuple[int, ...]
Value = Union[bool, int, str, Nums]
UNIT = 1000
# The greatest num; no bound, or no axis; the most characters of a text.
LARGEST = 9_999_999_999_999
ABSENT = 9_000_000_000_000
LONGEST = 80
ERR_DIVZERO, ERR_STRTOOLNG, ERR_ALRDYCNT, ERR_UNKINO, ERR_INOMAX = range(101, 106)
SIZES = {"robjoint": 6, "extjoint": 6, "jointtarget": 12, "speeddata": 4}
AXES = COMPONENTS["robjoint"] + COMPONENTS["extjoint"]
DOUBLED = re.compile(r'(["\\])\1')
NUM = re.compile(r"-?\d+(?:\.\d+)?")


class Raised(Exception):
    """An error, by its number, and what it is about in words."""

    def __init__(self, number: int, about: str) -> None:
        super().__init__(number, about)
        self.number, self.about = number, about


class Mark(int):
    """The number of an interrupt or a zone that a datum stands for, 0 if it stands for none."""


class OutOfRange(Exception):
    """A num that is out of range, with its calculation in words."""


def first_value(sort: str) -> Value:
    """The value of a datum that is given none."""
    kind = sort.lower()
    if kind in SIZES:
        return (0,) * SIZES[kind]
    return {"bool": False, "string": "", "tasks": "", "num": 0, "errnum": 0, "dionum": 0}.get(kind, Mark(0))


def read_value(text: str) -> Value:
    """A value as the program writes it."""
    if text in ("TRUE", "FALSE"):
        return text == "TRUE"
    if text.startswith('"'):
        return DOUBLED.sub(r"\1", text[1:-1])
    if text.startswith("["):
        return tuple(map(thousandths, NUM.findall(text)))
    return thousandths(text)


def shown(value: Value) -> str:
    """A value as RAPID writes it; 9E9 for a num without a value."""
    if isinstance(value, bool):
        return "TRUE" if value else "FALSE"
    if isinstance(value, str):
        return '"' + re.sub(r'(["\\])', r"\1\1", value) + '"'
    if isinstance(value, tuple):
        if len(value) == 12:
            return f"[{shown(value[:6])},{shown(value[6:])}]"
        return f"[{','.join(map(shown, value))}]"
    return "9E9" if value == ABSENT else degrees(value)


def part(value: Value, name: str) -> Value:
    """A part of a value, by the last component of its name; the whole if there is none."""
    place = place_of(value, name)
    if place is None or not isinstance(value, tuple):
        return value
    start, end = place
    return value[start] if end is None else value[start:end]


def with_part(value: Any, name: str, new: Value) -> Value:
    """The value with another part."""
    place = place_of(value, name)
    if place is None or not isinstance(value, tuple):
        return new
    start, end = place
    nums = new if isinstance(new, tuple) else (new,)
    return value[:start] + nums + value[start + 1 if end is None else end :]


def place_of(value: Value, name: str) -> Optional[Tuple[int, Optional[int]]]:
    """Where a part is among the nums of a record: one of them, or those up to an end. None for the whole."""
    last = name.rpartition(".")[2].lower()
    if last in ("", "taskname") or not isinstance(value, tuple):
        return None
    if last in COMPONENTS["jointtarget"]:
        return (0, 6) if last == "robax" else (6, 12)
    if last in COMPONENTS["speeddata"]:
        return COMPONENTS["speeddata"].index(last), None
    return AXES.index(last) % len(value), None


def record_of(values: Sequence[Value]) -> Value:
    """The record of components."""
    if len(values) == 1:
        return values[0]
    nums: Nums = ()
    for it in values:
        nums += it if isinstance(it, tuple) else (int(it),)
    return nums


# Operators, by their names in a listing

SIGNS = {"Add": "+", "Sub": "-", "Mul": "*", "Div": "/", "IntDiv": "DIV", "Mod": "MOD"}


def applied(operator: str, left: Any, right: Any) -> Value:
    if operator in SIGNS:
        return joined(left, right) if isinstance(left, str) else calculated(operator, int(left), int(right))
    if operator in ("Equal", "NotEqual"):
        return (left == right) == (operator == "Equal")
    if operator in ("And", "Or", "Xor"):
        return {"And": left and right, "Or": left or right, "Xor": left != right}[operator]
    return {"Less": left < right, "Greater": left > right, "LessEqual": left <= right, "GreaterEqual": left >= right}[operator]


def joined(left: str, right: Value) -> str:
    text = left + str(right)
    if len(text) > LONGEST:
        raise Raised(ERR_STRTOOLNG, f"a text of {len(text)} characters, and the most are {LONGEST}")
    return text


def calculated(operator: str, left: int, right: int) -> int:
    if operator in ("Div", "IntDiv", "Mod") and right == 0:
        raise Raised(ERR_DIVZERO, said(operator, left, right))
    found = result(operator, left, right)
    if abs(found) > LARGEST:
        raise OutOfRange(said(operator, left, right))
    return found


def said(operator: str, left: int, right: int) -> str:
    return f"{shown(left)} {SIGNS[operator]} {shown(right)}"


def result(operator: str, left: int, right: int) -> int:
    if operator in ("Add", "Sub"):
        return left + right if operator == "Add" else left - right
    if operator in ("Mul", "Div"):
        return rounded(left * right, UNIT) if operator == "Mul" else rounded(left * UNIT, right)
    quotient = abs(left) // abs(right) * (1 if left * right >= 0 else -1)
    return quotient * UNIT if operator == "IntDiv" else left - quotient * right


def in_range(size: int, about: str) -> int:
    if abs(size) > LARGEST:
        raise OutOfRange(about)
    return size


def rounded(top: int, bottom: int) -> int:
    """A quotient, rounded half away from zero."""
    size = (2 * abs(top) + abs(bottom)) // (2 * abs(bottom))
    return size if top * bottom >= 0 else -size


# Functions of values


def num_text(size: int, decimals: int) -> str:
    """NumToStr."""
    count = min(3, max(decimals, 0) // UNIT)
    cut = rounded(abs(size), 10 ** (3 - count))
    whole, rest = divmod(cut, 10**count)
    return ("-" if size < 0 and cut else "") + str(whole) + (f".{rest:0{count}}" if count else "")


def truncated(size: int) -> int:
    return abs(size) // UNIT * UNIT * (-1 if size < 0 else 1)
