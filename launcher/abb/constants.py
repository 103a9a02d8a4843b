"""The values of constant expressions."""
import operator
from typing import TYPE_CHECKING, Callable, Dict, List, Optional

from .reading import Value
from .tree import Aggregate, Binary, Component, Expression, Group, Index, Name, Number, Text, Truth, Unary
from .tree_items import Data

if TYPE_CHECKING:
    from .rendering import Rendering

# Predefined data of RAPID that have a value which does not depend on the controller.
PREDEFINED: Dict[str, Value] = {
    "low": 0.0,
    "high": 1.0,
    "pi": 3.14159265,
    "stempty": "",
    "btnok": 1.0,
    "resok": 1.0,
}
DEEPEST = 20
Operate = Callable[[float, float], Value]
OPERATIONS: Dict[str, Operate] = {
    "+": operator.add,
    "-": operator.sub,
    "*": operator.mul,
    "/": operator.truediv,
    "DIV": lambda a, b: float(int(a / b)),
    "MOD": lambda a, b: a - b * int(a / b),
    "=": operator.eq,
    "<>": operator.ne,
    "<": operator.lt,
    ">": operator.gt,
    "<=": operator.le,
    ">=": operator.ge,
}


def value_of(at: "Rendering", node: Expression, depth: int = 0) -> Optional[Value]:
    """The value of a constant expression, or None where it is none."""
    if depth > DEEPEST:
        return None
    if isinstance(node, Number):
        return number(node.text)
    if isinstance(node, (Text, Truth)):
        return node.value
    if isinstance(node, Group):
        return value_of(at, node.inner, depth + 1)
    if isinstance(node, Aggregate):
        parts = [value_of(at, it, depth + 1) for it in node.parts]
        return None if any(it is None for it in parts) else [it for it in parts if it is not None]
    if isinstance(node, Unary):
        return of_unary(node.sign, value_of(at, node.operand, depth + 1))
    if isinstance(node, Binary):
        return of_binary(node.sign, value_of(at, node.left, depth + 1), value_of(at, node.right, depth + 1))
    return of_name(at, node, depth) if isinstance(node, Name) else None


def number(text: str) -> float:
    return float(int(text, 0)) if text[:2].lower() in ("0x", "0o", "0b") else float(text)


def of_unary(sign: str, value: Optional[Value]) -> Optional[Value]:
    if sign == "NOT":
        return not value if isinstance(value, bool) else None
    if not isinstance(value, float):
        return None
    return -value if sign == "-" else value


def of_binary(sign: str, left: Optional[Value], right: Optional[Value]) -> Optional[Value]:
    if isinstance(left, str) and isinstance(right, str) and sign == "+":
        return left + right
    if isinstance(left, float) and isinstance(right, float) and sign in OPERATIONS:
        try:
            return OPERATIONS[sign](left, right)
        except (ZeroDivisionError, OverflowError, ValueError):
            return None
    return None


def of_name(at: "Rendering", node: Name, depth: int) -> Optional[Value]:
    meant = at.datum(node.name)
    if not isinstance(meant, Data):
        return PREDEFINED.get(node.name.lower()) if not node.parts and not at.is_counted(node.name) and not at.meant(node.name) else None
    if meant.kind != "CONST" or meant.value is None:
        return None
    return part_of(at, node, meant.type, value_of(at, meant.value, depth + 1), depth)


def part_of(at: "Rendering", node: Name, kind: str, value: Optional[Value], depth: int) -> Optional[Value]:
    """The part of a value that the indices and components of a name mean."""
    for part in node.parts:
        keys: List[Optional[int]] = []
        if isinstance(part, Index):
            keys = [as_index(value_of(at, it, depth + 1)) for it in part.parts]
        elif isinstance(part, Component):
            keys = [as_index(component_number(at, kind, part.name))]
            kind = component_type(at, kind, part.name)
        for key in keys:
            if key is None or not isinstance(value, list) or not 1 <= key <= len(value):
                return None
            value = value[key - 1]
    return value


def as_index(value: Optional[Value]) -> Optional[int]:
    return int(value) if isinstance(value, float) and value == int(value) else None


def components(at: "Rendering", kind: str) -> Dict[str, str]:
    """The types of a type's components by their names in small letters, in their order."""
    from .types import COMPONENTS

    base = at.base(kind)
    fields = at.job.names.fields(at.text, base)
    return {name.lower(): it for name, it in fields} if fields is not None else COMPONENTS.get(base, {})


def component_type(at: "Rendering", kind: str, name: str) -> str:
    return at.base(components(at, kind).get(name.lower(), ""))


def component_number(at: "Rendering", kind: str, name: str) -> Optional[Value]:
    names = list(components(at, kind))
    return float(names.index(name.lower()) + 1) if name.lower() in names else None
