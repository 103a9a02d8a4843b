"""What the modules of a task declare, looked at before the conversion: values of constant expressions, robtargets, and routines."""
from typing import Dict, Iterator, List, Optional, Sequence, Tuple, Union

from .tree import Aggregate, Binary, Expression, Group, Name, Number, Text, Truth, Unary
from .tree_items import Data, Module, Routine
from .walking import nodes_in

Value = Union[float, str, bool, List["Value"]]
# What takes the place of a value where an axis has none: 9E9.
NONE_ABOVE = 8.9e9


class Literals:
    """The declarations of a task's modules by their names in small letters, and the values of expressions by them."""

    def __init__(self, modules: Sequence[Module]) -> None:
        self.modules = list(modules)
        self.routines: Dict[str, Routine] = {}
        self.data: Dict[str, Tuple[str, Data]] = {}
        for module in modules:
            for it in module.items:
                if isinstance(it, Routine):
                    self.routines.setdefault(it.name.lower(), it)
                elif isinstance(it, Data):
                    self.data.setdefault(it.name.lower(), (module.name, it))

    def value(self, node: Optional[Expression], depth: int = 0) -> Optional[Value]:
        """The value of an expression of literals and module data, by the values that these are declared with; None where it has none."""
        if depth > 20 or node is None:
            return None
        if isinstance(node, Number):
            return number(node.text)
        if isinstance(node, (Text, Truth)):
            return node.value
        if isinstance(node, Group):
            return self.value(node.inner, depth + 1)
        if isinstance(node, Unary):
            inner = self.value(node.operand, depth + 1)
            return (-inner if node.sign == "-" else inner) if isinstance(inner, float) and node.sign in "+-" else None
        if isinstance(node, Aggregate):
            parts = [self.value(it, depth + 1) for it in node.parts]
            return None if any(it is None for it in parts) else [it for it in parts if it is not None]
        if isinstance(node, Binary):
            return self.binary(node, depth)
        if isinstance(node, Name) and not node.parts and node.name.lower() in self.data:
            return self.value(self.data[node.name.lower()][1].value, depth + 1)
        return None

    def binary(self, node: Binary, depth: int) -> Optional[Value]:
        left, right = self.value(node.left, depth + 1), self.value(node.right, depth + 1)
        if not isinstance(left, float) or not isinstance(right, float) or node.sign == "/" and right == 0:
            return None
        if node.sign in ("+", "-"):
            return left + right if node.sign == "+" else left - right
        if node.sign in ("*", "/"):
            return left * right if node.sign == "*" else left / right
        return None

    def brackets(self) -> Iterator[Value]:
        """The values of all brackets of the modules that are constant."""
        for module in self.modules:
            for node in nodes_in(module):
                value = self.value(node) if isinstance(node, Aggregate) else None
                if value is not None:
                    yield value


def number(text: str) -> Optional[float]:
    """The value of a number literal."""
    try:
        return float(int(text, 0)) if text[:2].lower() in ("0x", "0o", "0b") else float(text)
    except ValueError:
        return None


def numbers(value: object, count: int) -> Optional[List[float]]:
    """A value that is a bracket of so many numbers."""
    if isinstance(value, list) and len(value) == count and all(isinstance(it, float) and not isinstance(it, bool) for it in value):
        return [float(it) for it in value]
    return None


def robtarget(value: object) -> Optional[Tuple[List[float], List[float], List[float]]]:
    """Place, quaternion and external axes of a value that has the shape of a robtarget."""
    if not isinstance(value, list) or len(value) != 4:
        return None
    trans, rot, conf, extax = (numbers(part, count) for part, count in zip(value, (3, 4, 4, 6)))
    return (trans, rot, extax) if trans and rot and conf and extax else None


def jointtarget(value: object) -> Optional[Tuple[List[float], List[float]]]:
    """Axes and external axes of a value that has the shape of a jointtarget."""
    if not isinstance(value, list) or len(value) != 2:
        return None
    robax, extax = numbers(value[0], 6), numbers(value[1], 6)
    return (robax, extax) if robax and extax else None


def frame_parts(value: object) -> Optional[Tuple[List[float], List[float]]]:
    """Place and quaternion of a value that has the shape of a pose."""
    if not isinstance(value, list) or len(value) != 2:
        return None
    trans, rot = numbers(value[0], 3), numbers(value[1], 4)
    return (trans, rot) if trans and rot else None
