"""The tables of a TOML text: which keys and heads define them, and which define one twice."""
import enum
from typing import Dict, List, Sequence, Tuple, Union

Path = Tuple[str, ...]


class Origin(enum.Enum):
    """What made a table: a head that passed through it, a dotted key, or its own head."""

    PASSED = 1
    DOTTED = 2
    HEAD = 3


class Table:
    """A table while a text is read: what made it, and what its keys have: a value, a table, or the tables of an array."""

    def __init__(self, origin: Origin) -> None:
        self.origin = origin
        self.has: Dict[str, Union[None, Table, List[Table]]] = {}


class Clash(Exception):
    """A key is there already as something else."""


def by_head(table: Table, names: Sequence[str]) -> Tuple[Table, Path]:
    """The table that the names of a head lead to from a table, and its path, with the numbers of elements. What is missing is made."""
    path: Path = ()
    for name in names:
        found = table.has.setdefault(name, Table(Origin.PASSED))
        path += (name,)
        if isinstance(found, list):
            path += (str(len(found) - 1),)
            found = found[-1]
        if found is None:
            raise Clash
        table = found
    return table, path


def define(root: Table, names: Sequence[str], is_array: bool) -> Tuple[Table, Path]:
    """The table that a head defines, and its path."""
    outer, path = by_head(root, names[:-1])
    name = names[-1]
    if is_array:
        elements = outer.has.setdefault(name, [])
        if not isinstance(elements, list):
            raise Clash
        elements.append(Table(Origin.HEAD))
        return elements[-1], (*path, name, str(len(elements) - 1))
    found = outer.has.setdefault(name, Table(Origin.PASSED))
    if not isinstance(found, Table) or found.origin is not Origin.PASSED:
        raise Clash
    found.origin = Origin.HEAD
    return found, (*path, name)


def put(table: Table, names: Sequence[str]) -> None:
    """Defines a key of a table, by the names of its dotted key."""
    for name in names[:-1]:
        found = table.has.setdefault(name, Table(Origin.DOTTED))
        if not isinstance(found, Table) or found.origin is Origin.HEAD:
            raise Clash
        found.origin = Origin.DOTTED
        table = found
    if names[-1] in table.has:
        raise Clash
    table.has[names[-1]] = None
