"""The conversion of assignments."""
from typing import TYPE_CHECKING, List, Optional

from .expressions import is_dropped, parts_of, render_as
from .paths import Path, leaves_of, path_of, spelled
from .reading import POSITIONS
from .report import TO_DECIDE
from .tree import Aggregate, Assign, Component, Expression, Name
from .rendering import inner

if TYPE_CHECKING:
    from .rendering import Rendering

# Types of which an assignment changes what moves mean.
FRAMES = ("wobjdata", "tooldata")
# The most elements of an array that are assigned one by one.
MOST = 40


def assigned(at: "Rendering", node: Assign) -> Optional[str]:
    if not isinstance(node.place, Name):
        return at.lost(node, "a placeholder")
    path = path_of(at, node.place)
    if path is None:
        return at.lost(node, f"{node.place.name} is not known")
    if is_dropped(at, path.type) or path.type in FRAMES:
        if path.type in FRAMES:
            at.note(TO_DECIDE, node, f"{at.source(node)} is left out: frames and tools are those of the declarations")
        return None
    if path.is_array:
        return of_array(at, node, path)
    if path.rest and path.type in POSITIONS:
        return at.job.reading.assigned(at, node, path.depth)
    if at.job.names.fields(at.text, path.type) is not None and not path.rest:
        return of_record(at, node, path)
    return of_datum(at, node, path)


def of_datum(at: "Rendering", node: Assign, path: Path) -> str:
    """An assignment of one value; the type of brackets is that of the place."""
    place = spelled(at, path) + "".join(f".{it.name}" for it in path.rest if isinstance(it, Component))
    value = render_as(at, node.value, at.type_of(node.place))
    if is_whole_array(at, node.value):
        at.lost(node, "a whole array")
    return at.put_in(node, [(node.place.start, node.place.end, place), (node.value.start, node.value.end, value)])


def of_record(at: "Rendering", node: Assign, path: Path) -> str:
    """An assignment for each component."""
    places = [it for it, _ in leaves_of(at, path)]
    values = parts_of(at, node.value, path.type)
    if len(places) != len(values):
        at.lost(node, f"brackets that are no {path.type}")
    return " ".join(f"{place}:={value};" for place, value in zip(places, values))


def is_whole_array(at: "Rendering", node: Expression) -> bool:
    found = inner(node)
    path = path_of(at, found) if isinstance(found, Name) else None
    return bool(path and path.is_array)


def of_array(at: "Rendering", node: Assign, path: Path) -> str:
    """An assignment of a whole array: its elements one after the other."""
    count = 1
    for size in path.sizes:
        count *= size
    value = inner(node.value)
    if not path.sizes or not count:
        at.lost(node, "a whole array whose length is not known")
    if isinstance(value, Aggregate):
        values = elements_of(at, value, len(path.sizes))
        if len(values) != count or count > MOST or at.job.names.fields(at.text, path.type) is not None:
            at.lost(node, "brackets for a whole array")
        return " ".join(f"{spelled(at, path)}{{{n + 1}}}:={render_as(at, it, path.type)};" for n, it in enumerate(values))
    other = path_of(at, value) if isinstance(value, Name) else None
    if other is None or not other.is_array or other.sizes != path.sizes:
        return at.lost(node, "a whole array")
    return copied(at, path, other, count)


def copied(at: "Rendering", path: Path, other: Path, count: int) -> str:
    """A FOR over the elements of two arrays."""
    pairs = [(spelled(at, path), spelled(at, other))]
    if at.job.names.fields(at.text, path.type) is not None:
        pairs = [(a, b) for (a, _), (b, _) in zip(leaves_of(at, path), leaves_of(at, other))]
    body = " ".join(f"{a}{{abb_i}}:={b}{{abb_i}};" for a, b in pairs)
    return f"FOR abb_i FROM 1 TO {count} DO {body} ENDFOR"


def elements_of(at: "Rendering", node: Aggregate, dimensions: int) -> List[Expression]:
    """The elements of nested brackets, in the order of one dimension."""
    if dimensions <= 1:
        return node.parts
    found: List[Expression] = []
    for it in node.parts:
        part = inner(it)
        if not isinstance(part, Aggregate):
            return at.lost(it, "an element of an array in several dimensions that is not in brackets")
        found += elements_of(at, part, dimensions - 1)
    return found
