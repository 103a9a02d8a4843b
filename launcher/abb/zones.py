"""World zones. By places of the TCP a box is a zone of axes 1 to 3, and joint zones are not watched; by joints it is the other way round."""
from typing import List, Optional

from .expressions import options_of, values_of
from .instructions import INSTRUCTIONS, argument, kept
from .rendering import Rendering, inner
from .report import UNWATCHED
from .tree import Expression, Instruct, Name

BOXES = ("wzboxdef",)
JOINTS = ("wzlimjointdef", "wzhomejointdef")
OTHERS = ("wzcyldef", "wzsphdef")
EXTERNAL = "[9E9,9E9,9E9,9E9,9E9,9E9]"


def is_watched(at: Rendering, small: str) -> bool:
    """Whether the shape of a definition is one in this reading; a converted task has those that it has."""
    if at.job.is_converted:
        return True
    return small in (BOXES if at.job.reading.is_places else JOINTS)


def shape_defined(at: Rendering, node: Instruct) -> Optional[str]:
    small = node.name.lower()
    if not is_watched(at, small):
        at.note(UNWATCHED, node, at.source(node))
        return None
    return box(at, node) if small in BOXES else kept(at, node, ["", "jointtarget", "jointtarget"], ["inside", "outside"])


def box(at: Rendering, node: Instruct) -> str:
    """A box of the cell: two corners in the world."""
    side = "Outside" if "outside" in options_of(node.arguments) else "Inside"
    shape = at.render(argument(at, node, 0))
    corners = [corner(at, node, argument(at, node, it)) for it in (1, 2)]
    ends = ["[[{},{},{},9E9,9E9,9E9],{}]".format(*(f"{it:g}" for it in pick), EXTERNAL) for pick in sides(corners)]
    return f"WZLimJointDef\\{side},{shape},{ends[0]},{ends[1]};"


def sides(corners: List[List[float]]) -> List[List[float]]:
    """The low and the high bounds, in centimetres to a thousandth."""
    pairs = [sorted(round(it / 10, 3) for it in pair) for pair in zip(*corners)]
    return [[it[0] for it in pairs], [it[1] for it in pairs]]


def corner(at: Rendering, node: Instruct, place: Expression) -> List[float]:
    """The numbers of a constant pos."""
    found = inner(place)
    value = at.constant(found)
    if value is None and isinstance(found, Name) and not found.parts:
        value = at.initial(found.name)
    if not isinstance(value, list) or len(value) != 3:
        return at.lost(node, "a box whose corners are no constants")
    return [it for it in value if isinstance(it, float)]


def watched_shapes(at: Rendering) -> List[str]:
    """The names of the shapes that are watched in this task, in small letters."""
    found = [it for it in at.job.names.instructions() if it.name.lower() in (*BOXES, *JOINTS) and is_watched(at, it.name.lower())]
    return [it for it in (argument_name(it, 0) for it in found) if it]


def watched_zones(at: Rendering) -> List[str]:
    """The names of the zones that are made from such shapes."""
    shapes = watched_shapes(at)
    made = [it for it in at.job.names.instructions() if it.name.lower() in ("wzlimsup", "wzdoset") and argument_name(it, 1) in shapes]
    return [argument_name(it, 0) for it in made]


def argument_name(node: Instruct, number: int) -> str:
    values = values_of(node.arguments)
    found = inner(values[number]) if number < len(values) else None
    return found.name.lower() if isinstance(found, Name) else ""


def limited(at: Rendering, node: Instruct) -> Optional[str]:
    """WZLimSup, WZDOSet of a shape that is watched."""
    if argument_name(node, 1) not in watched_shapes(at):
        at.note(UNWATCHED, node, at.source(node))
        return None
    found = options_of(node.arguments)
    if "before" not in found:
        return kept(at, node, [], ["temp", "stat", "inside"])
    zone, *rest = [at.render(it) for it in values_of(node.arguments)]
    return f"WZDOSet\\{'Temp' if 'temp' in found else 'Stat'},{zone}\\Inside,{','.join(rest)};"


def of_zone(at: Rendering, node: Instruct) -> Optional[str]:
    """WZDisable, WZEnable, WZFree of a zone that is watched."""
    return kept(at, node) if argument_name(node, 0) in watched_zones(at) else None


INSTRUCTIONS.update({it: shape_defined for it in (*BOXES, *JOINTS, *OTHERS)})
INSTRUCTIONS.update({"wzlimsup": limited, "wzdoset": limited, "wzdisable": of_zone, "wzenable": of_zone, "wzfree": of_zone})
