"""Work objects as frames in the world, and the functions of the generated module that take places there and back."""
from typing import List, Optional

from . import place_texts as texts
from .geometry import Frame, Vector, angles_of, composed, inverse, is_identity, matrix_of, of_angles, product, shown
from .literals import frame_parts
from .reading import Context, Value
from .tree import Expression, Name, Node
from .tree_items import Data, Parameter


class Frames:
    """The work objects of one task, those of its modules in `names`; `orientations` are those that its robtargets have."""

    def __init__(self, orientations: List[Vector], names: List[str]) -> None:
        self.orientations = orientations
        self.names = names

    def in_world(self, at: Context, text: str, wobj: Optional[Expression]) -> str:
        """The text of a place of a work object, taken to the world."""
        name = self.name_of(at, wobj)
        if not name:
            return text
        if isinstance(at.datum(name), Parameter):
            return f"{self.by_number(at, wobj)}({name},{text})"
        function = self.function(at, name, wobj)
        return f"{function}({text})" if function else text

    def from_world(self, at: Context, text: str, wobj: Optional[Expression]) -> str:
        """The text of a place of the world, in a work object."""
        name = self.name_of(at, wobj)
        if not name:
            return text
        if wobj and isinstance(at.datum(name), Parameter):
            at.lost(wobj, "a position in a work object that is an argument")
        frame = self.frame(at, name, wobj)
        if is_identity(frame):
            return text
        called = f"from_{name}"
        return f"{at.add(called, texts.moved(called, inverse(frame), self.turned_back(frame)))}({text})"

    def number(self, at: Context, wobj: Optional[Expression]) -> str:
        """A work object as a num, for a parameter: its number in the task, 0 for wobj0 or none."""
        name = self.name_of(at, wobj)
        if not name:
            return "0"
        if isinstance(at.datum(name), Parameter):
            return name
        small = [it.lower() for it in self.names]
        if name.lower() not in small:
            at.lost(wobj or Node(0, 0), f"{name} is no work object of a module")
        return str(small.index(name.lower()) + 1)

    def by_number(self, at: Context, wobj: Optional[Expression]) -> str:
        """The function that takes a place to the world by the number of its work object."""
        known = [frame_of(at.initial(it)) is not None for it in self.names]
        functions = [self.function(at, it, wobj) if is_known else "" for it, is_known in zip(self.names, known)]
        return at.add("in_frame", texts.chosen("in_frame", functions))

    def function(self, at: Context, name: str, wobj: Optional[Expression]) -> str:
        """The name of the function that takes places of a work object to the world; empty where it changes nothing."""
        frame = self.frame(at, name, wobj)
        called = f"in_{name}"
        return "" if is_identity(frame) else at.add(called, texts.moved(called, frame, self.orientations))

    def turned_back(self, frame: Frame) -> List[Vector]:
        """The orientations of the task, as they are in the world by a frame."""
        return [[float(shown(it)) for it in angles_of(product(frame[0], of_angles(angles)))] for angles in self.orientations]

    def name_of(self, at: Context, wobj: Optional[Expression]) -> str:
        """The name of a work object, empty for wobj0."""
        if wobj is None:
            return ""
        if not isinstance(wobj, Name) or wobj.parts:
            at.lost(wobj, "a work object that is not a name")
        return "" if wobj.name.lower() == "wobj0" else wobj.name

    def frame(self, at: Context, name: str, node: Optional[Node]) -> Frame:
        """The frame of a declared work object: its user frame with its object frame."""
        value = at.initial(name) if isinstance(at.datum(name), Data) else None
        found = frame_of(value)
        if not found:
            assert node is not None
            at.lost(node, f"the frames of {name} are not known")
        return found


def frame_of(value: Optional[Value]) -> Optional[Frame]:
    """The frame of a wobjdata's value, in centimetres."""
    if not isinstance(value, list) or len(value) != 5:
        return None
    user, inner = pose_of(value[3]), pose_of(value[4])
    return composed(user, inner) if user and inner else None


def pose_of(value: Value) -> Optional[Frame]:
    parts = frame_parts(value)
    matrix = matrix_of(parts[1]) if parts else None
    return (matrix, [it / 10 for it in parts[0]]) if parts and matrix else None
