"""Parts of positions in the reading by places: components, assignments to them, and the functions of positions."""
from typing import Callable, Dict, List, Optional

from . import place_texts as texts
from .frames import Frames
from .geometry import angles_of, applied, matrix_of, of_angles, product, quaternion_of, shown, turned
from .literals import numbers, robtarget
from .orientations import Named
from .reading import Context
from .report import GUESSED
from .tree import Aggregate, Assign, Call, Component, Expression, Name
from .tree_items import Data

AXIS = {"x": 1, "y": 2, "z": 3}
QUATERNION = ("q1", "q2", "q3", "q4")


class Parts:
    """The rules for the positions of a task: its work objects, and the orientations that it names."""

    def __init__(self, frames: Frames, named: Named) -> None:
        self.frames = frames
        self.named = named

    # Components

    def component(self, at: Context, node: Name, type_before: str, depth: int) -> str:
        whole = self.whole(at, node, depth)
        names = names_after(at, node, depth)
        if names[0] == "extax":
            return ".".join([whole, *names])
        if type_before != "robtarget":
            at.lost(node, "an axis of a position that is in places of the TCP")
        if names[0] == "trans" and len(names) == 2 and names[1] in AXIS:
            return f"({whole}.robax.rax_{AXIS[names[1]]}*10)"
        if names[0] == "rot" and len(names) == 2 and names[1] in QUATERNION:
            return self.quaternion(at, whole, QUATERNION.index(names[1]) + 1)
        return at.lost(node, f"the component {'.'.join(names)} of a robtarget")

    def whole(self, at: Context, node: Name, depth: int) -> str:
        """The text of the position of which a name has a component."""
        end = node.parts[depth - 1].end if depth else node.start + len(node.name)
        return at.render(Name(node.start, end, node.name, node.parts[:depth]))

    def quaternion(self, at: Context, whole: str, part: int) -> str:
        return f"{at.add('quaternion', texts.quaternion('quaternion', self.named.angles))}({whole},{part})"

    def of(self, at: Context, node: Expression, kind: str) -> List[str]:
        """The nums of a pos, or of an orient."""
        if isinstance(node, Name):
            depth = depth_before(node, "trans" if kind == "pos" else "rot")
            if depth is not None:
                whole = self.whole(at, node, depth)
                if kind == "pos":
                    return [f"({whole}.robax.rax_{n}*10)" for n in (1, 2, 3)]
                return [self.quaternion(at, whole, n) for n in (1, 2, 3, 4)]
        if isinstance(node, Call) and node.name.lower() == "cpos" and kind == "pos":
            lines = ["VAR jointtarget now;", f"now:={self.now(at, node)};"]
            lines += [f"IF i={n} RETURN now.robax.rax_{n}*10;" for n in (1, 2, 3)]
            name = at.add(f"CPos{self.suffix(node)}", texts.function(f"num CPos{self.suffix(node)}(num i)", lines))
            return [f"{name}({n})" for n in (1, 2, 3)]
        if isinstance(node, Call) and node.name.lower() == "orobt" and kind == "orient":
            return [self.quaternion(at, self.now(at, node), n) for n in (1, 2, 3, 4)]
        angles = self.constant_angles(at, node)
        if angles and kind == "orient":
            return [shown(it) for it in quaternion_of(of_angles(angles))]
        return at.lost(node, f"a computed {kind}")

    # Orientations

    def constant_angles(self, at: Context, node: Expression) -> Optional[List[float]]:
        """The angles about x, y, z of a constant orient."""
        if isinstance(node, Call) and node.name.lower() == "orientzyx" and len(node.arguments) == 3:
            found = [at.constant(it.value) if it.value else None for it in node.arguments]
            values = numbers(found, 3)
            return angles_of(of_angles(values[::-1])) if values else None
        rot = numbers(at.constant(node), 4)
        matrix = matrix_of(rot) if rot else None
        return angles_of(matrix) if matrix else None

    def angles(self, at: Context, node: Expression) -> List[str]:
        """The texts of the angles about x, y, z of an orient."""
        constant = self.constant_angles(at, node)
        if constant:
            self.named.add_angles(constant)
            return [shown(it) for it in constant]
        if isinstance(node, Call) and node.name.lower() == "orientzyx" and len(node.arguments) == 3:
            return [f"({at.render(it.value)})" for it in node.arguments[::-1] if it.value]
        if isinstance(node, Call) and node.name.lower() == "orobt":
            now = at.add("angle_now", texts.function("num angle_now(num i)", [
                "VAR jointtarget now;", "now:=CJointT();", *(f"IF i={n} RETURN now.robax.rax_{n};" for n in (4, 5, 6))]))
            return [f"{now}({n})" for n in (4, 5, 6)]
        depth = depth_before(node, "rot") if isinstance(node, Name) else None
        if isinstance(node, Name) and depth is not None:
            return [f"{self.whole(at, node, depth)}.robax.rax_{n}" for n in (4, 5, 6)]
        return at.lost(node, "a computed orientation")

    def computed(self, at: Context, node: Aggregate) -> str:
        """A robtarget in brackets of which some part is computed."""
        trans, rot, _, extax = node.parts
        places = at.parts(trans, "pos")
        outer = [f"({at.render(it)})" for it in extax.parts] if isinstance(extax, Aggregate) else []
        if len(places) != 3 or len(outer) != 6:
            at.lost(node, "a part of a position")
        axes = [f"({it})/10" for it in places] + self.angles(at, rot)
        return f"[[{','.join(axes)}],[{','.join(outer)}]]"

    # Assignments

    def assigned(self, at: Context, node: Assign, depth: int) -> str:
        place = node.place
        assert isinstance(place, Name)
        whole, names = self.whole(at, place, depth), names_after(at, place, depth)
        if names[0] == "extax" and len(names) == 2:
            return f"{whole}.extax.{names[1]}:={at.render(node.value)};"
        if at.type_of(Name(place.start, place.end, place.name, place.parts[:depth])) == "jointtarget":
            at.lost(node, "an axis of a position that is in places of the TCP")
        if names[0] == "robconf":
            return ""
        if names == ["trans"]:
            return self.each(at, node, whole, [f"({it})/10" for it in at.parts(node.value, "pos")], 1)
        if names == ["rot"]:
            return self.each(at, node, whole, self.angles(at, node.value), 4)
        if names[0] == "trans" and names[-1] in AXIS:
            return f"{whole}.robax.rax_{AXIS[names[-1]]}:=({at.render(node.value)})/10;"
        return at.lost(node, f"an assignment to {'.'.join(names)} of a robtarget")

    def each(self, at: Context, node: Assign, whole: str, values: List[str], first: int) -> str:
        """Assignments of three values; not kept where one reads what an earlier one has written."""
        places = [f"{whole}.robax.rax_{n}" for n in range(first, first + 3)]
        if any(places[k] in value for n, value in enumerate(values) for k in range(n)):
            at.lost(node, "a part of a position, by its own other parts")
        return "".join(f"{place}:={value};" for place, value in zip(places, values))

    # Functions

    def call(self, at: Context, node: Call) -> str:
        rule = RULES.get(node.name.lower())
        return rule(self, at, node) if rule else at.lost(node, f"the function {node.name} has no rule")

    def offs(self, at: Context, node: Call) -> str:
        p, *ways = positional(at, node, 4)
        return f"{at.add('Offs', texts.offset())}({at.render(p)},{','.join(at.render(it) for it in ways)})"

    def rel_tool(self, at: Context, node: Call) -> str:
        p, *ways = positional(at, node, 4)
        turns = [option(node, it) for it in ("rx", "ry", "rz")]
        constant = self.constant_rel_tool(at, p, ways, turns)
        if constant:
            return constant
        if any(turns):
            at.note(GUESSED, node, "RelTool with angles of a position that is computed: they are taken for a tool that points down")
        name = at.add("RelTool", texts.tool_offset(self.named.angles))
        values = [at.render(it) for it in ways] + [at.render(it) if it else "0" for it in turns]
        return f"{name}({at.render(p)},{','.join(values)})"

    def constant_rel_tool(self, at: Context, p: Expression, ways: List[Expression], turns: List[Optional[Expression]]) -> str:
        """The place, where the position and all numbers are constant; the empty text otherwise."""
        datum = at.datum(p.name) if isinstance(p, Name) and not p.parts else None
        value = at.initial(datum.name) if isinstance(datum, Data) and datum.kind == "CONST" else at.constant(p)
        target = robtarget(value)
        offset = numbers([at.constant(it) for it in ways], 3)
        angles = numbers([at.constant(it) if it else 0.0 for it in turns], 3)
        matrix = matrix_of(target[1]) if target else None
        if not target or not offset or not angles or not matrix:
            return ""
        to = product(matrix, turned(*angles))
        self.named.add_angles(angles_of(to))
        return texts.place_text([a + b for a, b in zip(target[0], applied(matrix, offset))], to, target[2])

    def now(self, at: Context, node: Call) -> str:
        return self.frames.from_world(at, "CJointT()", option(node, "wobj"))

    def suffix(self, node: Call) -> str:
        wobj = option(node, "wobj")
        return f"_{wobj.name}" if isinstance(wobj, Name) and wobj.name.lower() != "wobj0" else ""

    def current(self, at: Context, node: Call) -> str:
        if option(node, "taskref") or option(node, "taskname"):
            at.lost(node, "the position of another task's arm")
        return self.now(at, node)

    def joints_now(self, at: Context, node: Call) -> str:
        return self.current(at, node) if not node.arguments else self.current(at, Call(node.start, node.end, node.name, []))

    def calc_robt(self, at: Context, node: Call) -> str:
        return self.frames.from_world(at, at.render(positional(at, node, 1)[0]), option(node, "wobj"))

    def calc_joint(self, at: Context, node: Call) -> str:
        return self.frames.in_world(at, at.render(positional(at, node, 1)[0]), option(node, "wobj"))

    def euler(self, at: Context, node: Call) -> str:
        which = next((it.option.lower() for it in node.arguments if it.option.lower() in AXIS), "")
        if not which:
            at.lost(node, "EulerZYX without its axis")
        return self.angles(at, positional(at, node, 1)[0])[AXIS[which] - 1]

    def distance(self, at: Context, node: Call) -> str:
        one, other = (at.parts(it, "pos") for it in positional(at, node, 2))
        root = at.need("abb_Sqrt")
        head = "num Distance(num a,num b,num c,num x,num y,num z)"
        name = at.add("Distance", texts.function(head, [f"RETURN {root}((a-x)*(a-x)+(b-y)*(b-y)+(c-z)*(c-z));"]))
        return f"{name}({','.join(one + other)})"


RULES: Dict[str, Callable[[Parts, Context, Call], str]] = {
    "offs": Parts.offs,
    "reltool": Parts.rel_tool,
    "crobt": Parts.current,
    "cjointt": Parts.joints_now,
    "calcrobt": Parts.calc_robt,
    "calcjointt": Parts.calc_joint,
    "eulerzyx": Parts.euler,
    "distance": Parts.distance,
}


def names_after(at: Context, node: Name, depth: int) -> List[str]:
    """The names of the components after a position, in small letters."""
    found = [it.name.lower() for it in node.parts[depth:] if isinstance(it, Component)]
    return found if len(found) == len(node.parts) - depth and found else at.lost(node, "an index inside a position")


def depth_before(node: Name, last: str) -> Optional[int]:
    """How many parts stand before the last component, where that has this name."""
    part = node.parts[-1] if node.parts else None
    return len(node.parts) - 1 if isinstance(part, Component) and part.name.lower() == last else None


def positional(at: Context, node: Call, count: int) -> List[Expression]:
    """The first values among the arguments that are no options."""
    found = [it.value for it in node.arguments if not it.option and it.value]
    return found[:count] if len(found) >= count else at.lost(node, f"{node.name} takes {count} values or more")


def option(node: Call, name: str) -> Optional[Expression]:
    return next((it.value for it in node.arguments if it.option.lower() == name), None)
