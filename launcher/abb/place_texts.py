"""The routines of the generated module that the reading by places needs: work objects, RelTool, orientations.

A place is a jointtarget: axes 1 to 3 are x, y, z in centimetres, axes 4 to 6 the angles about x, y, z. Nums are thousandths, so the parts of
a matrix are whole numbers of millionths.
"""
from typing import List, Optional, Sequence

from .geometry import IDENTITY, LOWEST, Frame, Matrix, Vector, angles_of, is_near, of_angles, product, quaternion_of, shown

MILLION = 1_000_000
AXES = ("p.robax.rax_1", "p.robax.rax_2", "p.robax.rax_3")
ANGLES = ("p.robax.rax_4", "p.robax.rax_5", "p.robax.rax_6")
SAME_ANGLES = ",".join(ANGLES)


def function(head: str, lines: Sequence[str]) -> str:
    return "\n".join([f"FUNC {head}", *(f"  {it}" for it in lines), "ENDFUNC"])


def sum_of(parts: Sequence[float], names: Sequence[str], divisor: int = MILLION) -> str:
    """A sum of products of a row of a matrix with names, divided again; a name alone where the row has one 1."""
    whole = [round(it * MILLION) for it in parts]
    if sorted(whole) == [0, 0, MILLION]:
        name = names[whole.index(MILLION)]
        return name if divisor == MILLION else f"{name}/{divisor // MILLION}"
    text = ""
    for part, name in zip(whole, names):
        if part:
            text += f"{'-' if part < 0 else '+' if text else ''}{abs(part)}*{name}"
    return f"({text})/{divisor}" if text else "0"


def plus(text: str, value: float) -> str:
    """A sum of a text and a number."""
    number = shown(value)
    return text if number == "0" else f"{text}{number}" if number[0] == "-" else f"{text}+{number}"


def moved(name: str, frame: Frame, orientations: Sequence[Vector]) -> str:
    """The function that takes a place of a frame to the world, or back with the inverse frame."""
    matrix, origin = frame
    places = ",".join(plus(sum_of(row, AXES), value) for row, value in zip(matrix, origin))
    if is_near(matrix, IDENTITY):
        return function(f"jointtarget {name}(jointtarget p)", [f"RETURN [[{places},{SAME_ANGLES}],p.extax];"])
    turn = angles_of(matrix)
    if abs(matrix[2][2] - 1) < 1e-9:
        lines = ["VAR num z;", f"z:={plus(ANGLES[2], turn[2])};", *kept_in_range("z")]
        angles = f"{ANGLES[0]},{ANGLES[1]},z"
        return function(f"jointtarget {name}(jointtarget p)", [*lines, f"RETURN [[{places},{angles}],p.extax];"])
    lines = []
    for it in orientations:
        to = ",".join(shown(angle) for angle in angles_of(product(matrix, of_angles(it))))
        lines.append(f"IF {is_at(it)} RETURN [[{places},{to}],p.extax];")
    return function(f"jointtarget {name}(jointtarget p)", lines + unknown(name))


def kept_in_range(name: str) -> List[str]:
    """Statements that bring an angle back into the range of angles about z."""
    return [f"IF {name}>{shown(LOWEST + 360)} {name}:={name}-360;", f"IF {name}<={shown(LOWEST)} {name}:={name}+360;"]


def is_at(angles: Vector) -> str:
    """The condition that a place has this orientation."""
    return " AND ".join(f"{name}={shown(value)}" for name, value in zip(ANGLES, angles))


def unknown(name: str) -> List[str]:
    """The end of a function for an orientation that no robtarget of the task has: a text, and the fault NoReturn."""
    return [f'TPWrite "{name}: an orientation that no robtarget has, turned about z by "\\Num:={ANGLES[2]};']


def offset() -> str:
    places = ",".join(f"{name}+{it}/10" for name, it in zip(AXES, "xyz"))
    return function("jointtarget Offs(jointtarget p,num x,num y,num z)", [f"RETURN [[{places},{SAME_ANGLES}],p.extax];"])


def tool_offset(orientations: Sequence[Vector]) -> str:
    """RelTool: the way by the orientations that the task names; the turn as for a tool that points down."""
    lines = ["VAR num c;", f"c:={ANGLES[2]}-rz;", *kept_in_range("c"), f"IF rz=0 c:={ANGLES[2]};"]
    angles = f"{ANGLES[0]}+rx,{ANGLES[1]}-ry,c"
    lines.append(f"IF x=0 AND y=0 AND z=0 RETURN [[{','.join(AXES)},{angles}],p.extax];")
    for it in orientations:
        ways = [sum_of(row, "xyz", 10 * MILLION) for row in of_angles(it)]
        places = ",".join(f"{name}+{way}" for name, way in zip(AXES, ways))
        lines.append(f"IF {is_at(it)} RETURN [[{places},{angles}],p.extax];")
    head = "jointtarget RelTool(jointtarget p,num x,num y,num z,num rx,num ry,num rz)"
    return function(head, lines + unknown("RelTool"))


def quaternion(name: str, orientations: Sequence[Vector]) -> str:
    """The function that gives a part, 1 to 4, of the quaternion of a place's orientation."""
    lines = []
    for it in orientations:
        parts = [shown(part) for part in quaternion_of(of_angles(it))]
        lines += [f"IF {is_at(it)} THEN"]
        lines += [f"  IF i={n} RETURN {part};" for n, part in enumerate(parts, 1)]
        lines += ["ENDIF"]
    return function(f"num {name}(jointtarget p,num i)", lines + unknown(name))


def kept(name: str, external_axes: int) -> str:
    """The function that gives the axes of a position that are 9E9 the values that the arm has."""
    lines = ["VAR jointtarget now;", "now:=CJointT();", "IF p.robax.rax_1>=9E9 p.robax:=now.robax;"]
    for letter in "abcdef"[:external_axes]:
        lines.append(f"IF p.extax.eax_{letter}>=9E9 p.extax.eax_{letter}:=now.extax.eax_{letter};")
    return function(f"jointtarget {name}(jointtarget p)", [*lines, "RETURN p;"])


def chosen(name: str, names: Sequence[str]) -> str:
    """The function that takes a place to the world by the number of its work object, 0 for wobj0."""
    lines = ["TEST n"]
    for n, it in enumerate(names, 1):
        lines += [f"CASE {n}:", f"  RETURN {it}(p);" if it else "  RETURN p;"]
    return function(f"jointtarget {name}(num n,jointtarget p)", [*lines, "ENDTEST", "RETURN p;"])


def place_text(trans: Sequence[float], matrix: Matrix, extax: Sequence[float]) -> str:
    """The jointtarget of a robtarget, in millimetres."""
    axes = [shown(it / 10) for it in trans] + [shown(it) for it in angles_of(matrix)]
    return f"[[{','.join(axes)}],[{','.join(axis(it) for it in extax)}]]"


def axis(value: Optional[float]) -> str:
    """The value of an axis, 9E9 for none."""
    return "9E9" if value is None or value >= 8.9e9 else shown(value)
