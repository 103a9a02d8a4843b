"""The types of expressions, in small letters, with ALIAS resolved: those of the controller."""
from typing import TYPE_CHECKING, Dict

from .constants import component_type
from .tree import Binary, Call, Component, Expression, Group, Name, Number, Text, Truth, Unary
from .tree_items import Routine

if TYPE_CHECKING:
    from .rendering import Rendering

LOGIC = frozenset("AND OR XOR = <> < > <= >=".split())
RESULTS: Dict[str, str] = {
    **dict.fromkeys("numtostr valtostr strpart strmap dnumtostr cdate ctime getTaskname readstr bytetostr dectohex hextodec".lower().split(), "string"),
    **dict.fromkeys("gettaskname strformat argname type uialphaentry opmodetext readstrbin robname".split(), "string"),
    **dict.fromkeys("testdi testandset present strtoval strmemb strorder isfile isvar ispers bitcheck modexist validio".split(), "bool"),
    **dict.fromkeys("taskrunmec taskrunrob issyncmoveon isstopmoveact isstopstateevent uiclientexist".split(), "bool"),
    **dict.fromkeys("offs reltool crobt calcrobt mirpos".split(), "robtarget"),
    **dict.fromkeys("cjointt calcjointt".split(), "jointtarget"),
    **dict.fromkeys("cpos posevect".split(), "pos"),
    **dict.fromkeys("orientzyx norient".split(), "orient"),
    **dict.fromkeys("orobt".split(), "robtarget"),
    **dict.fromkeys("defframe posemult poseinv".split(), "pose"),
    "ctool": "tooldata",
    "cwobj": "wobjdata",
}
PREDEFINED: Dict[str, str] = {"stempty": "string", "tool0": "tooldata", "wobj0": "wobjdata", "load0": "loaddata", "vmax": "speeddata"}


def type_of(at: "Rendering", node: Expression) -> str:
    """The type of an expression, "" where it is not known."""
    if isinstance(node, Group):
        return type_of(at, node.inner)
    if isinstance(node, (Number, Text, Truth)):
        return "num" if isinstance(node, Number) else "string" if isinstance(node, Text) else "bool"
    if isinstance(node, Unary):
        return "bool" if node.sign == "NOT" else type_of(at, node.operand)
    if isinstance(node, Binary):
        return "bool" if node.sign in LOGIC else type_of(at, node.left)
    if isinstance(node, Call):
        meant = at.meant(node.name)
        return at.base(meant.type) if isinstance(meant, Routine) else RESULTS.get(node.name.lower(), "num")
    return of_name(at, node) if isinstance(node, Name) else ""


def of_name(at: "Rendering", node: Name) -> str:
    if at.is_counted(node.name):
        return "num"
    meant = at.datum(node.name)
    if meant is None:
        small = node.name.lower()
        return PREDEFINED.get(small) or ("speeddata" if small[:1] == "v" and small[1:].isdigit() else "num")
    kind = at.base(meant.type)
    for part in node.parts:
        if isinstance(part, Component):
            kind = component_type(at, kind, part.name)
    return kind
