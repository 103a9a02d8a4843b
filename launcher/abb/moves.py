"""Moves: each becomes a MoveAbsJ, which ends exactly at its target."""
from typing import Dict, List, NamedTuple, Optional

from .expressions import options_of, render_as, values_of
from .instructions import INSTRUCTIONS, argument
from .rendering import Rendering, inner
from .report import TO_DECIDE
from .signal_rules import group_setter, output
from .together import before_move
from .tree import Expression, Instruct, Name
from .tree_items import Parameter


class Form(NamedTuple):
    """Where a move has its arguments, counted without options: its targets, its speed and its tool (-1 for none); what else it has that
    is done after the move: the triggers from `triggers` up to the zone, or `after`."""

    targets: List[int]
    speed: int
    tool: int
    kind: str = "robtarget"
    after: str = ""


# The tool is the last argument.
LAST = -2
LINE = Form([0], 1, 3)
CIRCLE = Form([0, 1], 2, 4)
FORMS: Dict[str, Form] = {
    "movej": LINE,
    "movel": LINE,
    "movec": CIRCLE,
    "moveabsj": Form([0], 1, 3, "jointtarget"),
    "moveextj": Form([0], 1, -1, "jointtarget"),
    "movepnp": LINE,
    **{f"move{it}do": Form([0], 1, 3, after="DO") for it in "jl"},
    **{f"move{it}go": Form([0], 1, 3, after="GO") for it in "jl"},
    **{f"move{it}ao": Form([0], 1, 3, after="AO") for it in "jl"},
    "movecdo": Form([0, 1], 2, 4, after="DO"),
    "movecgo": Form([0, 1], 2, 4, after="GO"),
    "movecao": Form([0, 1], 2, 4, after="AO"),
    **{f"move{it}sync": Form([0], 1, 3, after="call") for it in "jl"},
    "movecsync": Form([0, 1], 2, 4, after="call"),
    # Arc welding: target, speed, seam, weld, zone, tool; spot welding: target, speed, spot, gun, tool; gluing, painting, screwing.
    **{f"arc{it}{end}": Form([0], 1, 5) for it in "l" for end in ("", "1", "2", "start", "end", "1start", "1end", "2start", "2end")},
    **{f"arcc{end}": Form([0, 1], 2, 6) for end in ("", "1", "2", "start", "end", "1start", "1end", "2start", "2end")},
    **{f"spot{it}": Form([0], 1, 4) for it in ("j", "l", "mj", "ml")},
    "displ": Form([0], 1, 4),
    "dispc": Form([0, 1], 2, 5),
    "paintl": LINE,
    "paintc": CIRCLE,
    "nutj": Form([0], 1, 4),
    "nutl": Form([0], 1, 4),
    "calibl": LINE,
    "calibj": LINE,
    **{f"fcpress{it}": Form([0], 1, LAST) for it in ("1lstart", "l", "end")},
    "fcpressc": Form([0, 1], 2, LAST),
    "capl": Form([0], 1, 5),
    "capc": Form([0, 1], 2, 6),
}
# Those of a process of which a cell has nothing.
PROCESS = ("arc", "spot", "disp", "paint", "nut", "calib", "cap", "fcpress")


def move(at: Rendering, node: Instruct) -> str:
    form = FORMS[node.name.lower()]
    if is_same(at, node, form):
        return at.source(node)
    if node.name.lower().startswith(PROCESS):
        at.note(TO_DECIDE, node, f"{node.name}: the move stays, its process goes")
    found = moves_to(at, node, [argument(at, node, it) for it in form.targets], form.speed, form.tool, form.kind)
    if form.after:
        found += f" {done_after(at, node, form)}"
    return before_move(at, node) + found


def moves_to(at: Rendering, node: Instruct, targets: List[Expression], speed_at: int, tool_at: int, kind: str) -> str:
    """A MoveAbsJ to each target."""
    return " ".join(f"MoveAbsJ {target_text(at, node, it, tool_at, kind)}\\NoEOffs,{speed(at, node, speed_at)},fine,tool0;" for it in targets)


def target_text(at: Rendering, node: Instruct, target: Expression, tool_at: int, kind: str) -> str:
    values = values_of(node.arguments)
    tool = values[-1] if tool_at == LAST and values else argument(at, node, tool_at) if tool_at >= 0 else None
    wobj = options_of(node.arguments).get("wobj")
    if wobj is not None and wobj.given:
        frame: Optional[Expression] = Name(wobj.start, wobj.end, wobj.given)
    else:
        frame = wobj.value if wobj else None
    tell_tool(at, node, tool)
    return at.job.reading.target(at, target, kind, tool, frame)


def tell_tool(at: Rendering, node: Instruct, tool: Optional[Expression]) -> None:
    """Keeps which tools the moves of a task name; the first move with a second one is told."""
    found = inner(tool) if tool else None
    if not isinstance(found, Name) or isinstance(at.datum(found.name), Parameter):
        return
    tools = at.job.tools
    if found.name.lower() not in tools:
        tools[found.name.lower()] = found.name
        if len(tools) == 2:
            at.note(TO_DECIDE, node, f"the task moves with more than one tool, {' and '.join(tools.values())}: the TCP is another point")


def speed(at: Rendering, node: Instruct, number: int) -> str:
    return render_as(at, argument(at, node, number), "speeddata")


def is_same(at: Rendering, node: Instruct, form: Form) -> bool:
    """Whether a MoveAbsJ is as a cell takes it already."""
    if node.name.lower() != "moveabsj" or len(node.arguments) < 4 or not at.job.is_converted:
        return False
    found = options_of(node.arguments)
    return set(found) <= {"noeoffs", "wobj"} and at.source(argument(at, node, 2)).lower() == "fine"


def done_after(at: Rendering, node: Instruct, form: Form) -> str:
    """What a move does at its end: an output, a group, an analog signal, a call."""
    place = form.tool + 1
    if form.after == "call":
        from .late import called_late

        return called_late(at, node, argument(at, node, place), [])
    signal = output(at, node, place)
    value = at.render(argument(at, node, place + 1))
    if signal is None:
        return at.lost(node, "a signal that is a parameter")
    if form.after == "GO":
        return f"{group_setter(at, signal)} {value};"
    return f"SetDO {signal.name},{value};" if form.after == "DO" else f"{at.render(argument(at, node, place))}:={value};"


INSTRUCTIONS.update({it: move for it in FORMS})
