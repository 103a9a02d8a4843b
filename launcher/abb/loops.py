"""Loops that wait: a controller looks again after a time, and a cell has no time, so they wait for a change."""
from typing import TYPE_CHECKING, Optional

from .rendering import Lost
from .tree import Call, Goto, Instruct, Label, While
from .tree_items import Routine
from .walking import nodes_in

if TYPE_CHECKING:
    from .rendering import Rendering

# Functions that give another value each time.
CHANGING = frozenset("clkread gettime ctime cdate".split())


def waited_loop(at: "Rendering", node: While) -> Optional[str]:
    """`WHILE c DO WaitTime t; ENDWHILE` as a WaitUntil, where the condition has no call; None for another loop."""
    if len(node.body) > 1 or any(isinstance(it, Call) for it in nodes_in(node.condition)):
        return None
    if node.body:
        only = node.body[0]
        if not isinstance(only, Instruct) or only.name.lower() != "waittime":
            return None
    if at.constant(node.condition) is not None:
        return None
    try:
        return f"WaitUntil NOT ({at.render(node.condition)});"
    except Lost:
        return None


def is_polling(at: "Rendering", node: Instruct) -> bool:
    """Whether a WaitTime stands in a loop without moves, in which a task only looks at what others do."""
    if at.job.task.is_background and (at.loops or is_in_jump(at, node) or is_repeated(at)):
        return True
    return bool(at.loops) and not at.job.flow.moves(at.text, at.loops[-1])


def is_repeated(at: "Rendering") -> bool:
    """Whether the place is in a `main` that the task runs again and again."""
    return at.routine is not None and at.routine is at.job.repeated


def is_in_jump(at: "Rendering", node: Instruct) -> bool:
    """Whether a GOTO after the statement leads to a label before it."""
    if not isinstance(at.routine, Routine):
        return False
    labels = {it.label.lower() for it in nodes_in(at.routine) if isinstance(it, Label) and it.start < node.start}
    return any(isinstance(it, Goto) and it.start > node.start and it.label.lower() in labels for it in nodes_in(at.routine))
