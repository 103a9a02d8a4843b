"""Searches: the arm moves all the way, and then the input is read; the found position is the target."""
from typing import Dict, List

from .expressions import options_of
from .instructions import INSTRUCTIONS, argument
from .moves import speed, target_text
from .rendering import Rendering, grouped
from .tree import Instruct, Name

# How many targets a search has, its end the last.
TARGETS: Dict[str, int] = {"searchl": 1, "searchj": 1, "searchc": 2, "searchextj": 1, "contactl": 1}


def search(at: Rendering, node: Instruct) -> str:
    """One call, so that RETRY searches again: signal, found position, targets, speed, tool."""
    small = node.name.lower()
    kind = "jointtarget" if small == "searchextj" else "robtarget"
    first = 1 if small == "contactl" else 2
    count = TARGETS[small]
    targets = [argument(at, node, first + it) for it in range(count)]
    tool = first + count + 1 if kind == "robtarget" else -1
    texts = [target_text(at, node, it, tool, kind) for it in targets]
    quick = speed(at, node, first + count)
    before = "".join(f"MoveAbsJ {it}\\NoEOffs,{quick},fine,tool0; " for it in texts[:-1])
    found = argument(at, node, first - 1)
    arguments = [texts[-1], quick, at.render(targets[-1]), at.render(found)]
    return f"{before}{routine(at, node, small)} {','.join(arguments)};"


def routine(at: Rendering, node: Instruct, small: str) -> str:
    """The routine that searches for one signal or persistent."""
    head = "PROC {0}(jointtarget target,speeddata v,jointtarget place,INOUT jointtarget found)"
    moved = ["  MoveAbsJ target\\NoEOffs,v,fine,tool0;", "  found:=place;"]
    if small == "contactl":
        name = "abb_contact"
        lines: List[str] = []
    else:
        watched = argument(at, node, 0)
        if not isinstance(watched, Name):
            return at.lost(node, "a search for what is no name")
        name = at.job.of_parts("search", watched.name)
        low = {"negflank", "lowlevel"} & set(options_of(node.arguments))
        condition = at.render(watched) if at.type_of(watched) == "bool" else f"{grouped(at.render(watched))}={0 if low else 1}"
        if low:
            name = at.job.of_parts("search", watched.name, "low")
        lines = [f"  IF NOT ({condition}) RAISE {at.job.error('ERR_WHLSEARCH')};"]
    text = ["! Moves all the way, and then reads what was searched for.", head.format(name), moved[0], *lines, moved[1], "ENDPROC"]
    return at.add(name, "\n".join(text))


INSTRUCTIONS.update({it: search for it in TARGETS})
