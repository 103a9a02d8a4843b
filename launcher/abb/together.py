"""MultiMove: tasks that move together meet before each move that has an \\ID."""
from typing import Optional

from .expressions import options_of
from .instructions import INSTRUCTIONS, argument, kept
from .rendering import Rendering
from .report import TO_DECIDE
from .tree import Instruct, Node
from .walking import nodes_in


def before_move(at: Rendering, node: Instruct) -> str:
    """The meeting before a move with an \\ID between SyncMoveOn and SyncMoveOff."""
    found = options_of(node.arguments).get("id")
    if found is None or found.value is None:
        return ""
    tasks = list_before(at, node)
    if tasks is None:
        return ""
    number = at.constant(found.value)
    if not isinstance(number, float):
        return at.lost(node, "an \\ID that is no constant")
    name = f"abb_id_{int(number)}"
    at.add(name, f"VAR syncident {name};")
    return f"WaitSyncTask {name},{tasks}; "


def list_before(at: Rendering, node: Node) -> Optional[str]:
    """The list of the last SyncMoveOn before a place: in the routine, or else anywhere in the task."""
    found = None
    for routine in [it for it in [at.routine] if it]:
        for it in nodes_in(routine):
            if isinstance(it, Instruct) and it.start < node.start and it.name.lower() == "syncmoveon":
                found = at.source(argument(at, it, 1))
    return found or at.job.sync_list


def sync_move_on(at: Rendering, node: Instruct) -> str:
    at.job.sync_list = at.job.sync_list or at.source(argument(at, node, 1))
    return f"WaitSyncTask {at.source(argument(at, node, 0))},{at.source(argument(at, node, 1))};"


def sync_move_off(at: Rendering, node: Instruct) -> str:
    tasks = list_before(at, node)
    if tasks is None:
        return at.lost(node, "no SyncMoveOn is known before it")
    return f"WaitSyncTask {at.source(argument(at, node, 0))},{tasks};"


def wait_sync_task(at: Rendering, node: Instruct) -> str:
    if "timeout" in options_of(node.arguments):
        at.note(TO_DECIDE, node, f"{at.source(node)}: the meeting has no time limit here")
    if options_of(node.arguments):
        return f"WaitSyncTask {at.source(argument(at, node, 0))},{at.source(argument(at, node, 1))};"
    return kept(at, node)


INSTRUCTIONS.update({"syncmoveon": sync_move_on, "syncmoveoff": sync_move_off, "waitsynctask": wait_sync_task})
