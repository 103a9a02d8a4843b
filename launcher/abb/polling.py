"""The wait of a task that looks again and again: until something changes that others, or its own traps, write and it may read."""
from typing import Dict, List, Sequence, Set

from . import types
from .expressions import values_of
from .job import Job
from .model import bit_name
from .names import Text
from .tree import Assign, Instruct, Name, Node
from .tree_items import Data, Routine
from .walking import nodes_in

# The instructions that write their first argument.
WRITERS = frozenset("set reset setdo setgo setao pulsedo invertdo incr decr add clear waittestandset bitset bitclear".split())
COMPARED = ("num", "bool", "string")
# How many more turns a loop has after a change, so that what it computes itself settles.
TURNS = 2
NAME = "abb_changed"


def written_names(texts: Sequence[Text]) -> Set[str]:
    """The names of signals and data that the modules write, in small letters."""
    return {it for text in texts for item in text.tree.items for it in written_in(item)}


def written_in(node: Node) -> Set[str]:
    found: Set[str] = set()
    for it in nodes_in(node):
        place = it.place if isinstance(it, Assign) else None
        if isinstance(it, Instruct) and it.name.lower() in WRITERS:
            place = next(iter(values_of(it.arguments)), None)
        if isinstance(place, Name):
            found.add(place.name.lower())
    return found


def write_changed(job: Job) -> None:
    """Writes the function that is TRUE after a change, and for some turns more."""
    lines = ["! In place of a WaitTime in a loop that only looks: FALSE where nothing has changed that others write.", f"FUNC bool {NAME}()"]
    lines += ["  VAR bool is_new:=FALSE;"]
    data: List[str] = []
    for number, (name, kind) in enumerate(sorted(watched(job).items()), 1):
        seen = f"abb_seen_{number}"
        data.append(f"VAR {kind} {seen};")
        lines += [f"  IF {seen}<>{name} THEN", f"    {seen}:={name};", "    is_new:=TRUE;", "  ENDIF"]
    lines += ["  IF is_new abb_turn:=0;", f"  IF abb_turn>={TURNS} RETURN FALSE;", "  Incr abb_turn;", "  RETURN TRUE;", "ENDFUNC"]
    for it in data:
        job.library.add(it.split()[2].rstrip(";"), it)
    job.library.add("abb_turn", "VAR num abb_turn:=0;")
    job.library.add(NAME, "\n".join(lines))


def watched(job: Job) -> Dict[str, str]:
    """The types of what is watched, by the names: inputs, what other tasks write, and what the task's own traps write."""
    found: Dict[str, str] = {}
    for small in job.used:
        signal = job.backup.signals[small]
        if signal.kind in ("DI", "GI") or (small in job.others and signal.kind in ("DO", "GO")):
            names = [signal.name] if signal.kind in ("DI", "DO") else [bit_name(signal.name, it) for it in range(signal.bits)]
            found.update(dict.fromkeys(names, "num"))
    in_traps = {it for item in job.names.shared.values() if isinstance(item, Routine) and item.kind == "TRAP" for it in written_in(item)}
    for small, item in job.names.shared.items():
        if not isinstance(item, Data) or item.kind == "CONST" or item.sizes:
            continue
        kind = types.renamed(job.names.base(job.names.homes[small], item.type))
        if kind in COMPARED and (small in in_traps or (item.kind == "PERS" and small in job.others)):
            found[item.name] = kind
    return found
