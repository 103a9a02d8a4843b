"""Where two histories of a cell part: the first event that differs, and the first one of each task."""
from typing import Any, Dict, List, Optional, Sequence

# How many events before and after the first one that differs are shown.
BEFORE, AFTER = 6, 18


def parting(one: Sequence[str], other: Sequence[str], tasks: Sequence[str]) -> Dict[str, Any]:
    """Two histories, by their lines: the number of the first event that differs, or None; rows of events around it, side by side; and of
    each task the number of its own first event that differs, in each of the histories."""
    ours, theirs = events_of(one), events_of(other)
    at = first_other(ours, theirs)
    start = max((at or 0) - BEFORE, 0)
    rows = [[k, line_at(ours, k), line_at(theirs, k)] for k in range(start, (at or 0) + AFTER)] if at is not None else []
    return {"event": at, "rows": [it for it in rows if it[1] or it[2]], "tasks": [of_task(ours, theirs, it) for it in tasks]}


def events_of(lines: Sequence[str]) -> List[str]:
    return [it[2:] for it in lines if it.startswith("H ")]


def line_at(lines: Sequence[str], number: int) -> str:
    return lines[number] if number < len(lines) else ""


def first_other(one: Sequence[str], other: Sequence[str]) -> Optional[int]:
    """The first place at which two lists differ, which may be the end of one of them."""
    found = next((k for k, (ours, theirs) in enumerate(zip(one, other)) if ours != theirs), None)
    return found if found is not None or len(one) == len(other) else min(len(one), len(other))


def of_task(one: Sequence[str], other: Sequence[str], task: str) -> Dict[str, Any]:
    ours, theirs = (own_events(it, task) for it in (one, other))
    at = first_other([one[k] for k in ours], [other[k] for k in theirs])
    if at is None:
        return {"task": task, "both": None}
    return {"task": task, "both": [numbered(one, ours, at), numbered(other, theirs, at)]}


def own_events(lines: Sequence[str], task: str) -> List[int]:
    return [k for k, it in enumerate(lines) if it.startswith(f"{task} ")]


def numbered(lines: Sequence[str], own: Sequence[int], at: int) -> str:
    """An event of a task with its number in the history, or the empty text after its last one."""
    return f"event {own[at]}: {lines[own[at]]}" if at < len(own) else ""
