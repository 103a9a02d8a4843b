"""Rings of tasks that wait for one another."""
from typing import Dict, List, Mapping, Optional

from .why_waits import Edges


def rings(edges: Mapping[str, Edges]) -> List[List[str]]:
    """Rings among tasks, by what each waits for from which others. No task is in two of those that are found."""
    found: List[List[str]] = []
    for name in edges:
        if not any(name in ring for ring in found):
            ring = ring_from(name, edges)
            if ring and not any(it in other for other in found for it in ring):
                found.append(ring)
    return found


def ring_from(name: str, edges: Mapping[str, Edges]) -> Optional[List[str]]:
    """A shortest ring through a task."""
    before: Dict[str, str] = {}
    reached = [name]
    for at in reached:
        for to in edges.get(at, {}):
            if to == name:
                ring = [at]
                while ring[-1] != name:
                    ring.append(before[ring[-1]])
                return ring[::-1]
            if to not in before:
                before[to] = at
                reached.append(to)
    return None


def ring_lines(ring: List[str], edges: Mapping[str, Edges]) -> List[str]:
    names = " and ".join([", ".join(ring[:-1]), ring[-1]])
    return [f"{names} wait for one another:", *(f"  {at} waits for {edges[at][to]}" for at, to in zip(ring, [*ring[1:], ring[0]]))]
