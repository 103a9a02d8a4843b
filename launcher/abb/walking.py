"""Goes over the nodes of a tree."""
from typing import Iterator

from .tree import Node


def nodes_in(node: Node) -> Iterator[Node]:
    """A node and all nodes inside it, in the order of the text."""
    waiting = [node]
    while waiting:
        found = waiting.pop()
        yield found
        parts = []
        for value in vars(found).values():
            if isinstance(value, Node):
                parts.append(value)
            elif isinstance(value, list):
                parts.extend(it for it in value if isinstance(it, Node))
        waiting.extend(reversed(parts))
