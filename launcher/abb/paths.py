"""What a name with indices and components becomes."""
from dataclasses import dataclass, field
from typing import TYPE_CHECKING, List, Optional, Tuple, Union

from . import types
from .constants import as_index, component_type
from .job import plain
from .tree import Component, Expression, Index, Name
from .tree_items import Data, Parameter

if TYPE_CHECKING:
    from .rendering import Rendering


@dataclass
class Path:
    """A name as far as it names a datum of the cell: the names that lead to it, its index, its type (that of the controller, in small
    letters), and how many of the node's parts it takes. What follows are components of a record that stays one."""

    node: Name
    names: List[str]
    index: str
    type: str
    depth: int
    sizes: List[int] = field(default_factory=list)
    is_array: bool = False

    @property
    def rest(self) -> List[Union[Index, Component]]:
        return self.node.parts[self.depth :]


def path_of(at: "Rendering", node: Name) -> Optional[Path]:
    """The path of a declared datum or a parameter; None for another name."""
    meant = at.datum(node.name)
    if meant is None:
        return None
    sizes = sizes_of(at, meant)
    found = Path(node, [plain(node.name)], "", at.base(meant.type), 0, sizes)
    if node.parts and isinstance(node.parts[0], Index):
        found.index = "{" + index_of(at, node, node.parts[0].parts, sizes) + "}"
        found.depth = 1
    else:
        found.is_array = bool(sizes) or (isinstance(meant, Parameter) and meant.dimensions > 0)
    follow(at, found)
    return found


def follow(at: "Rendering", found: Path) -> None:
    """Goes on over the components of records that become a datum for each component."""
    while found.rest and at.job.names.fields(at.text, found.type) is not None:
        part = found.rest[0]
        if not isinstance(part, Component):
            return
        kind = component_type(at, found.type, part.name)
        if not kind:
            at.lost(found.node, f"{found.type} has no component {part.name}")
        found.names.append(part.name)
        found.type = kind
        found.depth += 1


def sizes_of(at: "Rendering", meant: Union[Data, Parameter]) -> List[int]:
    """The lengths of a declared array."""
    if isinstance(meant, Parameter):
        return []
    return [as_index(at.constant(it)) or 0 for it in meant.sizes]


def index_of(at: "Rendering", node: Name, parts: List[Expression], sizes: List[int]) -> str:
    """The text of the index in one dimension: `(i-1)*n+j` for `{i,j}`."""
    if len(parts) == 1:
        return at.render(parts[0])
    if len(parts) != len(sizes) or 0 in sizes:
        at.lost(node, "an index in several dimensions of an array whose lengths are not known")
    values = [as_index(at.constant(it)) for it in parts]
    if None not in values:
        return str(flat_index([it or 0 for it in values], sizes))
    text = f"({at.render(parts[0])}-1)"
    for part, size in zip(parts[1:-1], sizes[1:-1]):
        text = f"({text}*{size}+{at.render(part)}-1)"
    return f"{text}*{sizes[-1]}+{at.render(parts[-1])}"


def flat_index(values: List[int], sizes: List[int]) -> int:
    found = 0
    for value, size in zip(values, sizes):
        found = found * size + value - 1
    return found + 1


def spelled(at: "Rendering", path: Path) -> str:
    """The name and the index of a path, without what follows."""
    name = at.job.of_parts(*path.names) if len(path.names) > 1 else path.names[0]
    return name + path.index


def leaves_of(at: "Rendering", path: Path) -> List[Tuple[str, str]]:
    """The data that a record of a path became: the text of each, and its type."""
    found = []
    for names, kind in at.job.names.leaves(at.text, path.type):
        found.append((at.job.of_parts(*path.names, *names) + path.index, types.renamed(kind)))
    return found
