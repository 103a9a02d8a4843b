"""The names that the modules of a task declare, and what a name means at a place."""
import bisect
import re
from dataclasses import dataclass, field
from typing import Dict, List, Optional, Set, Tuple, Union

from . import types
from .tree import Instruct, Name
from .tree_items import Alias, Data, Module, Parameter, Record, Routine
from .walking import nodes_in

# How deep records are in one another, in a program that is one.
DEEPEST = 10
Declared = Union[Data, Record, Alias, Routine]
# What a name may mean: an item, a parameter, or the variable of a FOR.
Meant = Union[Declared, Parameter, None]


@dataclass
class Text:
    """A module that was read: its tree, its characters and their encoding. `file` is the name of its file."""

    file: str
    tree: Module
    characters: str
    encoding: str
    # Where each line begins.
    lines: List[int] = field(default_factory=list)
    own: Dict[str, Declared] = field(default_factory=dict)

    def __post_init__(self) -> None:
        self.lines = [0, *(it.end() for it in re.finditer("\n", self.characters))]

    @property
    def name(self) -> str:
        return self.tree.name

    def line_of(self, at: int) -> int:
        """The line of a place, from 1."""
        return bisect.bisect_right(self.lines, at)


class Names:
    """The names of a task: `shared` are the items of its modules that are not LOCAL, by their names in small letters."""

    def __init__(self, texts: List[Text]) -> None:
        self.texts = texts
        self.shared: Dict[str, Declared] = {}
        # The module of each shared item.
        self.homes: Dict[str, Text] = {}
        self.called: Optional[List[Instruct]] = None
        for text in texts:
            for item in text.tree.items:
                if isinstance(item, (Data, Record, Alias, Routine)) and item.name:
                    self.declare(text, item)

    def declare(self, text: Text, item: Declared) -> None:
        name = item.name.lower()
        if item.scope == "LOCAL":
            text.own.setdefault(name, item)
        elif name not in self.shared:
            self.shared[name] = item
            self.homes[name] = text

    def item(self, text: Text, name: str) -> Optional[Declared]:
        """The item that a name means in a module, outside its routines."""
        small = name.lower()
        return text.own.get(small) or self.shared.get(small)

    def instructions(self) -> List[Instruct]:
        """All instructions and procedure calls of the task."""
        if self.called is None:
            nodes = (node for text in self.texts for item in text.tree.items for node in nodes_in(item))
            self.called = [it for it in nodes if isinstance(it, Instruct)]
        return self.called

    def frames(self) -> Set[str]:
        """The names that stand after \\WObj, in small letters."""
        found = (it.value for node in self.instructions() for it in node.arguments if it.option.lower() == "wobj")
        return {it.name.lower() for it in found if isinstance(it, Name)}

    def routine(self, text: Text, name: str) -> Optional[Routine]:
        found = self.item(text, name)
        return found if isinstance(found, Routine) else None

    def base(self, text: Text, name: str) -> str:
        """A type's name in small letters, with ALIAS resolved."""
        small = name.lower()
        for _ in range(10):
            found = self.item(text, small)
            if not isinstance(found, Alias):
                return small
            small = found.type.lower()
        return small

    def fields(self, text: Text, name: str) -> Optional[List[Tuple[str, str]]]:
        """The components of a type that becomes a datum for each of them, or None."""
        small = self.base(text, name)
        found = self.item(text, small)
        if isinstance(found, Record):
            return [(it.name, it.type.lower()) for it in found.fields]
        return types.RECORDS.get(small)

    def leaves(self, text: Text, name: str, depth: int = 0) -> List[Tuple[Tuple[str, ...], str]]:
        """The components of a record down to those that are no records: the path of each, and its type."""
        found: List[Tuple[Tuple[str, ...], str]] = []
        for component, kind in self.fields(text, name) or []:
            if self.fields(text, kind) is None or depth > DEEPEST:
                found.append(((component,), self.base(text, kind)))
            else:
                found.extend(((component, *path), leaf) for path, leaf in self.leaves(text, kind, depth + 1))
        return found
