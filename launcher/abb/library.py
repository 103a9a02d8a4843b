"""The generated module of a task: what its modules need and a module of a cell does not have, out of from_abb.sys and by rules."""
import functools
import re
from dataclasses import dataclass
from pathlib import Path
from typing import Dict, List

from .model import Task
from .parser import parse_text
from .tree_items import Data, Routine

FILE = Path(__file__).parent / "from_abb.sys"
MODULE = "from_abb"
# What stands for the task in the texts of the library, as in timeout_TASK.
SHORT = re.compile(r"(?<=_)TASK\b")
WORD = re.compile(r"[A-Za-z_][A-Za-z0-9_]*")


class Library:
    """The items that the generated module of a task gets, in the order in which they were asked for; data come first."""

    def __init__(self, task: Task, declared: List[str]) -> None:
        self.task = task
        # What the task's modules declare, in small letters: a converted module has it already.
        self.declared = set(declared)
        self.known = library()
        self.items: Dict[str, str] = {}

    def need(self, name: str) -> str:
        """Takes an item of the library, and what it names; gives its name as the library spells it."""
        small = name.lower()
        if small not in self.items and small not in self.declared:
            text = self.known[small].text
            self.items[small] = ""
            for word in WORD.findall(without_comments(text)):
                if word.lower() in self.known and word.lower() != small:
                    self.need(word)
            del self.items[small]
            self.items[small] = self.spelled(text)
        return self.spelled(self.known[small].name)

    def has(self, name: str) -> bool:
        return name.lower() in self.known

    def add(self, name: str, text: str) -> str:
        if name.lower() not in self.declared:
            self.items.setdefault(name.lower(), text)
        return name

    def spelled(self, text: str) -> str:
        return SHORT.sub(self.task.short, text)

    def text(self, first: List[str]) -> bytes:
        """The module."""
        lines = [f"MODULE {MODULE}(SYSMODULE)", *(f"  ! {it}" for it in first), ""]
        data = [it for it in self.items.values() if is_data(it)]
        routines = [it for it in self.items.values() if it and not is_data(it)]
        lines += [indented(it) for it in data]
        for it in routines:
            lines += ["", indented(it)]
        return "\n".join([*lines, "ENDMODULE", ""]).encode("ascii", "replace")


def indented(text: str) -> str:
    return "\n".join(f"  {it}" if it else "" for it in text.strip("\n").split("\n"))


def is_data(text: str) -> bool:
    first = without_comments(text).split(None, 1)
    return bool(first) and first[0] in ("CONST", "VAR", "PERS", "TASK")


def without_comments(text: str) -> str:
    return "\n".join(it.split("!", 1)[0] for it in text.split("\n"))


@dataclass(frozen=True)
class Item:
    """An item of the library: its name, and its text with the comments before it."""

    name: str
    text: str


@functools.lru_cache(maxsize=None)
def library() -> Dict[str, Item]:
    """The items of from_abb.sys by their names in small letters."""
    text = FILE.read_text(encoding="ascii")
    tree = parse_text(FILE.name, text, "ascii")
    before = text.index("\n") + 1
    found: Dict[str, Item] = {}
    for item in tree.items if tree else []:
        if isinstance(item, (Data, Routine)):
            end = text.index("\n", item.end)
            found[item.name.lower()] = Item(item.name, outdented(text[before:end]))
            before = end + 1
    return found


def outdented(text: str) -> str:
    return "\n".join(it[2:] if it.startswith("  ") else it for it in text.strip("\n").split("\n"))
