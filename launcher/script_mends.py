"""A copy of a script in which what is wrong is mended or left out, so that the cell can be checked further."""
import re
from dataclasses import replace
from typing import Dict, List, Optional, Sequence

from . import toml_places
from .draft import CannotMend
from .refusals import Refusal

# What stands for a value that is refused, by its key; an element of one of the arrays in LEFT_OUT is left out as a whole.
DEFAULTS = {"steps": b"100000", "version": b"1", "signal.kind": b'"di"', "signal.start": b"0", "task.arm": b"[0, 0, 0, 0, 0, 0]"}
LEFT_OUT = ("pers", "zone", "input")
VALUE = re.compile(rb"[^\n]*")


class Draft:
    """The text of a script as it is checked next. `numbers` has for each array of tables the numbers that its elements had first."""

    def __init__(self, text: bytes) -> None:
        self.text = text
        self.numbers: Dict[str, List[int]] = {}

    def original(self, refusal: Refusal) -> Refusal:
        """A refusal by the key that its element had first."""
        found = re.match(r"(\w+)\[(\d+)\](.*)", refusal.key, re.S)
        if not found or found[1] not in self.numbers:
            return refusal
        return replace(refusal, key=f"{found[1]}[{self.numbers[found[1]][int(found[2])]}]{found[3]}")

    def mend(self, refusal: Refusal) -> None:
        """Mends what is refused. CannotMend if that is impossible."""
        path = re.findall(r"[^.\[\]]+", refusal.key)
        if not path or refusal.rule == "NotToml":
            raise CannotMend
        if path[0] in LEFT_OUT and len(path) > 1:
            self.leave_out(path[0], int(path[1]))
        elif refusal.rule == "UnknownKey":
            self.replace_line(refusal.key, b"")
        else:
            self.put_default(refusal, path)

    def put_default(self, refusal: Refusal, path: Sequence[str]) -> None:
        kind = ".".join(it for it in path if not it.isdigit())
        default = DEFAULTS.get(kind)
        if kind.endswith(".name"):
            default = f'"free_{kind[0]}{path[1]}"'.encode()
        if default is None:
            raise CannotMend
        line = path[-1].encode() + b" = " + default
        if refusal.rule != "NoKey":
            self.replace_line(refusal.key, line)
        elif len(path) == 1:
            self.text = line + b"\n" + self.text
        else:
            self.insert(path, line)

    def insert(self, path: Sequence[str], line: bytes) -> None:
        """Puts a line after the head of a table."""
        head = self.key(path[:-1])
        if head is None or not self.text.startswith(b"[[", head.at):
            raise CannotMend
        end = self.text.find(b"\n", head.at)
        end = len(self.text) if end < 0 else end
        self.text = self.text[:end] + b"\n" + line + self.text[end:]

    def replace_line(self, key: str, line: bytes) -> None:
        """Puts a line for a key and its value, which have a line of their own."""
        found = self.key(re.findall(r"[^.\[\]]+", key))
        if found is None or b"\n" in self.text[found.at : found.value_at]:
            raise CannotMend
        start = self.text.rfind(b"\n", 0, found.at) + 1
        value = VALUE.match(self.text, found.value_at)
        if self.text[start : found.at].strip() or value is None or is_open(value[0]):
            raise CannotMend
        self.text = self.text[: found.at] + line + self.text[value.end() :]

    def leave_out(self, array: str, number: int) -> None:
        """Leaves out an element of an array of tables."""
        heads = [it for it in toml_places.keys_of(self.text) if it.at == it.value_at and len(it.path) == 2]
        place = next((n for n, it in enumerate(heads) if it.path == (array, str(number))), None)
        if place is None or not self.text.startswith(b"[[", heads[place].at):
            raise CannotMend
        count = sum(it.path[0] == array for it in heads)
        self.numbers.setdefault(array, list(range(count))).pop(number)
        end = heads[place + 1].at if place + 1 < len(heads) else len(self.text)
        self.text = self.text[: heads[place].at] + self.text[end:]

    def gives_arm(self, tasks: Sequence[int]) -> bool:
        """Gives an arm to tasks that have none, so that their moves can be checked. Whether one was given."""
        given = False
        for task in tasks:
            if self.key(("task", str(task), "arm")) is None:
                try:
                    self.insert(("task", str(task), "arm"), b"arm = [0, 0, 0, 0, 0, 0]")
                    given = True
                except CannotMend:
                    continue
        return given

    def gives_signal(self, name: str, kind: str) -> bool:
        """Gives a signal that is missing. Whether it was given: not if the script writes its signals in one array."""
        signals = [it for it in toml_places.keys_of(self.text) if it.path[:1] == ("signal",) and len(it.path) < 3]
        if any(not self.text.startswith(b"[[", it.at) for it in signals):
            return False
        self.text += f'\n[[signal]]\nname = "{name}"\nkind = "{kind}"\n'.encode()
        return True

    def key(self, path: Sequence[str]) -> Optional[toml_places.Key]:
        return next((it for it in toml_places.keys_of(self.text) if it.path == tuple(path)), None)


def is_open(value: bytes) -> bool:
    """Whether a value goes on in the next line."""
    return value.count(b"[") != value.count(b"]") or value.count(b"{") != value.count(b"}") or value.count(b'"') % 2 == 1
