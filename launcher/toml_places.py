"""The keys of a TOML text, with their places and their values, and where a text is not TOML.

It reads what the program reads, which is TOML 1.1. Python's own reader gives no places, is there only from Python 3.11 on, reads TOML
1.0, which has fewer forms, and turns each CR LF within a text into LF.
"""
import functools
import re
from dataclasses import dataclass
from typing import Dict, List, Optional, Tuple, Union

from . import toml_tables
from .toml_tables import Clash, Origin, Path, Table
from .toml_values import NoToml, Plain, string, word

BARE = re.compile(rb"[A-Za-z0-9_-]+")
GAP = re.compile(rb"[ \t]*")
# What may stand between expressions, and between the elements of an array.
BLANK = re.compile(rb"(?:[ \t\n]+|\r\n|#[\t -~\x80-\xff]*)*")
ENDS_LINE = (b"", b"#", b"\n", b"\r")
# How many names a key has at most, and how deep values stand in one another.
MOST = 80
Value = Union[Plain, List["Value"]]


@dataclass
class Key:
    """A key or the head of a table: its path, with the numbers of elements from 0; the place of its first byte, and the one after it;
    where its value begins, and the place after it; and its value. A head has no value, and its place is that of its value; nor has
    a table, a float or a date."""

    path: Path
    at: int
    end: int
    value_at: int
    value_end: int
    value: Value = None

    @property
    def strings(self) -> List[str]:
        """The strings that the value has, as a string or as an array of them."""
        return [it for it in (self.value if isinstance(self.value, list) else [self.value]) if isinstance(it, str)]


@functools.lru_cache(maxsize=4)
def read(text: bytes) -> Tuple[Tuple[Key, ...], Optional[NoToml]]:
    """The keys of a text, in its order, and where and why it is not TOML, if it is not. Then the keys are those of the lines that can
    be read."""
    reader = Reader(text)
    reader.run()
    return tuple(reader.keys), reader.fault


def keys_of(text: bytes) -> Tuple[Key, ...]:
    """Each key of a text, in its order."""
    return read(text)[0]


def place_of_key(text: bytes, key: str) -> Optional[int]:
    """The place of the first byte of a key that the program names as `task[0].arm`, or of the first one below it. If none is there,
    that of the nearest table around it that is; None for the whole script."""
    path = tuple(re.findall(r"[^.\[\]]+", key))
    places: Dict[Path, int] = {}
    for it in keys_of(text):
        for n in range(len(it.path), 0, -1):
            places.setdefault(it.path[:n], it.at)
    while path:
        if path in places:
            return places[path]
        path = path[:-1]
    return None


def length_of_key(text: bytes, at: int) -> int:
    """How many bytes a key or the head of a table takes at a place."""
    return next((it.end - at for it in keys_of(text) if it.at == at), 1)


class Reader:
    def __init__(self, text: bytes) -> None:
        self.text = text
        self.at = 3 if text.startswith(b"\xef\xbb\xbf") else 0
        self.keys: List[Key] = []
        self.fault: Optional[NoToml] = None
        self.root = self.table = Table(Origin.HEAD)
        self.path: Path = ()

    def run(self) -> None:
        self.skip(BLANK)
        while self.at < len(self.text):
            start = self.at
            try:
                self.expression()
            except NoToml as fault:
                self.fault = self.fault or fault
                end = self.text.find(b"\n", start)
                self.at = len(self.text) if end < 0 else end + 1
            self.skip(BLANK)

    def expression(self) -> None:
        """A head or a key with its value, and the end of its line."""
        if self.text.startswith(b"[", self.at):
            self.head()
        else:
            self.pair(self.path, self.table)
        self.skip(GAP)
        if self.text[self.at : self.at + 1] not in ENDS_LINE:
            raise NoToml(self.at, "expected the end of the line")

    def head(self) -> None:
        start = self.at
        mark = b"[[" if self.text.startswith(b"[[", start) else b"["
        self.at += len(mark)
        names = self.names()
        self.take(b"]" * len(mark), f"expected `{']' * len(mark)}` after the name of a table")
        try:
            self.table, self.path = toml_tables.define(self.root, names, len(mark) == 2)
        except Clash:
            raise NoToml(start, "this table is there already, or its name is that of a value") from None
        self.keys.append(Key(self.path, start, self.at, start, start))

    def pair(self, path: Path, table: Table, depth: int = MOST) -> None:
        """A key and its value, in a table of this path."""
        start = self.at
        names = self.names()
        end = start + len(self.text[start : self.at].rstrip())
        self.take(b"=", "expected `=` after a key")
        self.skip(GAP)
        key = Key((*path, *names), start, end, self.at, self.at)
        self.keys.append(key)
        key.value = self.value(key.path, depth)
        key.value_end = self.at
        try:
            toml_tables.put(table, names)
        except Clash:
            raise NoToml(start, "this key is there already") from None

    def value(self, path: Path, depth: int) -> Value:
        here = self.text[self.at : self.at + 1]
        if here in (b'"', b"'"):
            found, self.at = string(self.text, self.at)
            return found
        if here in (b"[", b"{") and not depth:
            raise NoToml(self.at, "the script is nested too deeply")
        if here == b"[":
            return self.array(path, depth - 1)
        if here == b"{":
            return self.inline(path, depth - 1)
        plain, self.at = word(self.text, self.at)
        return plain

    def array(self, path: Path, depth: int) -> Value:
        found: List[Value] = []
        while self.goes_on(b"[", b"]", not found):
            inner = (*path, str(len(found)))
            if self.text.startswith(b"{", self.at):
                self.keys.append(Key(inner, self.at, self.at + 1, self.at, self.at))
            found.append(self.value(inner, depth))
        return found

    def inline(self, path: Path, depth: int) -> None:
        table = Table(Origin.HEAD)
        while self.goes_on(b"{", b"}", not table.has):
            self.pair(path, table, depth)

    def goes_on(self, opening: bytes, closing: bytes, is_first: bool) -> bool:
        """Whether an array or a table in braces has another element; passes over what stands before it, or over the end."""
        if is_first:
            self.take(opening, "")
        self.skip(BLANK)
        if not is_first and not self.text.startswith(closing, self.at):
            self.take(b",", f"expected `,` or `{closing.decode()}`")
            self.skip(BLANK)
        if not self.text.startswith(closing, self.at):
            return True
        self.at += 1
        return False

    def names(self) -> List[str]:
        """The names of a dotted key, with the blanks after it."""
        names: List[str] = []
        while len(names) < MOST:
            self.skip(GAP)
            if self.text[self.at : self.at + 1] in (b'"', b"'"):
                name, self.at = string(self.text, self.at, False)
            else:
                found = BARE.match(self.text, self.at)
                if not found:
                    raise NoToml(self.at, "expected a key")
                name, self.at = found[0].decode(), found.end()
            names.append(name)
            self.skip(GAP)
            if not self.text.startswith(b".", self.at):
                return names
            self.at += 1
        raise NoToml(self.at, f"a key has at most {MOST} names")

    def take(self, mark: bytes, cause: str) -> None:
        if not self.text.startswith(mark, self.at):
            raise NoToml(self.at, cause)
        self.at += len(mark)

    def skip(self, gap: "re.Pattern[bytes]") -> None:
        found = gap.match(self.text, self.at)
        assert found
        self.at = found.end()
