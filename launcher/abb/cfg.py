"""Reads a configuration file of a controller, as EIO.cfg: its sections, and in each its rows of keys with values."""
import re
from dataclasses import dataclass, field
from pathlib import Path
from typing import Dict, List, Tuple

from .model import NotRead

# A value in quotes, or one without; what stands for neither is an error.
VALUE = re.compile(r'"([^"]*)"|([^\s"]+)')
KEY = re.compile(r"-([A-Za-z][\w.]*)")
SECTION = re.compile(r"([A-Za-z][\w ]*):\s*$")
HEAD = re.compile(r"\s*(\w+):CFG_[\d.]+:", re.IGNORECASE)


@dataclass(frozen=True)
class Row:
    """A row of a section: the line on which it begins, from 1, and its values by their keys in small letters. A key without a value, as
    -MotionTask, has the empty text."""

    line: int
    values: Dict[str, str]

    def get(self, *keys: str) -> str:
        """The value of the first of these keys that the row has, or the empty text."""
        return next((self.values[it] for it in keys if it in self.values), "")

    def has(self, key: str) -> bool:
        """Whether the key stands there without a value, or with one that means yes."""
        return key in self.values and self.values[key].upper() not in ("FALSE", "0", "NO")


@dataclass
class Cfg:
    """A configuration file; `sections` by their names in capitals. One that is missing has no sections."""

    file: Path
    sections: Dict[str, List[Row]] = field(default_factory=dict)

    def rows(self, *names: str) -> List[Row]:
        return [row for name in names for row in self.sections.get(name, [])]


def decoded(text: bytes) -> str:
    """A text of a backup: UTF-8, or UTF-16 with its mark, or else Latin-1."""
    if text[:2] in (b"\xff\xfe", b"\xfe\xff"):
        return text.decode("utf-16", "replace")
    try:
        return text.decode("utf-8-sig")
    except UnicodeDecodeError:
        return text.decode("latin-1")


def read_cfg(file: Path, needs_head: bool = True) -> Cfg:
    """Reads a configuration file. Rows that were written by hand need no head line. NotRead at the first place that fits no form."""
    cfg, rows = Cfg(file), None
    is_headed = not needs_head
    for line, text in joined(file, decoded(file.read_bytes())):
        body = text.strip()
        if not body or body.startswith("#"):
            continue
        if HEAD.match(text):
            is_headed = True
            continue
        if not is_headed:
            raise NotRead(str(file), line, 1, "the head of a configuration file, as `EIO:CFG_1.0:6:1::`, was expected")
        section = SECTION.match(body)
        if section:
            rows = cfg.sections.setdefault(section.group(1).upper(), [])
        elif rows is None:
            raise NotRead(str(file), line, 1, "the name of a section with a colon was expected, as `EIO_SIGNAL:`")
        else:
            rows.append(Row(line, values_of(file, line, text)))
    return cfg


def joined(file: Path, text: str) -> List[Tuple[int, str]]:
    """The lines of a text, each with its number from 1; one that ends with a backslash continues on the next."""
    found: List[Tuple[int, str]] = []
    is_open = False
    for number, line in enumerate(text.replace("\r\n", "\n").replace("\r", "\n").split("\n"), 1):
        part = line.rstrip()
        is_continued = part.endswith("\\")
        part = part[:-1] if is_continued else part
        if is_open and found:
            found[-1] = (found[-1][0], found[-1][1] + " " + part)
        else:
            found.append((number, part))
        is_open = is_continued
    if is_open:
        raise NotRead(str(file), number, len(line) + 1, "the rest of a row was expected after `\\`")
    return found


def values_of(file: Path, line: int, text: str) -> Dict[str, str]:
    """The keys and values of a row."""
    values: Dict[str, str] = {}
    at = skipped(text, 0)
    while at < len(text):
        key = KEY.match(text, at)
        if not key:
            raise NotRead(str(file), line, at + 1, "a key was expected, as `-Name`")
        name = key.group(1).lower()
        at = skipped(text, key.end())
        value = "" if at >= len(text) or KEY.match(text, at) else None
        if value is None:
            found = VALUE.match(text, at)
            if not found:
                raise NotRead(str(file), line, at + 1, "the closing quote of a value was expected on its line")
            value = found.group(1) if found.group(1) is not None else found.group(2)
            at = skipped(text, found.end())
        if name in values:
            raise NotRead(str(file), line, key.start() + 1, f"`-{key.group(1)}` stands twice in a row")
        values[name] = value
    return values


def skipped(text: str, at: int) -> int:
    while at < len(text) and text[at].isspace():
        at += 1
    return at
