"""The places of a text: bytes as the program counts them, lines and UTF-16 units as editors do."""
import bisect
import re
from typing import Dict, List, Tuple

Position = Dict[str, int]
Range = Dict[str, Position]
# What ends a line for an editor; for the program only a line feed does.
END = re.compile(rb"\r\n|\n|\r")
NAME = re.compile(rb"[A-Za-z0-9_]")
# What a place covers that an editor shows: a name or a number, a string, or one character.
WORD = re.compile(rb'[A-Za-z0-9_.]*[A-Za-z0-9_]|"[^"\r\n]*"?|[^\r\n]')


class Text:
    """A text in bytes, with the places of its lines."""

    def __init__(self, data: bytes) -> None:
        self.data = data
        self.starts: List[int] = [0, *(it.end() for it in END.finditer(data))]

    def position(self, at: int) -> Position:
        """The position of a byte's place; one past the end is that of the end."""
        at = max(0, min(at, len(self.data)))
        line = bisect.bisect_right(self.starts, at) - 1
        return {"line": line, "character": units(self.data[self.starts[line] : at])}

    def range(self, start: int, end: int) -> Range:
        return {"start": self.position(start), "end": self.position(end)}

    def place(self, position: Position) -> int:
        """The place of the byte at a position; past a line's end it is that end."""
        line = position["line"]
        if line >= len(self.starts):
            return len(self.data)
        start = self.starts[line]
        end = self.starts[line + 1] if line + 1 < len(self.starts) else len(self.data)
        shown = self.data[start:end].rstrip(b"\r\n").decode(errors="surrogateescape")
        left = position["character"]
        for n, character in enumerate(shown):
            if left <= 0:
                return start + len(shown[:n].encode(errors="surrogateescape"))
            left -= 2 if ord(character) > 0xFFFF else 1
        return start + len(shown.encode(errors="surrogateescape"))

    def word_range(self, at: int) -> Range:
        """What stands at a place, as far as an editor should mark it; at the end of a line, or of the text, the character before."""
        found = WORD.match(self.data, at)
        if found:
            return self.range(at, found.end())
        return self.range(max(at - 1, self.starts[bisect.bisect_right(self.starts, at) - 1]), at)

    def name_at(self, at: int) -> Tuple[int, bytes]:
        """The name around a place, or right before it, and where it starts; an empty one if there is none."""
        start = end = at
        while start > 0 and NAME.match(self.data, start - 1):
            start -= 1
        while end < len(self.data) and NAME.match(self.data, end):
            end += 1
        return start, self.data[start:end]


def units(data: bytes) -> int:
    """How many UTF-16 units these bytes take in an editor."""
    return sum(2 if ord(it) > 0xFFFF else 1 for it in data.decode(errors="surrogateescape"))
