"""A line of a text with a caret under one of its places."""
import textwrap
import unicodedata
from dataclasses import dataclass
from pathlib import Path
from typing import List, Tuple

from .hints import shown_path
from .texts import line_of

# The columns of a tab, and how much of a long line is shown.
TAB = 4
WIDTH = 120
RED, BLUE, BOLD, END = "\x1b[1;31m", "\x1b[1;34m", "\x1b[1m", "\x1b[0m"


@dataclass(frozen=True)
class Place:
    """A place in a text: line and column from 1, the column in bytes, and how many bytes are meant."""

    row: int
    column: int
    length: int = 1


def excerpt(file: Path, text: bytes, place: Place, label: str, is_coloured: bool) -> List[str]:
    """Where a place is, its line with its number, and a caret under it with a label beside it."""
    line = line_of(text, place.row)
    shown, start, length = laid_out(line, place.column - 1, place.length)
    shown, start = cut(shown, start)
    number = str(place.row)
    margin = " " * len(number)
    bar = paint(BLUE, "|", is_coloured)
    marks = paint(RED, "^" * length + (f" {label}" if label else ""), is_coloured)
    arrow = paint(BLUE, "-->", is_coloured)
    return [
        f" {margin}{arrow} {shown_path(file)}:{place.row}:{place.column}",
        f" {margin} {bar}",
        f" {paint(BLUE, number, is_coloured)} {bar} {shown}",
        f" {margin} {bar} {' ' * start}{marks}",
    ]


def note(text: str, margin: int, is_coloured: bool) -> List[str]:
    """Lines below an excerpt."""
    first, *others = textwrap.wrap(text, WIDTH - 10, break_long_words=False, break_on_hyphens=False) or [""]
    before = " " * (margin + 2)
    return [f"{before}{paint(BLUE, '=', is_coloured)} {first}", *(f"{before}  {it}" for it in others)]


def paint(colour: str, text: str, is_coloured: bool) -> str:
    return f"{colour}{text}{END}" if is_coloured else text


def laid_out(line: bytes, at: int, length: int) -> Tuple[str, int, int]:
    """A line as it is shown, the column of a byte of it, from 0, and how many columns `length` bytes from there on take."""
    before, meant, after = (pieces(it) for it in (line[:at], line[at : at + length], line[at + length :]))
    shown, column = "", 0
    for piece in before:
        shown, column = put(shown, column, piece)
    start = column
    for piece in meant:
        shown, column = put(shown, column, piece)
    end = column
    for piece in after:
        shown, column = put(shown, column, piece)
    return shown.rstrip(), start, max(end - start, 1)


def pieces(line: bytes) -> str:
    return line.decode("utf-8", "surrogateescape")


def put(shown: str, column: int, piece: str) -> Tuple[str, int]:
    """Adds a character to a shown line, and returns the column after it."""
    if piece == "\t":
        width = TAB - column % TAB
        return shown + " " * width, column + width
    if not piece.isprintable():
        code = f"<{ord(piece) & 0xFF if 0xDC80 <= ord(piece) <= 0xDCFF else ord(piece):02X}>"
        return shown + code, column + len(code)
    if unicodedata.combining(piece):
        return shown + piece, column
    return shown + piece, column + (2 if unicodedata.east_asian_width(piece) in "WF" else 1)


def cut(shown: str, start: int) -> Tuple[str, int]:
    """A part of a long line around a column. Its columns count as characters here."""
    if len(shown) <= WIDTH:
        return shown, start
    first = max(0, min(start - WIDTH // 2, len(shown) - WIDTH))
    head, tail = "..." if first else "", "..." if first + WIDTH < len(shown) else ""
    return head + shown[first : first + WIDTH] + tail, start - first + len(head)
