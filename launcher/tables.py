"""The tables of docs/LANGUAGE.md and docs/CELL_SCRIPT.md."""
import functools
import re
import textwrap
from pathlib import Path
from typing import Dict, Iterator, List, Tuple

from .places import CELL_SCRIPT, LANGUAGE, TOP

# The columns of what is printed.
WIDTH = 100


class Row:
    """A row of a table: its place, the words that it explains, and its cells with their headings."""

    def __init__(self, place: str, heads: List[str], cells: List[str]) -> None:
        first = plain(cells[0])
        self.place = place
        self.cells: List[Tuple[str, str]] = list(zip(heads, cells))
        # The line of a status is found by the word after the program's name.
        lines = [word for it in cells for word in re.findall(r"^`rapid_cell: (\w+)", it)]
        self.words = [*first.split(", "), *codes(cells[0]), *lines]

    def get(self, *heads: str) -> str:
        """The first cell whose heading begins with one of these, or the empty text."""
        for head in heads:
            for own, cell in self.cells:
                if own.startswith(head):
                    return cell
        return ""

    def lines(self) -> Iterator[str]:
        """The cells that say something, each with its heading; each of several pieces of code has a line."""
        for head, cell in self.cells:
            if re.fullmatch(r"(`[^`]+`\s*)+", cell):
                first, *others = codes(cell)
                yield f"  {plain(head)}: {first}"
                yield from (f"  {' ' * len(plain(head))}  {it}" for it in others)
            elif cell:
                yield textwrap.fill(
                    f"  {plain(head)}: {cell}", WIDTH, subsequent_indent="    ", break_long_words=False, break_on_hyphens=False
                )


@functools.lru_cache(maxsize=None)
def rows() -> Tuple[Row, ...]:
    """Each row of the documents' tables, in their order."""
    return tuple(row for file in (LANGUAGE, CELL_SCRIPT) for row in rows_of(file))


def rows_of(file: Path) -> Iterator[Row]:
    title, heads = "", None
    for line in file.read_text(encoding="utf-8").splitlines():
        if line.startswith("#"):
            title = line.lstrip("# ")
        if not line.startswith("|"):
            heads = None
        elif heads is None:
            heads = cells_of(line)
        elif not line.startswith("|---"):
            yield Row(f"{file.relative_to(TOP)}, {title}", heads, cells_of(line))


@functools.lru_cache(maxsize=None)
def rule_rows() -> Dict[str, Row]:
    """The last row of each rule, which is the one of names and types if a rule is in two tables."""
    return {plain(row.cells[0][1]): row for row in rows() if row.cells[0][0] == "Rule"}


def cells_of(line: str) -> List[str]:
    """The cells of a table's line; a mark `|` in a cell has a backslash before it."""
    cells = re.split(r"(?<!\\)\|", line)[1:-1]
    return [it.strip().replace("\\|", "|") for it in cells]


def codes(cell: str) -> List[str]:
    """The pieces of a cell that are code."""
    return re.findall(r"`([^`]+)`", cell)


def plain(text: str) -> str:
    return text.replace("`", "")
