"""The tables of positions, places.csv and joints.csv: a row for each position, with its tool and its work object."""
import csv
import io
from dataclasses import dataclass
from pathlib import Path
from typing import Dict, List, Optional, Tuple

from .cfg import decoded
from .model import NotRead

AXES = [f"rax_{n}" for n in range(1, 7)] + [f"eax_{it}" for it in "abcdef"]
COLUMNS = ["task", "position", "tool", "wobj", *AXES]
# The position of a row that says where an arm starts.
START = "start"


@dataclass(frozen=True)
class Row:
    """A row: its values in the order of AXES, None where a cell is empty, and its line in the file, 0 for one that is asked for."""

    task: str
    position: str
    tool: str
    wobj: str
    values: Tuple[Optional[float], ...]
    line: int = 0

    @property
    def key(self) -> Tuple[str, str]:
        return self.task.lower(), self.position.replace(" ", "").lower()

    @property
    def pair(self) -> Tuple[str, str, str, str]:
        return (*self.key, self.tool.lower(), self.wobj.lower())

    @property
    def is_filled(self) -> bool:
        """Whether all of the robot's values are there."""
        return all(it is not None for it in self.values[:6])


def read_table(file: Path) -> List[Row]:
    """The rows of a table; those without any value too. NotRead at the first cell that is wrong."""
    text = decoded(file.read_bytes())
    head = text.split("\n", 1)[0]
    has_semicolons = head.count(";") > head.count(",")
    lines = csv.reader(io.StringIO(text.replace("\r\n", "\n"), newline=""), delimiter=";" if has_semicolons else ",")
    columns: Optional[Dict[str, int]] = None
    found: Dict[Tuple[str, str, str, str], Row] = {}
    try:
        for cells in lines:
            if not any(it.strip() for it in cells):
                continue
            if columns is None:
                columns = columns_of(file, lines.line_num, cells)
                continue
            row = row_of(file, lines.line_num, cells, columns, has_semicolons)
            if row.pair in found:
                raise NotRead(str(file), row.line, 1, f"{row.position} stands twice with this tool and work object")
            found[row.pair] = row
    except csv.Error as error:
        raise NotRead(str(file), lines.line_num, 1, f"no row of a table: {error}") from None
    return list(found.values())


def columns_of(file: Path, line: int, cells: List[str]) -> Dict[str, int]:
    columns = {it.strip().lower(): n for n, it in enumerate(cells)}
    missing = [it for it in COLUMNS[:10] if it not in columns]
    if missing:
        raise NotRead(str(file), line, 1, f"the column {missing[0]} was expected in the first line: {','.join(COLUMNS)}")
    return columns


def row_of(file: Path, line: int, cells: List[str], columns: Dict[str, int], has_semicolons: bool) -> Row:
    def cell(name: str) -> str:
        n = columns.get(name, len(cells))
        return cells[n].strip() if n < len(cells) else ""

    values: List[Optional[float]] = []
    for name in AXES:
        text = cell(name)
        try:
            values.append(float(text.replace(",", ".") if has_semicolons else text) if text else None)
        except ValueError:
            raise NotRead(str(file), line, 1, f"{name} of {cell('position')} should be a number, and is {text}") from None
    if not cell("task") or not cell("position"):
        raise NotRead(str(file), line, 1, "a task and a position were expected in the first columns")
    return Row(cell("task"), cell("position"), cell("tool") or "tool0", cell("wobj") or "wobj0", tuple(values), line)


def table_text(rows: List[Row]) -> bytes:
    """A table of these rows."""
    out = io.StringIO(newline="")
    writer = csv.writer(out, lineterminator="\n")
    writer.writerow(COLUMNS)
    for it in rows:
        writer.writerow([it.task, it.position, it.tool, it.wobj, *("" if value is None else f"{value:.10g}" for value in it.values)])
    return out.getvalue().encode()
