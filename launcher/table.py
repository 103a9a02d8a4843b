"""`table CELL`: the setpoints, signals and texts of a run as CSV, for a spreadsheet."""
import csv
import io
import itertools
from pathlib import Path
from typing import Iterable, Iterator, List, Union

from . import history, script
from .replay import Replay
from .say import put_out
from .script import Script, degrees
from .texts import read

# How many characters are printed at once.
BLOCK = 65_536
Cells = List[Union[str, int]]
# How a text begins that a spreadsheet takes for a formula, or for the mark of a text.
FORMULA = ("=", "+", "-", "@", "'")


def print_table(file: Path, lines: Iterator[str]) -> None:
    """Prints the table of a history's lines, by the script in a file."""
    first = next(lines, None)
    if first is None:
        return
    text = io.StringIO()
    rows = csv.writer(text, lineterminator="\n")
    for row in rows_of(script.parse(read(file)), itertools.chain([first], lines)):
        rows.writerow(row)
        if text.tell() > BLOCK:
            put_out(text.getvalue())
            text.seek(0)
            text.truncate()
    put_out(text.getvalue())


def rows_of(cell: Script, lines: Iterable[str]) -> Iterator[Cells]:
    """The head, how the cell starts, its events in order, and how its tasks ended."""
    replay, ends, number = Replay(cell), {}, 0
    none = [""] * cell.axes
    yield ["event", "task", "kind", *(f"axis_{k}" for k in range(1, cell.axes + 1)), "signal", "value", "text"]
    for task in cell.tasks:
        if task.arm:
            yield ["", task.name, "start", *map(degrees, task.arm), *none[len(task.arm) :], "", "", ""]
    yield from (["", "", "start", *none, it.name, it.start, ""] for it in cell.signals)
    for line in lines:
        if line.startswith("E "):
            name, fate = history.end_of(line)
            yield [ends.get(name, ""), name, "end", *none, "", "", fate]
            continue
        event = history.event_of(line)
        if event.kind == "Setpoint" and event.answer == "Given":
            axes = event.request.split()[1:]
            yield [number, event.actor, "setpoint", *axes, *none[len(axes) :], "", "", ""]
        elif event.kind == "Say":
            yield [number, event.actor, "text", *none, "", "", as_text(history.said_by(event.request))]
        elif event.kind == "End":
            ends[event.actor] = number
        for signal, value in replay.take(event):
            yield [number, event.actor, "signal", *none, cell.signals[signal].name, value, ""]
        number += 1


def as_text(said: str) -> str:
    """A text as a spreadsheet takes it as one: with an apostrophe before what it would take for a formula."""
    return f"'{said}" if said.startswith(FORMULA) else said
