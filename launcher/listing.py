"""`list --source CELL`: the code of each task below the lines of its modules that own it, with names in place of numbers."""
from pathlib import Path
from typing import Dict, Iterable, Iterator, List, Optional, Sequence

from . import lengths, texts
from .code import Misfit, Op, Owner, Walk
from .excerpt import cut, laid_out
from .say import put_out, say
from .statements import Source, source_of
from .texts import Cell, line_of, read_cell

# The columns before a line of a module and before an operation.
LINE, OPERATION = 6, 10


class Listing:
    """What `list` prints: its lines before the code, the names of persistents, signals and meetings by number, and each task's code."""

    def __init__(self, lines: Iterable[str]) -> None:
        self.head: List[str] = []
        self.names: Dict[str, List[str]] = {"P": [], "D": [], "G": []}
        self.code: Dict[str, List[Op]] = {}
        for line in lines:
            if line.startswith("C "):
                _, task, _, op = line.split(" ", 3)
                name, _, args = op.partition(" ")
                self.code.setdefault(task, []).append(Op(name, args))
            else:
                self.head.append(line)
                self.names[line[0]].append(line.rpartition(" ")[2])


def print_source(file: Path, lines: Iterable[str]) -> None:
    listing = Listing(lines)
    if listing.code:
        cell = read_cell(file)
        put_out("".join(f"{it}\n" for it in listing.head))
        for number, task in enumerate(listing.code):
            put_out("".join(f"{it}\n" for it in of_task(listing, cell, number, task)))


def of_task(listing: Listing, cell: Cell, number: int, task: str) -> Iterator[str]:
    """The code of a task, or its bare operations if they do not fit the text, as when a module was just changed."""
    ops = listing.code[task]
    yield ""
    try:
        modules = cell.of_task(number)
        modules_texts = [texts.read(it.file) for it in modules]
        sources = [source_of(it) for it in modules_texts]
        owners = Walk(ops, sources).owners
    except (OSError, ValueError, Misfit):
        say(f"the code of {task} does not fit the text of its modules: its lines are not shown")
        yield from (f"C {task} {at} {op.name} {op.args}".rstrip() for at, op in enumerate(ops))
        return
    names = Names(listing, sources)
    shown: Optional[Owner] = None
    for at, (op, owner) in enumerate(zip(ops, owners)):
        assert owner
        if shown is None or owner.routine != shown.routine:
            routine = names.routines[owner.routine]
            yield f"{task} routine {owner.routine}: {routine.kind} {routine.name}, {modules[owner.module].name}"
        if owner != shown:
            yield from lines_of(modules_texts[owner.module], sources[owner.module], owner)
        shown = owner
        name = names.of(op, owner)
        yield f"{at:>{OPERATION}} {op.name} {op.args}".rstrip() + (f"  ! {name}" if name else "")


def lines_of(text: bytes, source: Source, owner: Owner) -> Iterator[str]:
    """The lines of the tokens that an owner shows."""
    for row in range(source.row_of(owner.first), source.row_of(owner.past - 1) + 1):
        yield f"{row:>{LINE}} " + cut(laid_out(line_of(text, row), 0, 0)[0], 0)[0]


class Names:
    """The names that the operations of a task have by number."""

    def __init__(self, listing: Listing, sources: Sequence[Source]) -> None:
        self.cell = listing.names
        self.routines = [routine for source in sources for routine in source.routines]
        self.slots = lengths.slots(sources)
        self.frames = lengths.frames(sources)

    def of(self, op: Op, owner: Owner) -> str:
        """The name of what an operation is about, or the empty text."""
        frame = self.frames[owner.routine]
        if op.name in ("Call", "Connect"):
            return self.routines[op.number()].name
        if op.name in ("Slot", "Local", "Ref", "Turn", "Step"):
            return (self.slots if op.name == "Slot" else frame)[op.number()].name
        table = {"Pers": "P", "GetSignal": "D", "PutSignal": "D", "Arrive": "G"}.get(op.name)
        if table:
            return named(self.cell[table], op.number())
        if op.name == "ZoneTie":
            return named(self.cell["D"], op.number(1))
        if op.name == "Order":
            return named(self.cell[op.args[0]], int(op.args.split()[0][1:]))
        return ""


def named(names: Sequence[str], number: int) -> str:
    return names[number] if number < len(names) else ""
