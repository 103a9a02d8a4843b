"""`cover CELL..`: the lines and branches of the modules that ran, over one or several cells."""
import itertools
from pathlib import Path
from typing import Dict, Iterable, Iterator, List, Optional

from . import program
from .coverage import Branch, Coverage, Module, first_of
from .events import Run, read_events, told
from .listing import Listing
from .program import Answer, Program
from .say import REFUSED, say
from .statements import TEST, WHILE, Statement
from .story import Story
from .texts import line_of, read_cell
from .trace import NO_TRACE, Reader, Traced


class Cover:
    """The modules of the cells by their files, each with its counts over all cells."""

    def __init__(self) -> None:
        self.modules: Dict[Path, Module] = {}

    def run(self, found: Program, name: bytes, file: Path, run: Run = Run()) -> Answer:
        """Runs a cell by turns, or reads a history of it, and adds what ran. A cell that is refused has no lines."""
        if run.history is not None:
            return self.of_history(found, name, file, run)
        answer = program.read(found, [b"trace", name], lambda lines: self.take(file, lines))
        if answer.err == NO_TRACE:
            say("this program does not trace statements yet: ./rapid_cell build rebuilds it")
            return Answer(REFUSED, b"", b"")
        return answer

    def of_history(self, found: Program, name: bytes, file: Path, run: Run) -> Answer:
        """The events of a history have no places in its lines: these are found by the code of the tasks."""
        lines: List[str] = []
        listed = program.read(found, [b"list", name], lines.extend)
        if listed.status:
            return listed
        story = Story(file, Listing(lines), lambda story, task: [])
        coverage = Coverage(story.cell)
        return told(run, read_events(found, name, run, lambda lines: self.add(coverage, map(story.line, lines))))

    def take(self, file: Path, lines: Iterator[str]) -> None:
        first = next(lines, None)
        if first is not None:
            cell = read_cell(file)
            reader = Reader(it.name for it in cell.modules)
            events = (it for it in itertools.chain([first], lines) if not it.startswith("E "))
            self.add(Coverage(cell), map(reader.read, events))

    def add(self, coverage: Coverage, events: Iterable[Optional[Traced]]) -> None:
        """Adds what ran in these events to what ran in other cells."""
        for traced in events:
            if traced:
                coverage.take(traced)
        for it in coverage.modules.values():
            known = self.modules.setdefault(it.file.resolve(), it)
            if known is not it:
                known.add_counts(it)

    def text(self) -> str:
        return "".join(f"{line}\n" for module in self.modules.values() for line in lines_of(module))

    def lcov(self) -> str:
        """The same as a tracefile of lcov."""
        return "".join(f"{line}\n" for file, module in self.modules.items() for line in lcov_of(file, module))


def lines_of(module: Module) -> Iterator[str]:
    """How much of a module ran, and what did not."""
    rows = module.rows()
    branches = [(it, branch) for it, found in module.branches() for branch in found if branch.entered is not None]
    ran = sum(count > 0 for count in rows.values())
    entered = sum(branch.entered != 0 for _, branch in branches)
    yield f"{module.file}: {ran} of {len(rows)} lines, {entered} of {len(branches)} branches"
    notes = [(row, f"never ran: {line_of(module.text, row).decode('utf-8', 'replace').strip()}") for row, count in rows.items() if not count]
    for it, branch in branches:
        # A list that begins on a line of its own is told of by that line.
        first = first_of(branch.arm.statements) if branch.arm else None
        if branch.entered == 0 and (first is None or rows[module.source.row_of(first.start)] > 0):
            notes.append((branch.row, said_of(it, branch)))
    yield from (f"{row:>6} {text}" for row, text in sorted(notes))


def said_of(it: Statement, branch: Branch) -> str:
    """What never happened at a statement with lists inside it."""
    if branch.arm:
        whats = {"THEN": "the condition of this IF was never TRUE", "DO": f"the statements of this {it.form} never ran"}
        return whats.get(branch.arm.word, f"the statements of this {branch.arm.word} never ran")
    if it.form == WHILE:
        return "this WHILE never came to its end"
    if it.form == TEST:
        return "one of the CASEs of this TEST was taken each time"
    return "the condition of this IF was TRUE each time" if len(it.arms) == 1 else "one of the conditions of this IF was TRUE each time"


def lcov_of(file: Path, module: Module) -> Iterator[str]:
    yield "TN:"
    yield f"SF:{file}"
    found = hit = 0
    for number, (it, branches) in enumerate(module.branches()):
        looked = module.entry(it).count
        for k, branch in enumerate(branches):
            if branch.entered is not None:
                yield f"BRDA:{module.source.row_of(it.start)},{number},{k},{branch.entered if looked else '-'}"
                found, hit = found + 1, hit + (branch.entered > 0)
    yield f"BRF:{found}"
    yield f"BRH:{hit}"
    rows = module.rows()
    yield from (f"DA:{row},{count}" for row, count in rows.items())
    yield f"LF:{len(rows)}"
    yield f"LH:{sum(count > 0 for count in rows.values())}"
    yield "end_of_record"
