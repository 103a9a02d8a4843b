"""What the report of an import tells, ordered by what matters."""
from dataclasses import dataclass, field
from typing import Dict, List

# The kinds of entries in the order of the report, each with its heading.
NOT_KEPT = "not kept"
TO_DECIDE = "to decide"
MISSING = "rows that are missing"
GUESSED = "guessed"
UNWATCHED = "zones that are not watched"
CHANGED = "changed"
LEFT_OUT = "left out"
HEADINGS: Dict[str, str] = {
    NOT_KEPT: "Not kept: the task ends there, and says so",
    TO_DECIDE: "To decide",
    MISSING: "Rows that are missing",
    GUESSED: "Guessed",
    UNWATCHED: "Zones that are not watched",
    CHANGED: "Changed",
    LEFT_OUT: "Left out",
}


@dataclass(frozen=True)
class Entry:
    """One thing that the import did or asks: in which task and module, at which line from 1; empty and 0 where there is none."""

    kind: str
    task: str
    module: str
    line: int
    text: str


@dataclass
class Report:
    """The entries of an import. `first` is what stands before them: the reading of positions, how many modules and tasks."""

    first: List[str] = field(default_factory=list)
    entries: List[Entry] = field(default_factory=list)

    def add(self, kind: str, task: str, module: str, line: int, text: str) -> None:
        """Adds an entry, once."""
        entry = Entry(kind, task, module, line, text)
        if entry not in self.entries:
            self.entries.append(entry)

    def count(self, kind: str) -> int:
        return sum(it.kind == kind for it in self.entries)
