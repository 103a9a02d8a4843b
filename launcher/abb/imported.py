"""`import BACKUP OUT`: reads a backup, converts its tasks, and writes a cell."""
from dataclasses import dataclass, field
from pathlib import Path
from typing import Dict, List, Optional

from .backup import read_backup
from .cell import cell_files
from .convert import convert, read_texts
from .joints import Joints
from .model import Backup, Converted
from .places import Places
from .polling import written_names
from .reading import Reading
from .report import NOT_KEPT, Report
from .report_text import report_text

REPORT = "from_abb.txt"


@dataclass
class Wanted:
    """What the words of an import ask for."""

    backup: Path
    out: Path
    places: Optional[Path] = None
    joints: Optional[Path] = None
    add: Optional[Path] = None
    cross: Optional[Path] = None
    is_again: bool = False


@dataclass
class Imported:
    """What an import gives: the files to be written, by their names in OUT, and the report."""

    files: Dict[str, bytes] = field(default_factory=dict)
    report: Report = field(default_factory=Report)

    @property
    def lost(self) -> int:
        return self.report.count(NOT_KEPT)


def import_backup(wanted: Wanted) -> Imported:
    """Converts a backup; nothing is written. NotRead at the first text that is not what it should be."""
    found = Imported()
    backup = read_backup(wanted.backup, wanted.cross, found.report)
    reading = reading_of(wanted, backup, found.report)
    texts = [(task, read_texts(task, found.report)) for task in backup.tasks]
    written = {task.name: written_names(it) for task, it in texts}
    tasks = []
    for task, it in texts:
        if it:
            others = {name for other, names in written.items() if other != task.name for name in names}
            tasks.append(convert(backup, task, it, others, reading, found.report))
    add = wanted.add.read_bytes() if wanted.add else None
    for it in tasks:
        found.files.update({f"{it.task.name}/{name}": text for name, text in it.modules})
    found.files.update(cell_files(backup, tasks, reading.starts, reading.title, add, found.report))
    found.files.update(reading.files())
    found.report.first = first_lines(wanted, reading, tasks)
    found.files[REPORT] = report_text(found.report)
    return found


def reading_of(wanted: Wanted, backup: Backup, report: Report) -> Reading:
    """The reading that the words ask for. A table of joints that is not there yet is one without rows: the import writes it."""
    if wanted.joints:
        return Joints(backup, wanted.joints if wanted.joints.exists() else None, report)
    return Places(backup, wanted.places, report)


def first_lines(wanted: Wanted, reading: Reading, tasks: List[Converted]) -> List[str]:
    modules = sum(len(it.modules) - 1 for it in tasks)
    return [f"Positions: {reading.title}.", f"{wanted.backup.name}: {len(tasks)} tasks, {modules} modules."]
