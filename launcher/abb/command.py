"""The words of `import`, what it prints, and its statuses."""
import os
from pathlib import Path
from typing import Dict, List, Optional, Sequence, Tuple

from ..places import COMMAND
from ..say import put_out, say, show, wrong
from . import again
from .imported import REPORT, Imported, Wanted, import_backup
from .model import NotRead
from .report import HEADINGS, NOT_KEPT
from .report_text import line_text

# The statuses besides 0 and that of refused words: some places are not kept; a text is no RAPID; a file cannot be read.
SOME_LOST, NO_RAPID, NO_FILE = 1, 3, 5
FILES = ("--places", "--joints", "--add", "--cross")
AGAIN = "--again"
TAKES = "import takes the folder of a backup and the folder of a cell"


def import_words(words: Sequence[bytes]) -> int:
    """Does `import` with these words, and returns the status."""
    given = [os.fsdecode(it) for it in words]
    try:
        folders, options = taken_apart(given)
    except ValueError as error:
        return wrong(str(error))
    if len(folders) != 2:
        return wrong(TAKES)
    if "--places" in options and "--joints" in options:
        return wrong("--places and --joints exclude each other")
    wanted = wanted_of(folders, options)
    if not wanted.backup.is_dir():
        return wrong(f"{wanted.backup} is no folder")
    if not wanted.is_again and has_files(wanted.out):
        return wrong(f"{wanted.out} has files already; {AGAIN} imports once more")
    return done(wanted)


def taken_apart(given: Sequence[str]) -> Tuple[List[str], Dict[str, str]]:
    """The words that are no options, and the options with the words after them. ValueError with what is wrong."""
    folders: List[str] = []
    options: Dict[str, str] = {}
    waiting = list(given)
    while waiting:
        word = waiting.pop(0)
        if not word.startswith("-"):
            folders.append(word)
        elif word in options:
            raise ValueError(f"{word} is given twice")
        elif word in FILES and waiting:
            options[word] = waiting.pop(0)
        elif word == AGAIN:
            options[word] = ""
        else:
            raise ValueError(f"{word} takes a file" if word in FILES else f"import has no option {word}")
    return folders, options


def wanted_of(folders: Sequence[str], options: Dict[str, str]) -> Wanted:
    wanted = Wanted(Path(folders[0]), Path(folders[1]), is_again=AGAIN in options)
    for option in FILES:
        if option in options:
            setattr(wanted, option[2:], Path(options[option]))
    if wanted.is_again:
        again.complete(wanted)
    return wanted


def has_files(folder: Path) -> bool:
    return folder.is_dir() and any(folder.iterdir())


def done(wanted: Wanted) -> int:
    try:
        found = import_backup(wanted)
    except NotRead as refused:
        show(str(refused))
        say("nothing is written")
        return NO_RAPID
    except OSError as error:
        say(f"{error.filename or wanted.backup} cannot be read: {error.strerror}; nothing is written")
        return NO_FILE
    before = again.before(wanted)
    try:
        again.write(wanted, found)
    except OSError as error:
        say(f"{error.filename or wanted.out} cannot be written: {error.strerror}")
        return NO_FILE
    put_out("".join(f"{it}\n" for it in told(wanted, found, before)))
    return SOME_LOST if found.lost else 0


def told(wanted: Wanted, found: Imported, before: Optional[again.Before]) -> List[str]:
    """What is printed: how many entries the report has, those that are not kept, and what changed since the last import."""
    report = found.report
    counts = [f"{report.count(kind)} {kind}" for kind in HEADINGS if report.count(kind)]
    lines = [*report.first, f"{wanted.out / REPORT}: {', '.join(counts) or 'nothing to tell'}"]
    lines += [f"  {NOT_KEPT}: {line_text(it)}" for it in report.entries if it.kind == NOT_KEPT]
    if before:
        lines += again.changes(before, found)
    return [*lines, f"Next: {COMMAND} check {wanted.out / 'cell.toml'}"]
