"""What helps if the words or a file are refused: the cause, and what was perhaps meant."""
import errno
import os
import stat
from pathlib import Path
from typing import Iterable, List, Optional, Sequence

from . import actions
from .abb.recognized import is_backup
from .places import COMMAND, FIRST_CELL
from .refusals import Kind, Refusal
from .say import HINT
from .texts import LONGEST_HISTORY, LONGEST_MODULE, LONGEST_SCRIPT, Cell

HISTORY = b"--history"


# Words


def of_words(place: int, words: Sequence[bytes]) -> List[str]:
    """The cause of a refused word, by its place from 0, or of a missing one. Without any word, a short help."""
    if not words:
        return actions.SHORT.splitlines()
    return [*cause_of_words(place, [shown_word(it) for it in words], words), HINT]


def cause_of_words(place: int, words: Sequence[str], given: Sequence[bytes]) -> List[str]:
    if place >= len(words):
        return missing(words)
    word = words[place]
    if word.startswith("-"):
        if word == HISTORY.decode():
            return [f"{word} is given twice"]
        names = [it.name for it in actions.OPTIONS]
        return [f"{word} does not go with this action" if word in names else f"there is no option {word}{meant(word, names)}"]
    others = [k for k, it in enumerate(words) if it != HISTORY.decode()]
    if place == others[0]:
        return unknown_action(word, given[place])
    if not is_utf8(given[place]):
        return [f"the name {word} is not valid UTF-8: rename the file or its folder"]
    return [f"{word} is one word too many: put a name with spaces in quotes"]


def missing(words: Sequence[str]) -> List[str]:
    others = [it for it in words if it != HISTORY.decode()]
    if not others:
        return ["an action is missing, such as check"]
    action = next((it for it in actions.ACTIONS if it.name == others[0]), None)
    if action and action.takes == "N":
        return [f"{action.name} takes a number: {COMMAND} {action.name} 10"]
    if action and action.takes == "CELL HISTORY" and len(others) == 2:
        return [f"{action.name} takes a history after the script: {COMMAND} {action.name} {others[1]} history.txt"]
    here = sorted(it.name for it in Path().glob("*.toml"))
    example = here[0] if here else FIRST_CELL
    return [f"{others[0]} takes the script of a cell: {COMMAND} {others[0]} {example}"]


def unknown_action(word: str, given: bytes) -> List[str]:
    if given.endswith(b".toml") or os.path.isfile(given):
        return [f"an action comes before the script: {COMMAND} check {word}"]
    if actions.is_programs_action(given):
        return [f"this program does not have the action {word} yet: ./rapid_cell build rebuilds it"]
    return [f"there is no action {word}{meant(word, [it.name for it in actions.ACTIONS])}"]


def meant(word: str, names: Iterable[str]) -> str:
    found = actions.nearest(word, names)
    return f": did you mean {found}?" if found else ""


def is_utf8(word: bytes) -> bool:
    try:
        word.decode()
    except UnicodeDecodeError:
        return False
    return True


def shown_word(word: bytes) -> str:
    """A word as it can be printed: bytes that are no text and control characters by their codes."""
    return "".join(it if it.isprintable() else ascii(it)[1:-1] for it in word.decode(errors="surrogateescape"))


# Files


def is_pipe(name: bytes) -> bool:
    """Whether a file is a pipe with a name, which waits for a writer. A shell's own `<(..)` has its writer."""
    try:
        return stat.S_ISFIFO(os.stat(name).st_mode) and not name.startswith((b"/dev/", b"/proc/"))
    except (OSError, ValueError):
        return False


def is_read_once(name: bytes) -> bool:
    """Whether a file is a pipe or a device, which gives its text only once."""
    try:
        kind = os.stat(name).st_mode
    except (OSError, ValueError):
        return False
    return not (stat.S_ISREG(kind) or stat.S_ISDIR(kind))


def of_file(refusal: Refusal, cell: Optional[Cell], script: Path, history: Optional[bytes] = None) -> List[str]:
    """Why a file could not be read, or is too long. `history` is the name of the audited history, if there is one."""
    name = os.fsdecode(refusal.name)
    is_script = name == str(script)
    if refusal.name == history and not is_script:
        if refusal.kind is Kind.LONG:
            return [f"{shown_path(Path(name))} has more than {LONGEST_HISTORY:,} bytes"]
        return [unread(Path(name))]
    module = cell.named(refusal.name) if cell and not is_script else None
    file = module.file if module else script if is_script else script.parent / name
    if refusal.kind is Kind.LONG:
        most = LONGEST_SCRIPT if is_script else LONGEST_MODULE
        return [f"{shown_path(file)} has more than {most:,} bytes"]
    return [unread(file), *where_named(module is not None, script)]


def where_named(is_module: bool, script: Path) -> List[str]:
    return [f"the name of a module is a path from the folder of {shown_path(script)}"] if is_module else []


def unread(file: Path) -> str:
    """Why a file cannot be read."""
    name = shown_path(file)
    try:
        kind = os.stat(file).st_mode
        if stat.S_ISDIR(kind):
            if is_backup(file):
                return f"{name} is a backup of an ABB controller: ./rapid_cell import {name} OUT makes a cell of it"
            inner = sorted((it.name for it in file.glob("*.toml")), key=lambda it: (it != "cell.toml", it))
            return f"{name} is a folder{f': did you mean {shown_path(file / inner[0])}?' if inner else ''}"
        with open(os.open(file, os.O_RDONLY | os.O_NONBLOCK), "rb"):
            return f"{name} could not be read completely"
    except OSError as error:
        return cause_of_error(file, error)
    except ValueError:
        return f"{name} is not a valid file name"


def cause_of_error(file: Path, error: OSError) -> str:
    name = shown_path(file)
    if error.errno in (errno.ENOENT, errno.ENOTDIR):
        near = nearest_file(file)
        folder = first_missing(file)
        if folder != file:
            return f"{name} does not exist: there is no folder {shown_path(folder)}"
        return f"there is no file {name}{f': did you mean {shown_path(near)}?' if near else ''}"
    if error.errno in (errno.EACCES, errno.EPERM):
        return f"you may not read {name}: check its permissions and those of its folders"
    return f"{name}: {error.strerror}"


def first_missing(file: Path) -> Path:
    """The first part of a path that is no folder: the file itself, or a folder on the way to it."""
    for folder in reversed(file.parents):
        if not folder.is_dir():
            return folder
    return file


def nearest_file(file: Path) -> Optional[Path]:
    """The file beside a missing one that was perhaps meant."""
    try:
        names = [it.name for it in file.parent.iterdir()]
    except OSError:
        return None
    found = actions.nearest(file.name, names)
    if not found:
        alike = [it for it in names if it.endswith(file.suffix)] if file.suffix else []
        found = alike[0] if len(alike) == 1 else None
    return file.parent / found if found else None


def shown_path(file: Path) -> str:
    return shown_word(os.fsencode(file))
