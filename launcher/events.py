"""Where the events of a run come from: the program, by turns or with threads, or the file of a history."""
import os
from dataclasses import dataclass
from pathlib import Path
from typing import Callable, Iterator, List, Optional

from . import program
from .hints import HISTORY
from .program import Answer, Program
from .say import NOT_PRINTED, REFUSED, say
from .trace import NO_TRACE

Take = Callable[[Iterator[str]], None]
# How the lines of a history begin.
HEADS = (b"H ", b"E ")
# What `audit` prints of a history at whose end the run is over.
WHOLE = b" whole\n"


@dataclass(frozen=True)
class Run:
    """Which run is meant: one by turns or with threads, by its action, or that of a history, by the name of its file; the file that
    keeps the history of the run, if one does; and whether the places of its events are asked for."""

    action: bytes = b"round"
    history: Optional[bytes] = None
    kept: Optional[Path] = None
    is_traced: bool = True


def read_events(found: Program, name: bytes, run: Run, take: Take) -> Answer:
    """Hands the lines of a run's events to `take`, with places if the program prints them. Of a history the status is that of `audit`,
    and what that prints is the answer."""
    if run.history is not None:
        return of_history(found, name, run.history, take)
    if run.kept:
        return kept(found, [run.action, name, HISTORY], run.kept, take)
    if run.action == b"round" and run.is_traced:
        answer = program.read(found, [b"trace", name], take)
        if answer.err != NO_TRACE:
            return answer
    return program.read(found, [run.action, name, HISTORY], take)


def of_history(found: Program, name: bytes, history: bytes, take: Take) -> Answer:
    audited = program.answer(found, [b"audit", name, history])
    if not audited.status:
        with open(os.fsdecode(history), encoding="utf-8", errors="surrogateescape", newline="\n") as lines:
            take(line.rstrip("\n") for line in lines)
    return audited


def told(run: Run, answer: Answer) -> Answer:
    """An answer without what `audit` prints of a history that is legal."""
    return answer if run.history is None or answer.status else Answer(0, b"", answer.err)


def is_open(answer: Answer) -> bool:
    """Whether a history that is legal ends before its run does."""
    return bool(answer.out) and not answer.out.endswith(WHOLE)


# Histories that are kept


def may_be_kept(file: Path) -> bool:
    """Whether nothing is at the place of a history but an earlier one."""
    return not os.path.lexists(file) or (file.is_file() and is_history(os.fsencode(file)))


def is_history(name: bytes) -> bool:
    """Whether a regular file begins as a history does."""
    try:
        if not os.path.isfile(name):
            return False
        with open(name, "rb") as text:
            head = text.read(3)
    except (OSError, ValueError):
        return False
    # A TOML text may have a key `H`, and then a sign.
    return head[:2] in HEADS and head[2:] != b"="


def kept(found: Program, words: List[bytes], file: Path, take: Take) -> Answer:
    """Runs the program, and keeps the lines that it hands to `take`."""
    if not may_be_kept(file):
        say(f"{file} is there and is no history: remove it, or give another name with --keep")
        return Answer(REFUSED, b"", b"")
    beside = file.with_name(f".{file.name}.{os.getpid()}")
    try:
        with open(beside, "x", encoding="utf-8", errors="surrogateescape", newline="\n") as text:
            answer = program.read(found, words, lambda lines: take(written(lines, text.write)))
        if text_is_there(beside):
            os.replace(beside, file)
        return answer
    except OSError as error:
        say(f"{file} could not be written ({error.strerror})")
        return Answer(NOT_PRINTED, b"", b"")
    finally:
        if os.path.lexists(beside):
            os.unlink(beside)


def written(lines: Iterator[str], write: Callable[[str], int]) -> Iterator[str]:
    """Lines, each written before it is handed on."""
    for line in lines:
        write(f"{line}\n")
        yield line


def text_is_there(file: Path) -> bool:
    """Whether something was written: a cell that is refused has no history."""
    return file.stat().st_size > 0
