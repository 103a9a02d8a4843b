"""`watch CELL`: checks a cell again whenever a file of it changes, on one screen."""
import os
import shutil
import subprocess
import time
from pathlib import Path
from typing import Dict, List, Optional, Tuple

from . import faults, hints, program, refusals, shown
from .program import Program
from .refusals import Kind
from .say import is_coloured, put_out
from .texts import read_cell

# How often the files are looked at, in seconds.
EVERY = 0.3
CLEAR = "\x1b[2J\x1b[H"
Stamp = Dict[str, Tuple[int, int]]


def watch(found: Program, script: Path) -> int:
    """Checks until somebody stops it, which is no failure."""
    seen: Optional[Stamp] = None
    try:
        while True:
            now = stamp_of(script)
            if now != seen:
                seen = now
                show_check(found, script, len(now))
            time.sleep(EVERY)
    except KeyboardInterrupt:
        put_out("\n")
        return 0


def stamp_of(script: Path) -> Stamp:
    """The cell's files, each with when it was written and its size; one that is not there has none."""
    try:
        files = [script, *(it.file for it in read_cell(script).modules)]
    except (OSError, ValueError):
        files = [script]
    found: Stamp = {}
    for file in files:
        try:
            state = os.stat(file)
            found[str(file)] = (state.st_mtime_ns, state.st_size)
        except (OSError, ValueError):
            found[str(file)] = (0, -1)
    return found


def show_check(found: Program, script: Path, files: int) -> None:
    is_terminal = os.isatty(1)
    rows = shutil.get_terminal_size().lines if is_terminal else 1000
    lines, summary = answer_of(found, script, rows - 3)
    proof = "" if found.is_proved else ", not proved"
    status = f"{time.strftime('%H:%M:%S')} {summary}{proof}; watching {files} files, Ctrl-C ends"
    put_out((CLEAR if is_terminal else "") + "".join(f"{line}\n" for line in (*lines, status)))


def answer_of(found: Program, script: Path, rows: int) -> Tuple[List[str], str]:
    """What fits into so many lines of a check's answer, and a line that sums it up."""
    try:
        first = program.answer(found, ["check", script], None, 60)
        if first.status == 0:
            return [], "accepted"
        told = all_of(found, script, first.err)
    except (OSError, subprocess.TimeoutExpired) as error:
        return [str(error)], "could not be checked"
    lines: List[str] = []
    for n, (line, block) in enumerate(told):
        if n and len(lines) + len(block) + 2 > rows:
            lines.append(f"and {len(told) - n} more")
            break
        lines += [line, *block]
    return lines[:rows], "1 error" if len(told) == 1 else f"{len(told)} errors"


def all_of(found: Program, script: Path, said: bytes) -> List[Tuple[str, List[str]]]:
    """Each error: the program's line, and what is shown below it."""
    refusal = refusals.parse(said)
    if refusal is None or refusal.kind not in (Kind.SCRIPT, Kind.MODULE) or not script.is_file():
        below = shown.of_cell(refusal, script, {}, is_coloured()) if refusal and refusal.kind is not Kind.WORDS else []
        return [(hints.shown_word(said.strip()), below)]
    return [
        (hints.shown_word(refusals.line_of(it.refusal).strip()), shown.of_cell(it.refusal, script, {}, is_coloured(), it.text))
        for it in faults.all_faults(found, read_cell(script)).faults
    ]
