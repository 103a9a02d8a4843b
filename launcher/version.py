"""`--version`: the version, the commit, the kit, and the program that answers."""
import platform
import shutil
import subprocess
import time
from pathlib import Path
from typing import List, Optional

from . import build, kept, proof, record
from .places import CRATES, IS_INSTALLED, PROGRAM, RECORD, TOP


def page() -> str:
    lines = by_record() if IS_INSTALLED else [commit(), program(), kit()]
    return "".join(f"{line}\n" for line in (*lines, f"python {platform.python_version()}"))


def by_record() -> List[str]:
    """What the record of an installed program says, if the program is the one that it names."""
    try:
        found = record.read(RECORD)
    except record.NoRecord as error:
        return [f"rapid_cell {record.version()}", f"program: {RECORD} {error}: install rapid_cell again"]
    is_same = PROGRAM.is_file() and proof.sum_of(PROGRAM) == found.once["program"]
    said = f"proved, by the record at {RECORD}" if is_same else f"not the one of the record at {RECORD}: install rapid_cell again"
    return [found.title, f"program: {said}", f"kit: {found.once['kit']}, by the record"]


def commit() -> str:
    named = f"rapid_cell {record.version()}"
    head = said_by("git", "-C", str(TOP), "log", "-1", "--format=%h of %cs")
    if not head or not (TOP / ".git").exists():
        return f"{named}, commit unknown"
    is_changed = said_by("git", "-C", str(TOP), "status", "--porcelain")
    return f"{named}, commit {head}{', with changes' if is_changed else ''}"


def program() -> str:
    if PROGRAM.is_file():
        newer = build.newer_source()
        stale = f", older than {newer}" if newer else ""
        return f"program: proved, since {day(PROGRAM)}{stale}"
    file = kept.find()
    if file:
        return f"program: not proved, kept since {day(file)} (./rapid_cell build proves it)"
    return "program: not built yet (./rapid_cell build proves and builds it)"


def kit() -> str:
    return f"kit: {(said_by('rt', 'version') or 'unknown') if shutil.which('rt') else 'none on the PATH'}"


def day(file: Path) -> str:
    return time.strftime("%Y-%m-%d %H:%M", time.localtime(file.stat().st_mtime))


def said_by(*words: str) -> Optional[str]:
    """What a command prints, or None if it fails."""
    try:
        ran = subprocess.run(
            words, cwd=CRATES, stdin=subprocess.DEVNULL, stdout=subprocess.PIPE, stderr=subprocess.DEVNULL, timeout=20
        )
    except (OSError, subprocess.TimeoutExpired):
        return None
    return ran.stdout.decode(errors="replace").strip() if ran.returncode == 0 else None
