"""The unproved program: made by the kit from the sources without a proof, and kept with a checksum of the sources.

The kit makes an unproved program only in order to run it once (`rt try`), and has no word that keeps it. So it is asked to check a
cell whose script is a pipe: the program waits at the pipe, and meanwhile its file is copied from the folder in which the kit works.
Where no such file is found, nothing is kept, and each unproved answer is made by a whole `rt try`, which takes a minute or more.
"""
import contextlib
import fcntl
import hashlib
import os
import re
import shutil
import subprocess
import tempfile
import time
from pathlib import Path
from typing import Iterator, List, Optional, Sequence

from . import build
from .child import end_group, started_group
from .places import CRATE, CRATES, TOP
from .say import NO_PROGRAM, put_err, say, write

# How many programs are kept, the last ones that were made.
MOST = 3
# The mark that the kit gave no program to keep.
NONE = ".none"
# How the folders begin in which programs are made.
ROOM = "rapid-cell-"


def place() -> Path:
    """Where the unproved program of the sources as they stand is kept."""
    return folder() / f"unproved-{checksum()}"


def folder() -> Path:
    cache = os.environ.get("XDG_CACHE_HOME", "")
    return Path(cache if os.path.isabs(cache) else os.path.expanduser("~/.cache"), "rapid_cell")


def checksum() -> str:
    """A checksum of all that the unproved program is made of."""
    found = hashlib.sha256()
    for file in build.sources(("src",)):
        with open(file, "rb", buffering=0) as it:
            text = it.read()
        found.update(f"{file[len(str(TOP)):]}\0{len(text)}\0".encode())
        found.update(text)
    return found.hexdigest()[:32]


def find() -> Optional[Path]:
    """The unproved program that is kept for the sources as they stand, if there is one."""
    file = place()
    return file if file.is_file() else None


def is_kept_by_kit() -> bool:
    """Whether nothing has shown yet that the kit that is here gives no program of these sources to keep."""
    file = place()
    try:
        return file.with_name(file.name + NONE).read_text(encoding="utf-8") != kit()
    except OSError:
        return True


def kit() -> str:
    """Which kit is here: its path, and when it was made."""
    found = shutil.which("rt")
    return f"{found} {os.stat(found).st_mtime_ns}" if found else ""


def sweep() -> None:
    """Removes what was left by launchers that were killed while they made a program, unless one makes one now."""
    left = list(folder().glob(ROOM + "*"))
    if not left:
        return
    with contextlib.suppress(OSError), open(folder() / "lock", "w") as lock:
        fcntl.flock(lock, fcntl.LOCK_EX | fcntl.LOCK_NB)
        for it in left:
            shutil.rmtree(it, ignore_errors=True)


def make() -> Optional[Path]:
    """Makes the unproved program and keeps it. None if the kit does not make it, or gives no program to keep."""
    file = place()
    with in_turn(file):
        if file.is_file():
            return file
        say("the program is not built yet; an unproved one is made now, in a minute or two on an idle machine, and kept")
        try:
            made = is_made(file)
        except OSError as error:
            say(f"it cannot be kept: {error}")
            return None
    remove_old()
    return file if made else None


@contextlib.contextmanager
def in_turn(file: Path) -> Iterator[None]:
    """Waits while another launcher makes the same."""
    try:
        file.parent.mkdir(mode=0o700, parents=True, exist_ok=True)
        lock = open(file.parent / "lock", "w")
    except OSError:
        # Nothing can be kept there, which is reported where it is tried.
        yield
        return
    with lock:
        fcntl.flock(lock, fcntl.LOCK_EX)
        yield


def is_made(file: Path) -> bool:
    """Makes the program and puts it in its place. Returns whether it could be taken from the kit."""
    with tempfile.TemporaryDirectory(prefix=ROOM, dir=file.parent) as room:
        copy, said = Path(room, "program"), Path(room, "said")
        is_waiting = copied(copy, said, Path(room))
        if copy.exists() and is_program(copy):
            copy.touch()
            copy.replace(file)
            return True
        if is_waiting:
            file.with_name(file.name + NONE).write_text(kit(), encoding="utf-8")
        else:
            put_err(said.read_bytes())
            say("the kit did not make the unproved program: its messages above say why")
    return False


def copied(copy: Path, said: Path, room: Path) -> bool:
    """Starts the kit, and copies the program while it waits at its script. Returns whether it waited there. `copy` is written if
    exactly one executable file was found, and `said` has what the kit said."""
    pipe, work = room / "cell.toml", room / "work"
    os.mkfifo(pipe)
    work.mkdir()
    words = ["rt", "try", "--steps", "1", "--", "check", str(pipe)]
    how = {"cwd": CRATES / CRATE, "env": {**os.environ, "TMPDIR": str(work)}}
    with said.open("wb") as out, started_group(words, stdin=subprocess.DEVNULL, stdout=out, stderr=out, **how) as kit:
        end = reader_of(pipe, kit)
        if end is not None:
            found = [it for it in work.rglob("*") if it.is_file() and os.access(it, os.X_OK)]
            if len(found) == 1:
                shutil.copy2(found[0], copy)
                copy.chmod(0o700)
            os.close(end)
        end_group(kit)
    return end is not None


def reader_of(pipe: Path, kit: "subprocess.Popen[bytes]") -> Optional[int]:
    """Waits until a program opens the pipe to read it. Returns the pipe's other end, or None if the kit ends before."""
    while kit.poll() is None:
        try:
            return os.open(pipe, os.O_WRONLY | os.O_NONBLOCK)
        except OSError:
            time.sleep(0.05)
    return None


def is_program(file: Path) -> bool:
    """Whether a file is the program: without words it says so, and ends with status 2."""
    try:
        ran = subprocess.run(
            [file], stdin=subprocess.DEVNULL, stdout=subprocess.DEVNULL, stderr=subprocess.PIPE, timeout=60
        )
    except (OSError, subprocess.TimeoutExpired):
        return False
    return (ran.returncode, ran.stderr) == (2, b"rapid_cell: words 0\n")


def remove_old() -> None:
    """Removes all but the last programs that were made."""
    kept = sorted(folder().glob("unproved-*"), key=lambda it: it.stat().st_mtime)
    for file in kept[:-MOST]:
        with contextlib.suppress(OSError):
            file.unlink()


# Without a program that is kept


def try_once(words: Sequence[bytes]) -> int:
    """Runs what the kit makes of the sources, prints what it says, and returns its status."""
    say("the kit gives no program to keep, so this takes a minute or two each time")
    at = [k for k, word in enumerate(words) if word != b"--history"][1]
    given = words[at]
    # The kit runs it in a folder of its own.
    cell = given if words[0] == b"load" else os.path.abspath(given)
    whole: List[bytes] = [*words[:at], cell, *words[at + 1 :]]
    with started_group(
        [b"rt", b"try", b"--", *whole],
        cwd=CRATES / CRATE,
        stdin=subprocess.DEVNULL,
        stdout=subprocess.PIPE,
        stderr=subprocess.PIPE,
    ) as kit:
        out, err = kit.communicate()
    ended = re.search(rb"^run=ended status=(\d+) ", err, re.M)
    if not ended:
        put_err(err)
        if b"within the time limit" in err:
            say("it ran longer than the kit allows: RT_SECONDS=600 before ./rapid_cell allows 600 seconds; fewer `steps` end it sooner")
        else:
            say("the kit did not run it to its end: its messages are above, and docs/CELL_SCRIPT.md has its limits")
        return NO_PROGRAM
    write(1, out)
    for line in err.splitlines(keepends=True):
        if line.startswith(b"rapid_cell: "):
            put_err(as_given(line, cell, given))
    return int(ended[1])


def as_given(line: bytes, cell: bytes, given: bytes) -> bytes:
    """The program's line with the script's name as the caller wrote it."""
    for head in (b"rapid_cell: read ", b"rapid_cell: long "):
        if line == head + cell + b"\n":
            return head + given + b"\n"
    return line
