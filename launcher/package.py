"""`package`: packs the proved program with its record, for machines without the kit: as a Debian package and as a tar.gz."""
import contextlib
import fcntl
import os
import shutil
import tempfile
from pathlib import Path
from typing import Iterator, List, Optional, Sequence, Tuple

from . import debian, packed, record
from .places import IS_INSTALLED
from .record import Record
from .say import NO_PROGRAM, NOT_PRINTED, NOT_PROVED, REFUSED, put_out, say, wrong

# What the folder is called in which the packages are written before they are put in their place.
ROOM = ".rapid-cell-"
TOOLS = ("git", "dpkg-deb", "dpkg-shlibdeps")


class Refused(Exception):
    """Nothing is packed: why, and the status."""

    def __init__(self, why: str, status: int) -> None:
        super().__init__(why)
        self.status = status


def package(words: Sequence[bytes]) -> int:
    given = {b"-o": b".", b"--gate": b""}
    if len(words) % 2 or any(it not in given for it in words[::2]) or len(set(words[::2])) < len(words[::2]) or b"" in words[1::2]:
        return wrong("package takes -o with the name of a folder, --gate with that of a file, and no other words")
    given.update(zip(words[::2], words[1::2]))
    try:
        made = pack(Path(os.fsdecode(given[b"-o"])), Path(os.fsdecode(given[b"--gate"])) if given[b"--gate"] else None)
    except Refused as refused:
        say(str(refused))
        return refused.status
    except (OSError, ValueError) as error:
        name = getattr(error, "filename", None)
        say(f"nothing was packed: {f'{name}: ' if name else ''}{getattr(error, 'strerror', None) or error}")
        return NOT_PRINTED
    put_out("".join(f"{it}\n" for it in made))
    return 0


def pack(folder: Path, gate: Optional[Path]) -> List[Path]:
    """Writes the two files, and returns their names. Refused, OSError, ValueError."""
    if IS_INSTALLED:
        raise Refused("package needs a checkout and the program that ./rapid_cell build proved there; this is an installed program", NO_PROGRAM)
    lacking = [it for it in TOOLS if not shutil.which(it)]
    if lacking:
        raise Refused(f"package needs {' and '.join(lacking)} on the PATH: apt-get install git dpkg-dev", NO_PROGRAM)
    found, when = record_of_commit(record.gate_of(gate) if gate else [])
    with room_in(folder) as room:
        files, version = packed.files(found), found.once["version"]
        made = (f"rapid-cell_{version}_amd64.deb", f"rapid-cell-{version}-x86_64.tar.gz")
        debian.write(files, version, when, room / made[0])
        packed.write_tar(files, f"rapid-cell-{version}", when, room / made[1])
        for name in made:
            (room / name).replace(folder / name)
    return [folder / name for name in made]


def record_of_commit(gate: List[str]) -> Tuple[Record, int]:
    """The record of the program that is proved, and the time of the commit in seconds."""
    commit, when = record.git("log", "-1", "--format=%H %ct").split()
    found = record.made(commit, int(when), gate)
    if not found:
        raise Refused("there is no proved program of the sources as they stand: ./rapid_cell build proves and builds it", NOT_PROVED)
    changed = record.git("status", "--porcelain", "--untracked-files=no").splitlines()
    if changed:
        raise Refused(f"{changed[0][3:]} has changes that are not committed, and a package is of one commit: commit them, or git stash", REFUSED)
    return found, int(when)


@contextlib.contextmanager
def room_in(folder: Path) -> Iterator[Path]:
    """A folder inside the one that is written to, which nobody else packs into meanwhile. It is removed, and what a killed run left."""
    held = os.open(folder, os.O_RDONLY | os.O_DIRECTORY)
    try:
        fcntl.flock(held, fcntl.LOCK_EX | fcntl.LOCK_NB)
        for left in folder.glob(f"{ROOM}*"):
            shutil.rmtree(left, ignore_errors=True)
        with tempfile.TemporaryDirectory(prefix=ROOM, dir=folder) as room:
            yield Path(room).resolve()
    except BlockingIOError:
        raise Refused(f"another package is being written into {folder}: wait until it is done", NOT_PRINTED) from None
    finally:
        os.close(held)
