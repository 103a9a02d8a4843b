"""What the kit said of each crate when it proved it, and which program it then built.

The kit says it only when it proves a crate, and not again while nothing has changed. So it is kept in the cache folder, a line for each
crate and program, under a checksum of all that it was proved from. A line is found again only for the very same files and kit.
"""
import hashlib
import os
import re
import subprocess
import time
from pathlib import Path
from typing import Dict, Mapping, NamedTuple, Optional, Union

from . import build, kept
from .places import CRATE, PROGRAM, TOP
from .say import say

# The kit's last line about a crate that it proved.
PROVED = re.compile(r"^logic=proved .*\bfunctions=\d+ .*\bsum=\w+.*$", re.M)
# How many lines are kept, the last ones: those of some thirty builds.
MOST = 2000


class Built(NamedTuple):
    """A proved program: its checksum, and when it was built, in UTC."""

    sum: str
    when: str


def file_sums() -> Dict[str, str]:
    """A checksum of each source file, by its path from the top."""
    return {os.path.relpath(it, TOP): sum_of(it) for it in build.sources()}


def sum_of(file: Union[str, Path]) -> str:
    with open(file, "rb", buffering=0) as it:
        return hashlib.sha256(it.read()).hexdigest()


def crate_sums(files: Mapping[str, str], kit: str) -> Dict[str, str]:
    """A checksum of each crate: of its files, of the crates below it, and of the kit."""
    own: Dict[str, str] = {}
    for file, of_file in files.items():
        name = file.split(os.sep)[1] if os.sep in file else ""
        own[name] = own.get(name, "") + f"{file} {of_file}\n"
    found: Dict[str, str] = {}
    for name, below in build.crates_below().items():
        text = "\n".join([kit, name, *(found[it] for it in below if it in found), own.get(name, "")])
        found[name] = hashlib.sha256(text.encode()).hexdigest()
    return found


def kit() -> str:
    """The kit's line about itself."""
    ran = subprocess.run(["rt", "version"], cwd=TOP, stdin=subprocess.DEVNULL, stdout=subprocess.PIPE, stderr=subprocess.DEVNULL)
    return ran.stdout.decode(errors="replace").strip()


# What is kept


def place() -> Path:
    return kept.folder() / "proofs"


def read() -> Dict[str, str]:
    """The kept lines, without the checksums that they stand under."""
    try:
        lines = place().read_text(encoding="utf-8").splitlines()
    except OSError:
        return {}
    return {sum: rest for sum, _, rest in (it.partition(" ") for it in lines) if rest}


def keep(new: Mapping[str, str]) -> None:
    """Keeps lines under their checksums. What cannot be kept is reported."""
    found = {**read(), **new}
    text = "".join(f"{sum} {line}\n" for sum, line in list(found.items())[-MOST:])
    file = place()
    try:
        with kept.in_turn(file):
            room = file.with_name(f"{file.name}.{os.getpid()}")
            room.write_text(text, encoding="utf-8")
            room.replace(file)
    except OSError as error:
        say(f"what the kit said cannot be kept: {error}")


def keep_said(said: Mapping[str, str], before: Mapping[str, str], kit: str) -> None:
    """Keeps the kit's lines about crates that are as they were before it proved them."""
    now = crate_sums(file_sums(), kit)
    lines = {name: PROVED.findall(text) for name, text in said.items() if now.get(name) == before[name]}
    new = {before[name]: found[-1] for name, found in lines.items() if found}
    if new:
        keep(new)


def keep_program(of_sources: str) -> None:
    """Keeps that the program which is there was built of these sources, unless that is kept already."""
    found = Built(sum_of(PROGRAM), time.strftime("%Y-%m-%dT%H:%MZ", time.gmtime()))
    was = program_of(read(), of_sources)
    if not was or was.sum != found.sum:
        keep({key_of_program(of_sources): " ".join(found)})


def key_of_program(of_sources: str) -> str:
    return f"{CRATE}:{of_sources}"


def program_of(lines: Mapping[str, str], of_sources: str) -> Optional[Built]:
    """The program that was built of the sources with this checksum."""
    words = lines.get(key_of_program(of_sources), "").split()
    return Built(*words) if len(words) == 2 else None
