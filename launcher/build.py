"""Proves the crates and builds the program."""
import os
import re
import shutil
import subprocess
import time
from typing import Dict, Iterator, List, Optional, Sequence, Set, Tuple

from .child import started_group
from .places import CRATE, CRATES, IS_INSTALLED, PROGRAM, TOP
from .say import NO_PROGRAM, put_err, say

OF_CHECKOUT = "this is an installed program, and only a checkout builds one: README.md says what that takes"


def crates_in_turn() -> List[str]:
    """The crates that the program depends on, each after those below it, and the program."""
    return list(crates_below())


def crates_below() -> Dict[str, List[str]]:
    """The same, each with the libraries that its line names."""
    below: Dict[str, List[str]] = {}
    for line in (TOP / "crates.txt").read_text(encoding="utf-8").splitlines():
        name, _, names = line.partition("#")[0].partition(":")
        below[name.strip()] = names.split()
    order: List[str] = []

    def put(name: str) -> None:
        if name in below and name not in order:
            for it in below[name]:
                put(it)
            order.append(name)

    put(CRATE)
    return {name: below[name] for name in order}


def has_kit() -> bool:
    """Whether this is a checkout with a kit, which can build the program."""
    if IS_INSTALLED:
        say(f"{PROGRAM} is missing: install rapid_cell again" if not PROGRAM.is_file() else OF_CHECKOUT)
        return False
    if shutil.which("rt"):
        return True
    say("the kit was not found (README.md names it): put the folder of its `rt` on the PATH and try again")
    return False


def build() -> int:
    """Proves each crate and builds the program, with a line for each. Returns the status: 0, or that there is no program."""
    if not has_kit():
        return NO_PROGRAM
    from . import proof

    kit, said = proof.kit(), {}
    before = proof.crate_sums(proof.file_sums(), kit)
    try:
        is_built = all_proved(said, {name for name, it in before.items() if it in proof.read()})
    finally:
        proof.keep_said(said, before, kit)
    if not is_built:
        return NO_PROGRAM
    PROGRAM.touch()
    if proof.crate_sums(proof.file_sums(), kit) == before:
        proof.keep_program(before[CRATE])
    return 0


def all_proved(told: Dict[str, str], known: Set[str]) -> bool:
    """Proves each crate and builds the program. `told` gets what the kit said; `known` has the crates of which that is kept already."""
    crates = crates_in_turn()
    say(f"{len(crates)} crates to prove; those that have not changed take a moment")
    for k, name in enumerate(crates):
        put_err(f"launcher: {name} ".encode())
        start = time.monotonic()
        said, is_done = prove(name)
        if is_done and "logic=proved " not in said and name not in known:
            # It was proved before, when nobody kept what the kit said: a check of the proof that is there says it again.
            said += kit_says(["rt", "check"], name).stdout
        told[name] = said
        put_err(f"{time.monotonic() - start:.0f} s, {len(crates) - k - 1} left\n".encode())
        if not is_done:
            put_err(said.encode())
            say(f"{name} was not proved or not built: the messages above say why. README.md names the kit; ./rapid_cell build tries again")
            return False
    return True


def prove(name: str) -> Tuple[str, bool]:
    """Proves and builds a crate over those below it. Returns what the kit said, and whether it is built."""
    is_program = name == CRATE
    # The kit builds a program only in order to run it, here without words, which the program refuses.
    words = ["rt", "run"] if is_program else ["rt", "lib"]
    try:
        ran = kit_says(words, name)
    except OSError as error:
        return f"{error}\n", False
    if is_program:
        started = re.search(rf"^rt: running out/{CRATE}\b", ran.stdout, re.M)
        return ran.stdout, bool(started) and PROGRAM.is_file()
    return ran.stdout, ran.returncode == 0


def kit_says(words: Sequence[str], name: str) -> "subprocess.CompletedProcess[str]":
    """Runs the kit in a crate, and takes what it prints."""
    how = {"stdin": subprocess.DEVNULL, "stdout": subprocess.PIPE, "stderr": subprocess.STDOUT, "errors": "replace"}
    with started_group(words, cwd=CRATES / name, **how) as kit:
        said = str(kit.communicate()[0])
    return subprocess.CompletedProcess(words, kit.returncode, said)


def newer_source() -> Optional[str]:
    """A source that is newer than the proved program, if there is one, as a path from the top; none where no sources are."""
    if IS_INSTALLED:
        return None
    built = PROGRAM.stat().st_mtime
    newer = (file for file in sources() if os.stat(file).st_mtime > built)
    return next((os.path.relpath(file, TOP) for file in newer), None)


def say_where_stale() -> None:
    newer = newer_source()
    if newer:
        say(f"the program is older than {newer}: ./rapid_cell build rebuilds it")


def sources(parts: Sequence[str] = ("src", "specs", "proofs")) -> Iterator[str]:
    """The paths of what the program is made of: the list of crates, and the files of those that it depends on."""
    yield f"{TOP}/crates.txt"
    for name in crates_in_turn():
        for part in parts:
            for folder, folders, files in os.walk(f"{CRATES}/{name}/{part}"):
                folders.sort()
                yield from (f"{folder}/{it}" for it in sorted(files) if it.endswith((".rt", ".antt")))
