"""The record of a proof, PROVED: what was proved, from which files, with which kit; and `proved RECORD`, which compares it with a checkout."""
import re
import subprocess
import time
from dataclasses import dataclass, field
from pathlib import Path
from typing import Dict, List, Optional

from . import proof
from .places import CRATE, PROGRAM, TOP, VERSION
from .say import put_out, say

HEAD = "rapid_cell, the record of a proof, form 1"
# What the record itself says of its use. Its lines are not read.
USE = """\
# Whoever has a checkout of the commit can compare it with this record: ./rapid_cell proved PROVED
# Whoever has the kit can prove it again: ./rapid_cell build, or rt ci for the gate. README.md says what that takes.
# The record says what its maker did. It is no signature.
"""
END = "end"
# The words that a record has once each, in their order.
ONCE = ("version", "commit", "kit", "built", "program")
# The status where files differ, or the record cannot be compared.
DIFFERS = 1


@dataclass
class Record:
    """What a record says: the words that it has once, the gate's last lines, and by name what the kit said of a crate and the checksum of a file."""

    once: Dict[str, str]
    gate: List[str] = field(default_factory=list)
    crates: Dict[str, str] = field(default_factory=dict)
    files: Dict[str, str] = field(default_factory=dict)

    def text(self) -> str:
        lines = [HEAD, *USE.splitlines(), *(f"{it} {self.once[it]}" for it in ONCE)]
        lines += [f"gate {it}" for it in self.gate]
        lines += [f"crate {name} {said}" for name, said in self.crates.items()]
        lines += [f"file {name} {sum}" for name, sum in sorted(self.files.items())]
        return "".join(f"{line}\n" for line in (*lines, END))

    @property
    def title(self) -> str:
        commit, _, day = self.once["commit"].partition(" of ")
        return f"rapid_cell {self.once['version']}, commit {commit[:8]} of {day}"


class NoRecord(Exception):
    """A text is no whole record. It holds why, as the end of a sentence about it."""


def parse(text: str) -> Record:
    lines = text.splitlines()
    if not lines or not lines[0].startswith(HEAD.rpartition(" ")[0]):
        raise NoRecord("is no record of a proof")
    if lines[0] != HEAD:
        raise NoRecord(f"is a record of another form than this rapid_cell knows: {lines[0].rpartition(', ')[2]}")
    if lines[-1] != END or not text.endswith("\n"):
        raise NoRecord("is cut: its last line is missing")
    found = Record({})
    for line in lines[1:-1]:
        word, _, rest = line.partition(" ")
        name, _, said = rest.partition(" ")
        if word == "#":
            continue
        if word == "gate":
            found.gate.append(rest)
        elif word == "crate" and said:
            found.crates[name] = said
        elif word == "file" and re.fullmatch("[0-9a-f]{64}", rest.rpartition(" ")[2]):
            found.files[rest.rpartition(" ")[0]] = rest.rpartition(" ")[2]
        elif word in ONCE and rest and word not in found.once:
            found.once[word] = rest
        else:
            raise NoRecord(f"is damaged at the line {line[:60]!a}")
    if set(found.once) != set(ONCE) or not found.files or CRATE not in found.crates:
        raise NoRecord("is damaged: it lacks lines")
    return found


def read(file: Path) -> Record:
    """Reads a record. NoRecord, OSError."""
    try:
        return parse(file.read_text(encoding="utf-8"))
    except UnicodeDecodeError:
        raise NoRecord("is no record of a proof") from None


def version() -> str:
    return VERSION.read_text(encoding="utf-8").strip()


def made(commit: str, when: int, gate: List[str]) -> Optional[Record]:
    """The record of the proved program of the sources as they stand, or None where `build` has not made one, or did not learn what the
    kit said of each crate."""
    kit, files = proof.kit(), proof.file_sums()
    sums, lines = proof.crate_sums(files, kit), proof.read()
    built = proof.program_of(lines, sums[CRATE])
    if not built or not PROGRAM.is_file() or proof.sum_of(PROGRAM) != built.sum or any(it not in lines for it in sums.values()):
        return None
    day = time.strftime("%Y-%m-%d", time.gmtime(when))
    once = {"version": version(), "commit": f"{commit} of {day}", "kit": kit, "built": built.when, "program": built.sum}
    return Record(once, gate, {name: lines[sum] for name, sum in sums.items()}, files)


# `proved RECORD`


def compare(file: Path) -> int:
    """Compares the checkout with a record, and says which of its files differ."""
    try:
        found = read(file)
    except NoRecord as error:
        say(f"{file} {error}")
        return DIFFERS
    except (OSError, ValueError) as error:
        say(f"{file} cannot be read ({getattr(error, 'strerror', None) or error})")
        return DIFFERS
    if found.once["version"] != version():
        say(f"{file} is of version {found.once['version']}, and this checkout is of {version()}: check out {found.once['commit']}")
        return DIFFERS
    here = proof.file_sums()
    lines = [f"missing {it}" for it in found.files if it not in here]
    lines += [f"changed {it}" for it in here if found.files.get(it, here[it]) != here[it]]
    lines += [f"new {it}" for it in here if it not in found.files]
    if lines:
        put_out("".join(f"{it}\n" for it in sorted(lines)))
        say(f"the checkout differs from the record in {len(lines)} of its files: the record is of {found.once['commit']}")
        return DIFFERS
    put_out(f"{found.title}: the {len(here)} source files are those of the record\n{of_program(found)}")
    return 0


def of_program(found: Record) -> str:
    """What there is to say of the program of this checkout, if it has been built."""
    if not PROGRAM.is_file():
        return ""
    is_same = proof.sum_of(PROGRAM) == found.once["program"]
    return f"the program that was built here is {'that of the record' if is_same else 'another build'}\n"


# Of the gate and the commit


def gate_of(file: Path) -> List[str]:
    """The last lines of what the gate printed. ValueError if it did not pass."""
    lines = [it.strip() for it in file.read_text(encoding="utf-8", errors="replace").splitlines() if it.strip()]
    if len(lines) < 2 or not lines[-2].startswith("rt: ok") or not re.fullmatch(r"\d+ passed, 0 failed", lines[-1]):
        raise ValueError(f"{file} does not end as the gate's output does when it passes (rt ci > FILE)")
    return [lines[-2][len("rt: ") :], lines[-1]]


def git(*words: str) -> str:
    """What git prints of the checkout. OSError if it fails."""
    ran = subprocess.run(["git", "-C", str(TOP), *words], stdin=subprocess.DEVNULL, stdout=subprocess.PIPE, stderr=subprocess.PIPE)
    if ran.returncode:
        raise OSError(0, f"git {words[0]}: {ran.stderr.decode(errors='replace').strip()}")
    return ran.stdout.decode("utf-8", "surrogateescape")
