"""Runs a program again and again, each time as a process of its own, by bench/runs.c."""
import shutil
import struct
import subprocess
import sys
from pathlib import Path
from typing import NamedTuple

HERE = Path(__file__).resolve().parent


class Ran(NamedTuple):
    """How a run ended: its status, or less than 0 for a signal; processor seconds; peak megabytes; the bytes that it wrote.

    `calls` counts the calls that bench/refuse.c refused, or that were made if it was to refuse none."""

    status: int
    seconds: float
    megabytes: float
    calls: int
    out: bytes
    err: bytes


class Runs:
    """Runs of a program in a folder. `built` is what build() made, and the library is bench/refuse.c's."""

    def __init__(self, built, program, folder, library=None):
        words = [str(it) for it in (built, program, library) if it]
        self.process = subprocess.Popen(words, stdin=subprocess.PIPE, stdout=subprocess.PIPE, cwd=folder)

    def run(self, *words, file="", text=b"", refuse=""):
        """Writes this text to the file, if one is given, and runs the program with these words."""
        parts = [file.encode(), text, refuse.encode(), *(word.encode() for word in words)]
        request = b"".join(struct.pack("<I", len(part)) + part for part in parts)
        self.process.stdin.write(struct.pack("<I", len(parts)) + request)
        self.process.stdin.flush()
        status, micros, kilobytes, calls, out, err = struct.unpack("<iIIIII", self.read(24))
        return Ran(status, micros / 1e6, kilobytes / 1024, calls, self.read(out), self.read(err))

    def read(self, count):
        found = self.process.stdout.read(count)
        if len(found) < count:
            sys.exit("bench/runs.c has ended")
        return found

    def close(self):
        self.process.stdin.close()
        self.process.wait()


def build(source, into, *flags):
    """Compiles a file of this folder."""
    words = ["cc", "-O2", *flags, "-o", str(into), str(HERE / source)]
    if not shutil.which("cc") or subprocess.run(words).returncode:
        sys.exit(f"cc is needed, to build bench/{source}")
    return into


def program_of(given=None):
    """The program that is tried: the given one, or what the launcher runs."""
    from launcher import program

    found = given or getattr(program.ready(), "file", None)
    if not found or not Path(found).is_file():
        sys.exit("no program: ./rapid_cell check examples/first_move/cell.toml makes one")
    return Path(found).resolve()
