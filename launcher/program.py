"""The program, proved or unproved: finds it, runs it, becomes it."""
import contextlib
import os
import signal
import subprocess
import tempfile
from dataclasses import dataclass
from pathlib import Path
from typing import Callable, Dict, Iterator, Optional, Sequence, Union

from . import kept
from .child import started, with_parent
from .places import FETCH, IS_INSTALLED, PROGRAM
from .say import NO_PROGRAM, put_err, say

Word = Union[str, bytes, Path]
# How much of what the program says on standard error is kept.
SAID = 65_536
# A run takes room for all its events at once, and a check room for many small trees. In large pages, Linux hands that out
# in about a third of the time. The heap grows by 8 MB at a time, since its last piece is in small pages.
LARGE_PAGES = {"GLIBC_TUNABLES": "glibc.malloc.hugetlb=1:glibc.malloc.top_pad=8388608"}


@dataclass(frozen=True)
class Program:
    file: Path
    is_proved: bool


@dataclass(frozen=True)
class Answer:
    """What the program printed, if `out` is asked for, what it said on standard error, and its status."""

    status: int
    out: bytes
    err: bytes


def proved() -> Optional[Program]:
    """The program that `build` made, or that was installed, if it is there."""
    return Program(PROGRAM, True) if PROGRAM.is_file() else None


def unproved() -> Optional[Program]:
    """The unproved program that is kept for the sources as they stand, if it is."""
    file = None if IS_INSTALLED else kept.find()
    return Program(file, False) if file else None


def ready() -> Optional[Program]:
    """The program that answers at once: the proved one, else the unproved one that is kept, else None."""
    return proved() or unproved()


def environment() -> Dict[str, str]:
    """The environment of the program: the launcher's own, and large pages if that says nothing about the C library."""
    return {**LARGE_PAGES, **os.environ}


def answer(program: Program, words: Sequence[Word], folder: Optional[Path] = None, seconds: Optional[float] = None) -> Answer:
    """Runs the program to its end and returns what it said. OSError if it does not start, TimeoutExpired after `seconds`."""
    ran = subprocess.run(
        [program.file, *words],
        cwd=folder,
        env=environment(),
        stdin=subprocess.DEVNULL,
        stdout=subprocess.PIPE,
        stderr=subprocess.PIPE,
        preexec_fn=with_parent(),
        timeout=seconds,
    )
    return Answer(ran.returncode, ran.stdout, ran.stderr)


def become(program: Program, words: Sequence[bytes]) -> int:
    """Becomes the program. Returns a status only if it does not start."""
    try:
        os.execve(program.file, [os.fsencode(program.file), *words], environment())
    except OSError as error:
        return does_not_start(program, error)


def run(program: Program, words: Sequence[bytes]) -> Answer:
    """Runs the program on the launcher's own streams, and passes on what it says on standard error as it comes."""
    said = b""
    try:
        # It meets a closed pipe as the launcher does: by a write that fails, and not by a signal.
        how = {"env": environment(), "stderr": subprocess.PIPE, "restore_signals": False}
        with started([program.file, *words], end_child, **how) as child:
            assert child.stderr
            while True:
                more = os.read(child.stderr.fileno(), SAID)
                if not more:
                    break
                put_err(more)
                said = (said + more)[-SAID:]
            status = child.wait()
    except OSError as error:
        return Answer(does_not_start(program, error), b"", b"")
    return Answer(shell_status(status), b"", said)


def read(program: Program, words: Sequence[Word], take: Callable[[Iterator[str]], None]) -> Answer:
    """Runs the program and hands its lines to `take` as they come, without their ends. What it says on standard error is kept."""
    with contextlib.ExitStack() as stack:
        said = stack.enter_context(tempfile.TemporaryFile())
        how = {"env": environment(), "stdin": subprocess.DEVNULL, "stdout": subprocess.PIPE, "stderr": said}
        try:
            child = stack.enter_context(started([program.file, *words], end_child, **how))
        except OSError as error:
            return Answer(does_not_start(program, error), b"", b"")
        assert child.stdout
        take(line.decode("utf-8", "surrogateescape").rstrip("\n") for line in child.stdout)
        status = child.wait()
        said.seek(0)
        return Answer(shell_status(status), b"", said.read())


def shell_status(status: int) -> int:
    """The status of a child as shells give it; one that a signal stopped is reported."""
    if status < 0:
        say(f"the program was stopped by signal {-status}")
        return 128 - status
    return status


def end_child(child: "subprocess.Popen[bytes]", ended: BaseException) -> None:
    """Ends a child. The terminal has sent Ctrl-C to it too."""
    child.send_signal(signal.SIGINT if isinstance(ended, KeyboardInterrupt) else signal.SIGTERM)
    child.wait()


def does_not_start(program: Program, error: OSError) -> int:
    how = FETCH if IS_INSTALLED else "./rapid_cell build rebuilds it" if program.is_proved else "remove it, and it is made again"
    say(f"{program.file} does not start ({error.strerror}): {how}")
    return NO_PROGRAM
