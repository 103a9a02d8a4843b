"""What the launcher prints, and the statuses that are its own.

What it says of its own goes to standard error, in lines that begin with `launcher: ` or with a space, so that none is taken for a
line of the program. A write there that fails changes no status. An answer goes to standard output, where a failed write is
NotPrinted.
"""
import os

from .places import COMMAND, FETCH

# The status if a word is refused, and if not everything could be printed, as the program's.
REFUSED = 2
NOT_PRINTED = 6
# The statuses that the program does not have: no proved program of these sources is there; a file of the launcher or a module of
# Python is missing; there is no program to run; somebody stopped the launcher, as shells give it.
NOT_PROVED = 123
BROKEN = 124
NO_PROGRAM = 125
STOPPED = 130
HINT = f"{COMMAND} --help lists the words"


class NotPrinted(Exception):
    """Not all of an answer could be printed. It holds the reason, or the empty text if nobody reads on."""


def put_out(text: str) -> None:
    """Prints to standard output."""
    try:
        write(1, text.encode("utf-8", "surrogateescape"))
    except BrokenPipeError:
        raise NotPrinted("") from None
    except OSError as error:
        raise NotPrinted(error.strerror or "") from None


def put_err(text: bytes) -> None:
    """Prints to standard error, as much as can be printed."""
    try:
        write(2, text)
    except OSError:
        pass


def write(stream: int, text: bytes) -> None:
    while text:
        text = text[os.write(stream, text) :]


def show(line: str) -> None:
    put_err(line.encode("utf-8", "surrogateescape") + b"\n")


def say(text: str) -> None:
    show(f"launcher: {text}")


def wrong(text: str) -> int:
    """Says what is wrong with the words, and returns the status."""
    say(f"{text}; {HINT}")
    return REFUSED


def broken(error: Exception) -> int:
    """Says which file of the launcher or module of Python is missing or cannot be read, and returns the status."""
    file = getattr(error, "filename", None)
    name = getattr(error, "name", None) or ""
    if isinstance(error, PermissionError) and file:
        say(f"you may not read {file}: ask its owner for the right to read it")
    elif isinstance(error, FileNotFoundError) and file:
        say(f"{file} is missing: {FETCH}")
    elif isinstance(error, ModuleNotFoundError) and not name.startswith("launcher"):
        say(f"Python lacks its module {name}: install the whole standard library of Python")
    else:
        say(f"{error}: {FETCH}, or ask its owner for the right to read it")
    return BROKEN


def is_coloured(stream: int = 2) -> bool:
    """Whether standard error, or another stream, is a terminal that takes colours, and nobody asked for none."""
    return not os.environ.get("NO_COLOR") and os.environ.get("TERM", "dumb") != "dumb" and os.isatty(stream)


def open_closed_streams() -> None:
    """Puts something in the place of a closed standard stream, so that no file is opened there. A write to it fails as before."""
    for stream in (0, 1, 2):
        try:
            os.fstat(stream)
        except OSError:
            os.open(os.devnull, os.O_RDONLY)
