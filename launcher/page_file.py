"""The file of a page: never anything else is overwritten, and never half a page is seen."""
import contextlib
import os
from pathlib import Path

# The line of a page by which `show` knows its own.
MARK = b'<meta name="generator" content="rapid_cell show">'
HEAD = 1024


def may_be_put(page: Path) -> bool:
    """Whether nothing is at a page's place but an earlier page. What is no regular file is not opened, since a pipe would wait."""
    try:
        if not page.is_file():
            return not os.path.lexists(page)
        with page.open("rb") as text:
            return MARK in text.read(HEAD)
    except OSError:
        return False


def put(page: Path, text: str) -> None:
    """Writes a page beside its place, and then puts it there. OSError."""
    place = page.resolve()
    beside = place.with_name(f".{place.name[:100]}.{os.getpid()}")
    try:
        with beside.open("x", encoding="utf-8") as file:
            file.write(text)
        beside.replace(place)
    except BaseException:
        with contextlib.suppress(OSError):
            beside.unlink()
        raise
