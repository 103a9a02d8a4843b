"""Audits of histories that the program printed, and what the launcher says of those that are none."""
import tempfile
from pathlib import Path

from .common import EXAMPLES, ask, compare

ONE_FLAG = EXAMPLES / "worked/histories/one_flag/cell.toml"
FORMS = 'docs/LANGUAGE.md, "Reading a history"'


def try_audits():
    """The history of a worked cell, and changes of it."""
    status, whole, err = ask("--plain", "--history", "round", ONE_FLAG)
    lines = whole.splitlines(True)
    compare("a printed history", (status, len(lines), err), (0, 16, ""))
    exchanged = [*lines[:2], lines[3], lines[2], *lines[4:]]
    changed = (
        (lines, 0, "A legal 14 whole\n", ""),
        (lines[:5], 0, "A legal 5 open\n", ""),
        (exchanged, 12, "A event 2 answers TRUE\n", ""),
        (lines[1:], 12, "A event 1 asks Look\n", ""),
        ([*lines[:15], "E B Exit\n"], 12, "A fate B\n", ""),
        (["H A Looks > Go 0\n", *lines[1:]], 11, "", "rapid_cell: history 1\n"),
    )
    with tempfile.TemporaryDirectory() as folder:
        history = Path(folder, "history.txt")
        for text, *wanted in changed:
            history.write_text("".join(text))
            compare(f"audit: {wanted[1] or wanted[2]}", list(ask("--plain", "audit", ONE_FLAG, "history.txt", cwd=folder)), wanted)
            compare("audit with --history", list(ask("--plain", "audit", "--history", ONE_FLAG, history)), wanted)


def try_refused_histories():
    """A history that is none, that is not there, and that is too long: the program's line, and a cause."""
    with tempfile.TemporaryDirectory() as folder:
        Path(folder, "wrong.txt").write_text("H A Look > Go 0\nH A Look\n")
        with open(Path(folder, "long.txt"), "wb") as file:
            file.truncate(33_554_433)
        for name, status, line, cause in (
            ("wrong.txt", 11, "history 2", f"line 2 of wrong.txt is none that --history prints for this cell after the lines before it: {FORMS}"),
            ("absent", 5, "read absent", "there is no file absent"),
            ("long.txt", 10, "long long.txt", "long.txt has more than 33,554,432 bytes"),
        ):
            found, out, err = ask("audit", ONE_FLAG, name, cwd=folder)
            said = err.splitlines()
            compare(f"audit of {name}", (found, out, said[:1], f"launcher: {cause}" in said), (status, "", [f"rapid_cell: {line}"], True))
