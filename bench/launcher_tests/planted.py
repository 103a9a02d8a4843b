"""Bugs that were planted in the cells of planted/, three in each: `lint` and `why` tell them. What they say was worked out by hand."""
import os
import tempfile
from pathlib import Path

from .common import EXAMPLES, ask, compare, options
from .spreadsheet import is_refused
from .whys import PART, bare, listing_of

PLANTED = Path(__file__).resolve().parent / "planted"
# The warnings of the examples, each of which is right: what it says holds of the cell.
OF_EXAMPLES = Path(__file__).resolve().parent / "planted/examples.list"


def parts_of(file):
    _, *parts = PART.split(file.read_text(encoding="utf-8"))
    files = dict(zip(parts[::2], parts[1::2]))
    return files, files.pop("lint").splitlines(), files.pop("why").splitlines()


def warnings_of(script):
    """The warnings of a cell, each in a line."""
    from launcher.lint import warnings_of
    from launcher.lint_places import Found
    from launcher.story import Story

    found = warnings_of(Found(Story(script, listing_of(script), lambda story, task: [])))
    return [f"{it.name} {it.places[0].file.name} {it.places[0].spot.row}:{it.places[0].spot.column} {it.says}" for it in found]


def try_planted():
    """Each planted bug is told by a warning or by a line of `why`."""
    count = 0
    for file in sorted(PLANTED.glob("*.txt")):
        cell, warnings, lines = parts_of(file)
        with tempfile.TemporaryDirectory() as folder:
            for name, text in cell.items():
                Path(folder, name).write_text(text, encoding="utf-8")
            script = Path(folder, "cell.toml")
            compare(f"lint {file.stem}", warnings_of(script), warnings)
            said = bare(ask("--plain", *options, "why", script)[1].splitlines())
            for line in lines:
                compare(f"why {file.stem}: {line}", any(it.startswith(line) for it in said), True)
                count += 1
    compare("there are planted bugs", count > 5, True)


def try_lint_of_examples():
    """The warnings of the examples are those that were looked at one by one."""
    found = []
    for file in sorted(EXAMPLES.rglob("round.txt")):
        if not is_refused(file):
            found += [f"{file.parent.relative_to(EXAMPLES)}: {it}" for it in warnings_of(file.with_name("cell.toml"))]
    compare("warnings of the examples", found, OF_EXAMPLES.read_text(encoding="utf-8").splitlines())


def try_lint_command():
    script = EXAMPLES / "worked/cells/lost_update/cell.toml"
    status, out, err = ask("--plain", *options, "lint", script)
    compare("lint", (status, out.splitlines()[0], out.splitlines()[-1], err), (0, "LostUpdate: A and B each read n and write what they made of it, without a lock", "1 warning", ""))
    compare("lint of a cell without a warning", ask("--plain", *options, "lint", EXAMPLES / "first_move/cell.toml"), (0, "0 warnings\n", ""))
    compare("lint of a refused cell", ask("--plain", *options, "lint", EXAMPLES / "faults/syntax/cell.toml")[:2], (4, ""))
    for words in (("lint",), ("lint", "a", "b"), ("lint", "/dev/null")):
        compare(f"{words}", ask(*words)[:2], (2, ""))
    full = os.open("/dev/full", os.O_WRONLY)
    compare("lint to a full device", ask(*options, "lint", script, before=lambda: os.dup2(full, 1))[:2], (6, ""))
    os.close(full)
