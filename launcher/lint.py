"""`lint CELL`: what is allowed and hardly meant. Each warning has its places and its reason; none is a refusal."""
import os
from pathlib import Path
from typing import Callable, Iterator, List, Sequence

from . import lint_data, lint_flow, lint_meetings, lint_traps, program
from .excerpt import excerpt, note
from .hints import shown_word
from .lint_places import Found, Warning
from .listing import Listing
from .program import Answer, Program
from .say import REFUSED, say
from .story import Story

CHECKS: Sequence[Callable[[Found], Iterator[Warning]]] = (
    lint_data.lost_updates,
    lint_data.first_values,
    lint_data.never_reset,
    lint_traps.never_enabled,
    lint_traps.never_awake,
    lint_traps.single_in_loops,
    lint_traps.deleted_first,
    lint_traps.connected_in_loops,
    lint_flow.raises_out_of_range,
    lint_flow.polls,
    lint_meetings.never_agree,
)


def linted(found: Program, name: bytes, file: Path, is_coloured: bool) -> Answer:
    """Checks the cell, and answers the warnings."""
    lines: List[str] = []
    listed = program.read(found, [b"list", name], lines.extend)
    if listed.status:
        return listed
    try:
        story = Story(file, Listing(lines), lambda story, task: [])
    except OSError as error:
        say(f"lint reads the modules a second time: {shown_word(os.fsencode(error.filename or ''))} is no regular file any more")
        return Answer(REFUSED, b"", b"")
    warnings = warnings_of(Found(story))
    text = "".join(f"{line}\n" for it in warnings for line in shown(it, is_coloured))
    count = f"{len(warnings)} warning{'' if len(warnings) == 1 else 's'}\n"
    return Answer(0, (text + count).encode("utf-8", "surrogateescape"), listed.err)


def warnings_of(found: Found) -> List[Warning]:
    """The warnings of a cell, each once, also if several tasks have the module."""
    return list({(it.name, it.places[0].key): it for check in CHECKS for it in check(found)}.values())


def shown(warning: Warning, is_coloured: bool) -> Iterator[str]:
    """A head, the line of the first place with a caret, and notes: where the others are, and why."""
    first, *others = warning.places
    yield f"{warning.name}: {warning.says}"
    yield from excerpt(first.file, first.text, first.spot, "", is_coloured)
    margin = len(str(first.spot.row))
    for it in others:
        yield from note(f"{it.says}: {it.where}: {it.line}", margin, is_coloured)
    for it in warning.notes:
        yield from note(it, margin, is_coloured)
    yield ""
