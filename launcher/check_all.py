"""`check --all CELL`: shows all errors of a cell at once."""
from collections import Counter
from pathlib import Path

from . import faults, program, refusals, shown
from .abb import recognized
from .asked import Asked
from .places import COMMAND
from .program import Program
from .refusals import Kind
from .say import is_coloured, put_err, put_out, say, show
from .texts import read_cell

# The last line below an error that is shown by itself.
SEE = f" see {COMMAND} explain "


def check_all(found: Program, asked: Asked, script: Path) -> int:
    """Checks a cell, and shows its errors in the order of its files, as many as are asked for. Returns the status of the first check.
    Of a module of an ABB controller only the first error is shown, and what to do with its backup: all its errors would be of the
    same few kinds."""
    words, is_plain = asked.words, asked.is_plain
    first = program.answer(found, words)
    refusal = refusals.parse(first.err)
    is_whole = refusal is None or refusal.kind not in (Kind.SCRIPT, Kind.MODULE, Kind.READ, Kind.LONG) or not script.is_file()
    if is_whole or refusal is not None and not is_plain and recognized.advice(refusal, script):
        put_out(first.out.decode(errors="surrogateescape"))
        put_err(first.err)
        if refusal and not is_plain:
            for line in shown.shown(refusal, words, is_coloured()):
                show(line)
        return first.status
    told = faults.all_faults(found, read_cell(script))
    for fault in told.faults[: asked.most]:
        put_err(refusals.line_of(fault.refusal))
        if not is_plain:
            for line in shown.of_cell(fault.refusal, script, {}, is_coloured(), fault.text):
                if SEE not in line:
                    show(line)
    if not is_plain:
        summarize(told, asked.most)
    return first.status


def summarize(told: faults.Found, most: int) -> None:
    """Says how many errors were found, how many of each rule are not shown, and what was not checked."""
    count = len(told.faults)
    if count > 1:
        say(f"{count} errors; those after the first were found in a copy without the earlier ones")
    rest = Counter(it.refusal.rule or it.refusal.kind.value for it in told.faults[most:])
    if rest:
        rules = ", ".join(f"{number} {rule}" for rule, number in sorted(rest.items(), key=lambda it: (-it[1], it[0])))
        say(f"{sum(rest.values())} of them are not shown: {rules}; --all={count} shows them too")
    if count:
        say(f"{COMMAND} explain RULE shows a rule's cause, and an example")
    if told.unchecked:
        say(f"{told.unchecked} more places depend on what was left out, and were not checked: check again after correcting these")
    for it in told.ended:
        say(it)
    if told.is_cut:
        say("there may be more: check again after correcting these")
