"""The conversion of declared data."""
from typing import List, Tuple

from . import types
from .assignments import elements_of
from .expressions import is_dropped, parts_of, quoted, render_as
from .job import plain
from .paths import sizes_of
from .reading import POSITIONS
from .rendering import Lost, Rendering, inner
from .report import NOT_KEPT, TO_DECIDE
from .tree import Aggregate
from .tree_items import Data

Change = Tuple[int, int, str]
# The most elements of an array in a cell.
LONGEST = 1000


def declared(at: Rendering, it: Data) -> None:
    base = at.base(it.type)
    if is_dropped(at, base) or base == types.WORK_OBJECT or base in types.SIGNALS:
        if base == types.WORK_OBJECT:
            tell_frame(at, it)
        at.left_out(it)
        return
    try:
        new = of_record(at, it) if at.job.names.fields(at.text, base) is not None else of_value(at, it, base)
    except Lost as lost:
        at.note(NOT_KEPT, it, f"the value of {it.name}: {lost.why}")
        new = without_value(at, it, base)
    at.replaced(it, new)


def tell_frame(at: Rendering, it: Data) -> None:
    """A work object that a unit or the robot moves, if a move names it: in the cell it stands where its declaration has it."""
    value = at.constant(it.value) if it.value else None
    if not isinstance(value, list) or len(value) < 3 or (value[0] is False and value[1] is True and not value[2]):
        return
    if it.name.lower() in at.job.names.frames():
        by = "the robot holds it" if value[0] else f"{value[2] or 'a unit'} moves it"
        at.note(TO_DECIDE, it, f"the work object {it.name} stands where it is declared, but {by}")


def of_value(at: Rendering, it: Data, base: str) -> str:
    """A datum with its type, its length in one dimension and its value."""
    changes: List[Change] = []
    if it.scope == "TASK" and it.kind != "PERS":
        changes.append((it.start, it.start + len("TASK"), ""))
    kind = types.renamed(base)
    changes.append((it.type_at, it.type_at + len(it.type), it.type if kind == it.type.lower() else kind))
    changes.append((it.name_at, it.name_end, plain(it.name)))
    is_long = tell_long(at, it)
    if it.sizes:
        changes.append((it.name_end, at.text.characters.index("}", it.sizes[-1].end) + 1, length_text(at, it)))
    if it.value is not None and is_long:
        changes.append((at.text.characters.rindex(":=", it.start, it.value.start), it.value.end, ""))
    elif it.value is not None:
        changes.append((it.value.start, it.value.end, value_text(at, it, base)))
    return at.put_in(it, changes).lstrip()


def tell_long(at: Rendering, it: Data) -> bool:
    """Whether an array is longer than one can be here; then it is cut, and has no value."""
    count = count_of(at, it)
    if count > LONGEST:
        at.note(NOT_KEPT, it, f"{it.name} has {count} elements; an array here has at most {LONGEST}, and an index above ends the task")
    return count > LONGEST


def count_of(at: Rendering, it: Data) -> int:
    count = 1
    for size in sizes_of(at, it):
        count *= size
    return count


def length_text(at: Rendering, it: Data) -> str:
    if len(it.sizes) == 1 and count_of(at, it) <= LONGEST:
        return at.text.characters[it.name_end : it.sizes[0].start] + at.render(it.sizes[0]) + "}"
    count = count_of(at, it)
    if not count:
        at.lost(it, "lengths that are not known")
    return f"{{{min(count, LONGEST)}}}"


def value_text(at: Rendering, it: Data, base: str) -> str:
    assert it.value is not None
    if base in POSITIONS:
        return at.job.reading.declared(at, it)
    if not it.sizes:
        return render_as(at, it.value, base)
    value = inner(it.value)
    if not isinstance(value, Aggregate):
        return at.render(value)
    elements = elements_of(at, value, len(it.sizes))
    changes = [(part.start, part.end, render_as(at, part, base)) for part in elements]
    if len(it.sizes) == 1:
        return at.put_in(value, changes)
    return "[" + ",".join(text for _, _, text in changes) + "]"


def of_record(at: Rendering, it: Data) -> str:
    """A datum for each component of a record."""
    leaves = at.job.names.leaves(at.text, it.type)
    values = record_values(at, it) if it.value is not None else []
    length = length_text(at, it).strip() if it.sizes else ""
    scope = "LOCAL " if it.scope == "LOCAL" else "TASK " if it.scope == "TASK" and it.kind == "PERS" else ""
    found = []
    for number, (names, kind) in enumerate(leaves):
        if is_dropped(at, kind):
            continue
        name = at.job.of_parts(it.name, *names)
        value = f":={values[number]}" if values else ""
        found.append(f"{scope}{it.kind} {types.renamed(kind)} {name}{length}{value};")
    return " ".join(found)


def record_values(at: Rendering, it: Data) -> List[str]:
    """The value of each component, in brackets for an array."""
    assert it.value is not None
    value = inner(it.value)
    if not it.sizes:
        return parts_of(at, value, it.type)
    if not isinstance(value, Aggregate):
        return at.lost(value, "the value of an array that is not in brackets")
    rows = [parts_of(at, part, it.type) for part in elements_of(at, value, len(it.sizes))]
    return ["[" + ",".join(column) + "]" for column in zip(*rows)]


def without_value(at: Rendering, it: Data, base: str) -> str:
    """A datum whose value is not kept: a constant has the value that a variable starts with."""
    kind = types.renamed(base)
    value = {"num": "0", "bool": "FALSE", "string": quoted("")}.get(kind, "0")
    length = "{1}" if it.sizes else ""
    given = f":={f'[{value}]' if length else value}" if it.kind == "CONST" else ""
    scope = "LOCAL " if it.scope == "LOCAL" else ""
    return f"{scope}{it.kind} {kind} {plain(it.name)}{length}{given};"
