"""The conversion of routines: their heads, data, statements and error handlers."""
from typing import List

from .declarations import declared
from .expressions import is_dropped
from .job import plain
from .parameters import has_lost_array, slots_of
from .rendering import Lost, Rendering, fitted, flat
from .report import CHANGED, NOT_KEPT, TO_DECIDE
from .statements import statements
from .tree import Node
from .tree_items import Handler, Parameter, Routine
from . import types

LONG_JUMP = "long_jmp_all_err"


def routine(at: Rendering, it: Routine) -> None:
    at.routine = it
    at.own = own_names(it)
    at.counted = []
    if is_gone(at, it):
        at.note(NOT_KEPT, it, f"{it.kind} {it.name}: {reason(at, it)}; its calls are not kept either")
        at.comment_out(it)
    else:
        head(at, it)
        for datum in it.data:
            declared(at, datum)
        statements(at, it.body)
        for part in it.handlers:
            handler(at, part)
    at.routine = None
    at.own = {}


def own_names(it: Routine) -> dict:
    found: dict = {}
    for named in [*it.parameters, *it.data]:
        found.setdefault(named.name.lower(), named)
    return found


def is_gone(at: Rendering, it: Routine) -> bool:
    """Whether a routine cannot be there: nothing can take its parameters or its result."""
    return has_lost_array(at, it) or (it.kind == "FUNC" and (is_dropped(at, it.type) or at.job.names.fields(at.text, it.type) is not None))


def reason(at: Rendering, it: Routine) -> str:
    return "it takes an array of any length" if has_lost_array(at, it) else f"a result of type {it.type}"


def head(at: Rendering, it: Routine) -> None:
    """The name, the type of the result and the parameters."""
    put_name(at, it, it.name_at, it.name)
    if it.kind == "FUNC":
        kind = types.renamed(at.base(it.type))
        if kind != it.type.lower():
            start = at.text.characters.rindex(it.type, it.start, it.name_at)
            at.change(start, start + len(it.type), kind)
            at.note(CHANGED, it, f"FUNC {it.type} {it.name} -> {kind}")
    if it.kind != "TRAP":
        parameters(at, it)


def parameters(at: Rendering, it: Routine) -> None:
    slots = [(parameter, slots_of(at, it, parameter)) for parameter in it.parameters]
    if all(is_same(at, parameter, [slot.text for slot in found]) for parameter, found in slots):
        return
    new = "(" + ",".join(slot.text for _, found in slots for slot in found) + ")"
    source = at.text.characters[it.parameters_at : it.head_end]
    at.note(CHANGED, it, f"{it.kind} {it.name}{flat(source)} -> {new}")
    at.change(it.parameters_at, it.head_end, fitted(new, source))


def is_same(at: Rendering, parameter: Parameter, found: List[str]) -> bool:
    return len(found) == 1 and not parameter.is_optional and " ".join(flat(at.source(parameter)).split()).lower() == found[0].lower()


def put_name(at: Rendering, it: Node, start: int, name: str) -> None:
    if plain(name) != name:
        at.note(CHANGED, it, f"{name} -> {plain(name)}")
        at.change(start, start + len(name), plain(name))


def handler(at: Rendering, it: Handler) -> None:
    """ERROR with a list becomes an IF on ERRNO; UNDO and BACKWARD go, since no program pointer moves."""
    if it.word != "ERROR":
        at.left_out(it, f"{it.word}: no program pointer is moved here")
        return
    if it.errors:
        listed(at, it)
    else:
        statements(at, it.body)


def listed(at: Rendering, it: Handler) -> None:
    stop = at.text.characters.index(")", it.errors[-1].end) + 1
    source = at.text.characters[it.start : stop]
    try:
        tests = [f"ERRNO={at.render(error)}" for error in it.errors if at.source(error).lower() != LONG_JUMP]
    except Lost as lost:
        tests = []
        at.note(NOT_KEPT, it, f"{flat(source)}: {lost.why}")
    if len(tests) != len(it.errors):
        at.note(TO_DECIDE, it, "LONG_JMP_ALL_ERR: routines between here and the error handle it first")
    new = f"ERROR IF {' OR '.join(tests) or 'TRUE'} THEN"
    at.note(CHANGED, it, f"{flat(source)} -> {new}")
    at.change(it.start, stop, fitted(new, source))
    statements(at, it.body)
    after = at.token_after(it.end)
    at.change(after, after, "ENDIF ")
