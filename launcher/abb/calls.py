"""Calls of the backup's own routines: the arguments in the order of the declaration, optional ones with a bool."""
from typing import TYPE_CHECKING, Dict, List, Optional, Union

from . import types
from .expressions import parts_of, render_as
from .job import plain
from .parameters import SWITCH, Slot, given_name, has_lost_array, slots_of
from .rendering import inner
from .tree import Argument, Call, Expression, Instruct, Name
from .tree_items import Parameter, Routine

if TYPE_CHECKING:
    from .rendering import Rendering

# What stands for a parameter by value that a call does not give.
ABSENT: Dict[str, str] = {"num": "0", "errnum": "0", "dionum": "0", "bool": "FALSE", "string": '""', "speeddata": "v1000"}
ABSENT_RECORDS = ("jointtarget", "robjoint", "extjoint")


def called(at: "Rendering", node: Union[Call, Instruct], routine: Routine) -> str:
    """The text of a call of a routine of the backup."""
    if has_lost_array(at, routine):
        at.lost(node, f"{routine.name} takes an array of any length")
    if isinstance(node, Call) and (at.job.names.fields(at.text, routine.type) is not None):
        at.lost(node, f"{routine.name} gives a whole {routine.type}")
    found = arguments_of(at, node, routine)
    if isinstance(node, Call):
        return f"{plain(node.name)}({','.join(found)})" if is_changed(at, node, routine, found) else spliced_call(at, node, routine)
    if not is_changed(at, node, routine, found):
        return spliced_call(at, node, routine)
    return f"{plain(node.name)} {','.join(found)};" if found else f"{plain(node.name)};"


def is_changed(at: "Rendering", node: Union[Call, Instruct], routine: Routine, found: List[str]) -> bool:
    """Whether the arguments of a call are others than those that stand there, each with its own text."""
    simple = all(not it.is_optional and [slot.role for slot in slots_of(at, routine, it)] == ["value"] for it in routine.parameters)
    return not simple or len(found) != len(node.arguments) or any(":=" in at.source(it) for it in node.arguments)


def spliced_call(at: "Rendering", node: Union[Call, Instruct], routine: Routine) -> str:
    changes = []
    for it, parameter in zip(node.arguments, routine.parameters):
        assert it.value is not None
        changes.append((it.value.start, it.value.end, value_text(at, it.value, node, parameter)))
    changes.insert(0, (node.start, node.start + len(node.name), plain(node.name)))
    return at.put_in(node, changes)


def arguments_of(at: "Rendering", node: Union[Call, Instruct], routine: Routine) -> List[str]:
    """The arguments for the parameters of a routine, in their order."""
    options = {it.option.lower(): it for it in node.arguments if it.option}
    values = [it for it in node.arguments if not it.option]
    found: List[str] = []
    for parameter in routine.parameters:
        if parameter.is_optional:
            argument = options.pop(parameter.name.lower(), None)
        else:
            argument = values.pop(0) if values else at.lost(node, f"{routine.name} takes {parameter.name}")
        found += texts_of(at, node, routine, parameter, argument)
    if values or options:
        at.lost(node, f"{routine.name} takes no such argument")
    return found


def texts_of(at: "Rendering", node: Union[Call, Instruct], routine: Routine, parameter: Parameter, argument: Optional[Argument]) -> List[str]:
    slots = slots_of(at, routine, parameter)
    if argument is not None and argument.given:
        return passed_on(at, argument, slots)
    value = argument.value if argument else None
    parts: List[str] = []
    if value is not None and any(it.role == "part" for it in slots):
        parts = parts_of(at, value, parameter.type)
    return [text_of(at, node, parameter, slot, argument, value, parts) for slot in slots]


def text_of(
    at: "Rendering",
    node: Union[Call, Instruct],
    parameter: Parameter,
    slot: Slot,
    argument: Optional[Argument],
    value: Optional[Expression],
    parts: List[str],
) -> str:
    if slot.role == "given":
        return "TRUE" if argument is not None else "FALSE"
    if slot.role == "frame":
        return at.job.reading.work_object(at, value)
    if value is None:
        return absent(at, slot)
    if slot.role == "part":
        return parts[slot.number]
    if slot.role == "signal":
        from .signal_rules import signal_number

        return signal_number(at, value, types.SIGNALS[at.base(parameter.type)])
    return value_text(at, value, node, parameter)


def value_text(at: "Rendering", value: Expression, node: Union[Call, Instruct], parameter: Parameter) -> str:
    base = at.base(parameter.type)
    if base == "robtarget" and not parameter.kind:
        return at.job.reading.passed(at, value, node, parameter)
    return render_as(at, value, base)


def passed_on(at: "Rendering", argument: Argument, slots: List[Slot]) -> List[str]:
    """`\\o?p`: what the routine itself got for its parameter p."""
    own = at.datum(argument.given)
    if not isinstance(own, Parameter) or at.routine is None:
        return at.lost(argument, f"{argument.given} is no parameter here")
    mine = slots_of(at, at.routine, own)
    if at.base(own.type) == SWITCH:
        return [plain(own.name)] * len(slots)
    by_role = {(it.role, it.number): it.name for it in mine}
    return [by_role.get((it.role, it.number)) or ("TRUE" if it.role == "given" else absent(at, it)) for it in slots]


def absent(at: "Rendering", slot: Slot) -> str:
    """What stands for an optional parameter that a call does not give: a value, or a datum that nobody reads."""
    if slot.role in ("signal", "frame"):
        return "0"
    if slot.kind or slot.type in ABSENT_RECORDS or slot.type not in ABSENT:
        kind = "PERS" if slot.kind == "PERS" else "VAR"
        name = f"abb_no_{slot.type}" + ("_p" if kind == "PERS" else "")
        return at.add(name, f"{kind} {slot.type} {name};")
    return ABSENT[slot.type]


def present(at: "Rendering", node: Call) -> str:
    """Present(p): the bool of the parameter."""
    value = inner(node.arguments[0].value) if len(node.arguments) == 1 and node.arguments[0].value else None
    own = at.datum(value.name) if isinstance(value, Name) else None
    if not isinstance(own, Parameter) or not own.is_optional:
        return at.lost(node, "Present of what is no optional parameter")
    return plain(own.name) if at.base(own.type) == SWITCH else given_name(at, own.name)
