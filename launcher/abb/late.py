"""Calls by a name in a text: a routine of the generated module that compares the text with the names that it can have."""
import re
from typing import List, Optional

from .calls import called
from .expressions import quoted
from .instructions import INSTRUCTIONS, argument
from .job import plain
from .rendering import Rendering, inner
from .tree import Aggregate, Argument, Assign, Binary, Call, Expression, Instruct, Name, Text
from .tree_items import Data, Routine
from .walking import nodes_in


# Any text.
ANY = ".*"


def called_late(at: Rendering, node: Instruct, text: Expression, arguments: Optional[List[Argument]] = None) -> str:
    """`%text% arguments`: a call of a routine that tests the text."""
    given = node.arguments if arguments is None else arguments
    return late_call(at, node, at.render(text), pattern(at, text), given)


def late_call(at: Rendering, node: Instruct, text: str, wanted: str, given: List[Argument]) -> str:
    found = [it for it in candidates(at, wanted) if len([p for p in it.parameters if not p.is_optional]) == len(given)]
    if not found:
        return at.lost(node, "no routine has a name that the text can be")
    if given or any(it.scope == "LOCAL" for it in found):
        return tested_here(at, node, text, found, given)
    name = at.job.of_parts("call", str(at.line(node)), at.module)
    cases = [f"  CASE {', '.join(spellings(at, it))}:\n    {plain(it.name)};" for it in found]
    lines = ["! Calls a routine by its name.", f"PROC {name}(string name)", "  TEST name", *cases]
    lines += ["  DEFAULT:", f"    RAISE {at.job.error('ERR_REFUNKPRC')};", "  ENDTEST", "ENDPROC"]
    return f"{at.add(name, chr(10).join(lines))} {text};"


def tested_here(at: Rendering, node: Instruct, text: str, found: List[Routine], given: List[Argument]) -> str:
    """A TEST in place of a call with arguments."""
    cases = []
    for it in found:
        call = called(at, Instruct(node.start, node.end, it.name, given), it)
        cases.append(f"CASE {', '.join(spellings(at, it))}: {plain(it.name)} {call.split(None, 1)[1] if ' ' in call else ';'}")
    return f"TEST {text} {' '.join(cases)} DEFAULT: RAISE {at.job.error('ERR_REFUNKPRC')}; ENDTEST"


def candidates(at: Rendering, wanted: str) -> List[Routine]:
    """The procedures whose names a text can be, main excepted."""
    names = at.job.names
    items = [*at.text.own.values(), *names.shared.values()]
    found = [it for it in items if isinstance(it, Routine) and it.kind == "PROC" and it.name.lower() != "main"]
    return [it for it in found if re.fullmatch(wanted, it.name, re.I)]


def spellings(at: Rendering, routine: Routine) -> List[str]:
    """The name of a routine as its declaration and as the texts of the task spell it, since a TEST compares letters."""
    found = [routine.name]
    for text in at.job.names.texts:
        for item in text.tree.items:
            for it in nodes_in(item):
                if isinstance(it, Text) and it.value.lower() == routine.name.lower() and it.value not in found:
                    found.append(it.value)
    return [quoted(it) for it in found]


def pattern(at: Rendering, node: Expression) -> str:
    """What a text can be, as a regular expression: literals as they are, the elements of a constant array, digits for a num."""
    node = inner(node)
    value = at.constant(node)
    if isinstance(value, str):
        return re.escape(value)
    if isinstance(node, Binary) and node.sign == "+":
        return pattern(at, node.left) + pattern(at, node.right)
    if isinstance(node, Call) and node.name.lower() in ("numtostr", "valtostr"):
        return r"\d+"
    if isinstance(node, Name):
        return pattern_of_name(at, node)
    return ANY


def pattern_of_name(at: Rendering, node: Name) -> str:
    """The values of a constant array, or what a variable of the task is given."""
    meant = at.datum(node.name)
    if not isinstance(meant, Data):
        return ANY
    if meant.kind == "CONST" and isinstance(meant.value, Aggregate):
        values = [at.constant(it) for it in meant.value.parts]
        return alternatives([re.escape(it) for it in values if isinstance(it, str)])
    return ANY if meant.kind == "CONST" or meant.sizes or at.routine is None or meant in at.routine.data else given_patterns(at, node, meant)


def given_patterns(at: Rendering, node: Name, meant: Data) -> str:
    """What the assignments to a variable of the module give it; anything where it is passed on."""
    found: List[str] = []
    for item in at.text.tree.items:
        for it in nodes_in(item):
            if isinstance(it, Argument) and isinstance(it.value, Name) and it.value.name.lower() == node.name.lower():
                return ANY
            if isinstance(it, Assign) and isinstance(it.place, Name) and it.place.name.lower() == node.name.lower():
                found.append(ANY if refers(it.value, node.name) else pattern(at, it.value))
    return alternatives(found) if found and meant.kind == "VAR" else ANY


def refers(node: Expression, name: str) -> bool:
    return any(isinstance(it, Name) and it.name.lower() == name.lower() for it in nodes_in(node))


def alternatives(found: List[str]) -> str:
    return f"(?:{'|'.join(found)})" if found else ANY


def call_by_var(at: Rendering, node: Instruct) -> str:
    """CallByVar text, number: the routine whose name is the text and the number."""
    text, number = argument(at, node, 0), argument(at, node, 1)
    return late_call(at, node, f"{at.render(text)}+NumToStr({at.render(number)},0)", pattern(at, text) + r"\d+", [])


INSTRUCTIONS["callbyvar"] = call_by_var
