"""The conversion of statements: each at its place, one that cannot be kept as a stop."""
from typing import Callable, Dict, List, Optional, Type

from .assignments import assigned
from .expressions import render_as
from .instructions import instructed
from .job import plain
from .loops import waited_loop
from .rendering import Lost, Rendering, fitted, flat, short
from .report import CHANGED, LEFT_OUT, NOT_KEPT
from .tree import (
    Assign,

    Call,
    Connect,
    Expression,
    For,
    Goto,
    If,
    Instruct,
    Label,
    Node,
    Placeholder,
    Plain,
    Raise,
    Return,
    ShortIf,
    Statement,
    Test,
    While,
)
from .walking import nodes_in

# What a statement in one piece becomes: its text, or None where it is left out.
Simple = Callable[[Rendering, Statement], Optional[str]]

def statements(at: Rendering, body: List[Statement]) -> None:
    for it in body:
        compound = COMPOUND.get(type(it))
        if compound:
            compound(at, it)
        else:
            simple(at, it)

def simple(at: Rendering, node: Statement) -> None:
    try:
        new = SIMPLE[type(node)](at, node)
    except Lost as lost:
        at.stopped(node, lost)
        return
    if new is None:
        at.left_out(node)
    else:
        at.replaced(node, new)

def placed(at: Rendering, node: Expression, render: Callable[[Expression], str], kind: str) -> None:
    """Converts a condition, a bound or a value; one that cannot be kept becomes a function that ends the task."""
    try:
        new = render(node)
    except Lost as lost:
        at.note(NOT_KEPT, node, f"{short(at.source(node))}: {lost.why}")
        new = f'{at.need(f"abb_stop_{kind}")}("{at.module}",{at.line(node)})'
    source = at.source(node)
    if new != source:
        at.note(CHANGED, node, f"{short(source)} -> {short(new)}")
        at.change(node.start, node.end, new if new.count("\n") == source.count("\n") else fitted(flat(new), source))

def chosen(at: Rendering, node: If) -> None:
    for branch in node.branches:
        if branch.condition is not None:
            placed(at, branch.condition, at.render, "bool")
        statements(at, branch.body)

def chosen_short(at: Rendering, node: ShortIf) -> None:
    """IF with one statement: where that becomes several, the IF gets THEN and ENDIF; where it goes, the IF goes."""
    try:
        body = SIMPLE[type(node.body)](at, node.body)
    except Lost as lost:
        body = at.stop(node.body, lost)
    if body is None and not any(isinstance(it, Call) for it in nodes_in(node.condition)):
        at.left_out(node)
        return
    placed(at, node.condition, at.render, "bool")
    source = at.source(node.body)
    if body == source:
        return
    if body is None:
        at.note(LEFT_OUT, node.body, short(source))
        body = ""
    else:
        at.note(CHANGED, node.body, f"{short(source)} -> {short(body)}")
    new = flat(body)
    at.change(node.body.start, node.body.end, fitted(new if is_single(new) else f"THEN {new} ENDIF".replace("  ", " "), source))

def is_single(text: str) -> bool:
    """Whether a text is one statement that an IF without THEN may have."""
    return text.count(";") == 1 and text.split(None, 1)[0].rstrip(";") not in ("FOR", "IF", "WHILE", "TEST")

def counted(at: Rendering, node: For) -> None:
    for bound in (node.first, node.last, node.step):
        if bound is not None:
            placed(at, bound, at.render, "num")
    at.counted.append(node.variable.lower())
    statements(at, node.body)
    at.counted.pop()

def repeated(at: Rendering, node: While) -> None:
    new = waited_loop(at, node)
    if new is not None:
        at.replaced(node, new)
        return
    placed(at, node.condition, at.render, "bool")
    at.loops.append(node)
    statements(at, node.body)
    at.loops.pop()

def tested(at: Rendering, node: Test) -> None:
    kind = "string" if at.type_of(node.value) == "string" else "num"
    placed(at, node.value, at.render, kind)
    for branch in node.branches:
        for value in branch.tests:
            placed(at, value, at.render, kind)
        statements(at, branch.body)

# Statements in one piece

def returned(at: Rendering, node: Return) -> Optional[str]:
    if node.value is None or at.routine is None:
        return at.source(node)
    new = render_as(at, node.value, at.routine.type)
    return at.put_in(node, [(node.value.start, node.value.end, new)])

def raised(at: Rendering, node: Raise) -> Optional[str]:
    return at.source(node) if node.value is None else at.spliced(node, [node.value])

def connected(at: Rendering, node: Connect) -> Optional[str]:
    return at.put_in(node, [(node.place.start, node.place.end, at.render(node.place)), (node.trap_at, node.trap_at + len(node.trap), plain(node.trap))])

def lost_placeholder(at: Rendering, node: Placeholder) -> Optional[str]:
    return at.lost(node, f"the placeholder {node.text}")

def spelled_plainly(at: Rendering, node: Node) -> Optional[str]:
    return plain(at.source(node))

SIMPLE: Dict[Type[Node], Simple] = {
    Assign: assigned,
    Instruct: instructed,
    Goto: spelled_plainly,
    Label: spelled_plainly,
    Return: returned,
    Raise: raised,
    Plain: lambda at, node: at.source(node),
    Connect: connected,
    Placeholder: lost_placeholder,
}
COMPOUND: Dict[Type[Node], Callable[[Rendering, Statement], None]] = {
    If: chosen,
    ShortIf: chosen_short,
    For: counted,
    While: repeated,
    Test: tested,
}
