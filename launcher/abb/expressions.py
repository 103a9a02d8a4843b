"""The rules of expressions."""
import re
from typing import Callable, Dict, List, Optional

from . import types
from .job import plain
from .paths import leaves_of, path_of, spelled
from .reading import CALLS, POSITIONS
from .rendering import EXPRESSIONS, Rendering, grouped, inner
from .report import CHANGED, TO_DECIDE
from .tree import Aggregate, Argument, Binary, Call, Component, Expression, Group, Name, Number, Placeholder, Text, Unary
from .tree_items import Routine

# The greatest num, and the most bytes of a literal.
GREATEST = 9_999_999_999.999
LONGEST_NUMBER = 30
LONGEST_TEXT = 80
TEXT = re.compile(r'"(?:""|\\\\|\\[2-6][0-9A-Fa-f]|\\7[0-9A-Ea-e]|[ !#-\[\]-~])*"')
ESCAPE = re.compile(r"\\([0-9A-Fa-f]{2})")
EQUALITIES = ("=", "<>")
# The positions by the numbers of values in their brackets.
SHAPES = {(3, 4, 4, 6): "robtarget", (6, 6): "jointtarget"}
FunctionRule = Callable[[Rendering, Call], str]
# What a function of RAPID becomes, by its name in small letters; and what a predefined datum becomes.
FUNCTIONS: Dict[str, FunctionRule] = {}
DATA: Dict[str, Callable[[Rendering, Name], str]] = {}


def render_as(at: Rendering, node: Expression, kind: str) -> str:
    """The text of an expression whose place has a type, as brackets need it."""
    found = inner(node)
    if not isinstance(found, Aggregate):
        return at.render(node)
    base = at.base(kind)
    if base in POSITIONS:
        return at.job.reading.aggregate(at, found, base)
    if base in types.COMPONENTS:
        fields = list(types.COMPONENTS[base].values())
        if len(fields) == len(found.parts):
            return at.put_in(found, [(it.start, it.end, render_as(at, it, field)) for it, field in zip(found.parts, fields)])
    return at.lost(node, f"brackets of type {kind or 'unknown'}")


def number(at: Rendering, node: Number) -> str:
    if node.text[:2].lower() in ("0x", "0b", "0o"):
        return node.text if int(node.text, 0) <= GREATEST else str(GREATEST)
    value = float(node.text)
    if value > GREATEST:
        at.note(CHANGED, node, f"{node.text} is greater than a num can be: {GREATEST}")
        return str(GREATEST)
    return node.text if len(node.text) <= LONGEST_NUMBER else f"{value:.3f}"


def text(at: Rendering, node: Text) -> str:
    source = at.source(node)
    if TEXT.fullmatch(source) and len(node.value) <= LONGEST_TEXT:
        return source
    value = plain(ESCAPE.sub(lambda it: chr(int(it[1], 16)), node.value))
    cut = value[:LONGEST_TEXT]
    at.note(CHANGED, node, "a text in plain characters" if cut == value else f"a text of {len(value)} characters, cut at {LONGEST_TEXT}")
    return quoted(cut)


def quoted(value: str) -> str:
    return '"' + value.replace("\\", "\\\\").replace('"', '""') + '"'


def name(at: Rendering, node: Name) -> str:
    path = path_of(at, node)
    if path is None:
        return undeclared(at, node)
    if path.type in types.SIGNALS:
        from .signal_rules import value_of_parameter

        return value_of_parameter(at, node)
    if path.rest and path.type in POSITIONS:
        return at.job.reading.component(at, node, path.type, path.depth)
    if is_dropped(at, path.type):
        at.lost(node, f"{node.name} is of type {path.type}")
    if at.job.names.fields(at.text, path.type) is not None and not path.is_array:
        at.lost(node, f"a whole {path.type} in an expression")
    return spelled(at, path) + "".join(part_text(at, it) for it in path.rest)


def part_text(at: Rendering, part: object) -> str:
    return f".{part.name}" if isinstance(part, Component) else at.lost(part, "an index after a component")  # type: ignore[arg-type]


def is_dropped(at: Rendering, kind: str) -> bool:
    """Whether data of a type go."""
    base = at.base(kind)
    known = base in types.KEPT or base in types.RENAMED or base in types.SIGNALS or base == types.WORK_OBJECT
    return not known and at.job.names.fields(at.text, base) is None


def undeclared(at: Rendering, node: Name) -> str:
    """A name that no module declares: the variable of a FOR, a signal, or a predefined datum."""
    if at.is_counted(node.name) and not node.parts:
        return plain(node.name)
    from .signal_rules import signal_value

    found = signal_value(at, node)
    if found is not None:
        return found
    rule = DATA.get(node.name.lower())
    if rule:
        return rule(at, node)
    if at.job.library.has(node.name) and not node.parts:
        return at.need(node.name)
    return at.lost(node, f"{node.name} is not known")


def call(at: Rendering, node: Call) -> str:
    meant = at.meant(node.name)
    if isinstance(meant, Routine):
        from .calls import called

        return called(at, node, meant)
    small = node.name.lower()
    rule = FUNCTIONS.get(small)
    if rule:
        return rule(at, node)
    return at.job.reading.call(at, node) if small in CALLS else at.lost(node, f"the function {node.name} has no rule")


def unary(at: Rendering, node: Unary) -> str:
    found = at.spliced(node, [node.operand])
    if node.sign == "NOT" and isinstance(node.operand, Binary) and node.operand.sign == "AND":
        at.note(TO_DECIDE, node, f"NOT covers the AND after it: {found}; is (NOT a) AND b meant?")
    return found if node.is_first else f"({found})"


def binary(at: Rendering, node: Binary) -> str:
    if node.sign in EQUALITIES:
        found = compared(at, node)
        if found is not None:
            return found
    return at.spliced(node, [node.left, node.right])


def compared(at: Rendering, node: Binary) -> Optional[str]:
    """An equality of two records, component by component."""
    left, right = inner(node.left), inner(node.right)
    kind = at.type_of(left) if isinstance(left, Name) else at.type_of(right)
    if at.job.names.fields(at.text, kind) is None:
        if isinstance(right, Aggregate):
            at.lost(node, f"a comparison with brackets of type {kind}")
        return None
    pairs = zip(parts_of(at, left, kind), parts_of(at, right, kind))
    found = " AND ".join(f"{grouped(a)}={grouped(b)}" for a, b in pairs)
    return f"({found})" if node.sign == "=" else f"(NOT ({found}))"


def parts_of(at: Rendering, node: Expression, kind: str) -> List[str]:
    """The texts of a record's components down to those that are no records: of a datum, of brackets, of what a reading knows."""
    node = inner(node)
    base = at.base(kind)
    fields = at.job.names.fields(at.text, base) or []
    if isinstance(node, Aggregate) and len(node.parts) == len(fields):
        found: List[str] = []
        for part, (_, field) in zip(node.parts, fields):
            found += parts_of(at, part, field) if at.job.names.fields(at.text, field) is not None else [render_as(at, part, field)]
        return found
    if isinstance(node, Name):
        path = path_of(at, node)
        if path and not path.rest and at.base(path.type) == base:
            return [it for it, _ in leaves_of(at, path)]
    if base in ("pos", "orient"):
        return operated(at, node, base) or at.job.reading.parts_of(at, node, base)
    return at.lost(node, f"a {kind} that is neither a datum nor in brackets")


def operated(at: Rendering, node: Expression, kind: str) -> List[str]:
    """A sum, a difference or a product of pos, component by component; none for anything else."""
    if isinstance(node, Unary) and node.sign in "+-":
        return [f"({node.sign}{grouped(it)})" for it in parts_of(at, node.operand, kind)]
    if not isinstance(node, Binary) or node.sign not in "+-*/":
        return []
    is_sum = node.sign in "+-"
    sides = [parts_of(at, it, kind) if is_sum or at.type_of(it) == kind else [at.render(it)] * 3 for it in (node.left, node.right)]
    return [f"({grouped(a)}{node.sign}{grouped(b)})" for a, b in zip(*sides)]


def brackets(at: Rendering, node: Aggregate) -> str:
    """Brackets at a place that does not tell their type: a position, by its shape, or a record of nums."""
    shape = [len(it.parts) if isinstance(it, Aggregate) else 0 for it in (inner(part) for part in node.parts)]
    kind = SHAPES.get(tuple(shape))
    if kind:
        return at.job.reading.aggregate(at, node, kind)
    if any(shape):
        at.lost(node, "brackets whose type is not known")
    return at.spliced(node, node.parts)


def placeholder(at: Rendering, node: Placeholder) -> str:
    return at.lost(node, f"the placeholder {node.text}")


def options_of(node: List[Argument]) -> Dict[str, Argument]:
    """The options among arguments, by their names in small letters."""
    return {it.option.lower(): it for it in node if it.option}


def values_of(node: List[Argument]) -> List[Expression]:
    """The values among arguments that are not those of options."""
    return [it.value for it in node if not it.option and it.value is not None]


EXPRESSIONS.update(
    {
        Number: number,
        Text: text,
        Name: name,
        Call: call,
        Unary: unary,
        Binary: binary,
        Aggregate: brackets,
        Group: lambda at, node: at.spliced(node, [node.inner]),
        Placeholder: placeholder,
    }
)
