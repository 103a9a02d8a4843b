"""Which tool and work object each position is used with: by the statements that name them together, calls of process routines included."""
from typing import Dict, List, NamedTuple, Optional, Union

from .literals import Literals
from .tree import Call, Expression, Instruct, Name
from .tree_items import Parameter, Routine
from .walking import nodes_in

CallNode = Union[Call, Instruct]


class Pair(NamedTuple):
    tool: str
    wobj: str


# What a position has that no statement uses with a tool.
NO_PAIR = Pair("tool0", "wobj0")
COMPUTED = ("offs", "reltool")


class Uses:
    """The pairs of the positions of one task, by the names of their data in small letters, each in the order of the text."""

    def __init__(self, literals: Literals) -> None:
        self.literals = literals
        self.pairs: Dict[str, List[Pair]] = {}
        for routine in literals.routines.values():
            for node in nodes_in(routine):
                if isinstance(node, (Instruct, Call)) and node.name.lower() not in COMPUTED:
                    self.take(routine, node)

    def first(self, name: str) -> Pair:
        found = self.pairs.get(name.lower())
        return found[0] if found else NO_PAIR

    def take(self, routine: Routine, node: CallNode) -> None:
        callee = self.literals.routines.get(node.name.lower())
        if callee:
            bound = bindings(callee, node)
            for parameter in callee.parameters:
                argument = bound.get(parameter.name.lower())
                if argument is not None and parameter.type.lower() == "robtarget":
                    self.add(routine, argument, self.pair_in_call(node, parameter))
            return
        pair = self.pair_of_move(routine, node)
        for it in node.arguments:
            if it.value is not None and not it.option and pair:
                self.add(routine, it.value, pair)

    def add(self, routine: Routine, node: Expression, pair: Pair) -> None:
        """Adds the pair to the position that an expression names."""
        base = base_of(node)
        if base and self.type_of(routine, base.name) == "robtarget" and not is_parameter(routine, base.name):
            found = self.pairs.setdefault(base.name.lower(), [])
            if pair not in found:
                found.append(pair)

    def pair_of_move(self, routine: Routine, node: CallNode) -> Optional[Pair]:
        """The tool and the work object that an instruction names; None where it names no tool."""
        tools = [it.value.name for it in node.arguments if not it.option and isinstance(it.value, Name)]
        tools = [it for it in tools if it.lower() == "tool0" or self.type_of(routine, it) == "tooldata"]
        wobj = next((it.value for it in node.arguments if it.option.lower() == "wobj"), None)
        given = next((it.given for it in node.arguments if it.option.lower() == "wobj" and it.given), "")
        return Pair(tools[0], wobj.name if isinstance(wobj, Name) else given or "wobj0") if tools else None

    def pair_in_call(self, node: CallNode, parameter: Parameter, depth: int = 0) -> Pair:
        """The pair with which a routine uses a position that it gets, by the arguments of a call."""
        callee = self.literals.routines.get(node.name.lower())
        inner = self.pair_of_parameter(callee, parameter, depth) if callee else NO_PAIR
        bound = bindings(callee, node) if callee else {}

        def meant(name: str, none: str) -> str:
            if not callee or not is_parameter(callee, name):
                return name
            argument = bound.get(name.lower())
            return argument.name if isinstance(argument, Name) else none

        return Pair(meant(inner.tool, "tool0"), meant(inner.wobj, "wobj0"))

    def pair_of_parameter(self, routine: Routine, parameter: Parameter, depth: int) -> Pair:
        """The pair of the first move, or call, of a routine that uses a parameter; it may have names of other parameters."""
        for node in nodes_in(routine) if depth < 10 else ():
            if not isinstance(node, (Instruct, Call)) or node.name.lower() in COMPUTED:
                continue
            names = [base_of(it.value) for it in node.arguments if it.value is not None and not it.option]
            if not any(it and it.name.lower() == parameter.name.lower() for it in names):
                continue
            callee = self.literals.routines.get(node.name.lower())
            for inner in callee.parameters if callee else ():
                bound = base_of(bindings(callee, node).get(inner.name.lower())) if callee else None
                if bound and bound.name.lower() == parameter.name.lower() and inner.type.lower() == "robtarget":
                    return self.pair_in_call(node, inner, depth + 1)
            pair = self.pair_of_move(routine, node)
            if pair:
                return pair
        return NO_PAIR

    def type_of(self, routine: Routine, name: str) -> str:
        """The type of a datum or a parameter, in small letters."""
        small = name.lower()
        for it in [*routine.parameters, *routine.data]:
            if it.name.lower() == small:
                return it.type.lower()
        return self.literals.data[small][1].type.lower() if small in self.literals.data else ""


def is_parameter(routine: Routine, name: str) -> bool:
    return any(it.name.lower() == name.lower() for it in routine.parameters)


def base_of(node: Optional[Expression]) -> Optional[Name]:
    """The name of the position of an expression: itself, or what Offs or RelTool starts from."""
    if isinstance(node, Call) and node.name.lower() in COMPUTED and node.arguments:
        return base_of(node.arguments[0].value)
    return node if isinstance(node, Name) else None


def bindings(callee: Routine, node: CallNode) -> Dict[str, Expression]:
    """The arguments of a call by the names of the parameters, in small letters."""
    values = [it.value for it in node.arguments if not it.option]
    options = {it.option.lower(): it.value for it in node.arguments if it.option}
    found: Dict[str, Expression] = {}
    for it in callee.parameters:
        value = options.get(it.name.lower()) if it.is_optional else values.pop(0) if values else None
        if value is not None:
            found[it.name.lower()] = value
    return found
