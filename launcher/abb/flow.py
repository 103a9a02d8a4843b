"""Which routines of a task move its arm, by themselves or by what they call."""
from typing import Dict, Set

from .names import Names, Text
from .tree import Call, Goto, Instruct, Label, Node, Plain, Truth, While
from .tree_items import Routine
from .walking import nodes_in

# What the names of instructions that move an arm begin with.
MOVES = ("move", "search", "trigg", "arc", "spot", "cap", "disp", "paint", "nut", "contact", "fc", "ind")
NO_MOVES = frozenset("triggio triggint triggequip triggcheckio triggspeed triggrampao triggdatareset triggdatacopy triggstopproc arckill arcrefresh".split())


class Flow:
    def __init__(self, names: Names) -> None:
        self.names = names
        self.known: Dict[int, bool] = {}

    def moves(self, text: Text, node: Node) -> bool:
        """Whether something in a node of a module moves the arm. A call by a name in a text may move it."""
        return any(self.is_move(text, it) for it in nodes_in(node))

    def is_move(self, text: Text, node: Node) -> bool:
        if not isinstance(node, (Instruct, Call)):
            return False
        routine = self.names.routine(text, node.name)
        if routine is not None:
            return self.moves_arm(text, routine)
        small = node.name.lower()
        return isinstance(node, Instruct) and (not small or (small.startswith(MOVES) and small not in NO_MOVES))

    def moves_arm(self, text: Text, routine: Routine) -> bool:
        key = id(routine)
        if key not in self.known:
            # A routine that calls itself moves the arm only if something else in it does.
            self.known[key] = False
            home = self.names.homes.get(routine.name.lower(), text) if routine.scope != "LOCAL" else text
            self.known[key] = self.moves(home, routine)
        return self.known[key]


def ends(routine: Routine) -> bool:
    """Whether a routine has no loop that goes on for ever: no WHILE TRUE, and no GOTO back."""
    labels: Set[str] = set()
    for node in nodes_in(routine):
        if isinstance(node, While) and isinstance(node.condition, Truth) and node.condition.value:
            return False
        if isinstance(node, Label):
            labels.add(node.label.lower())
        if isinstance(node, Goto) and node.label.lower() in labels:
            return False
    return not any(isinstance(it, Plain) and it.word == "EXIT" for it in nodes_in(routine))
