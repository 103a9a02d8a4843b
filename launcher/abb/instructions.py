"""The conversion of instructions and procedure calls, by the tables of rules."""
from typing import Callable, Dict, Optional, Sequence

from .calls import called
from .expressions import options_of, render_as, values_of
from .left_out import LEFT_OUT, TOLD
from .rendering import Rendering
from .report import TO_DECIDE
from .tree import Expression, Instruct, Name
from .tree_items import Routine

# What an instruction becomes: its text, or None where it is left out.
InstructionRule = Callable[[Rendering, Instruct], Optional[str]]
# The rules by the names of the instructions in small letters. The files of rules add theirs.
INSTRUCTIONS: Dict[str, InstructionRule] = {}


def instructed(at: Rendering, node: Instruct) -> Optional[str]:
    if node.late is not None:
        from .late import called_late

        return called_late(at, node, node.late)
    meant = at.meant(node.name)
    if isinstance(meant, Routine):
        return called(at, node, meant)
    small = node.name.lower()
    if small in TOLD:
        at.note(TO_DECIDE, node, f"{at.source(node)} is left out, with what it does to moves or interrupts")
    if small in LEFT_OUT:
        return None
    rule = INSTRUCTIONS.get(small)
    return rule(at, node) if rule else at.lost(node, f"the instruction {node.name} has no rule")


def kept(at: Rendering, node: Instruct, kinds: Sequence[str] = (), options: Sequence[str] = ()) -> str:
    """An instruction that a cell has too, with its arguments converted: `kinds` are the types of those without an option, and `options`
    those that stay; the others go."""
    found = options_of(node.arguments)
    if all(it in options for it in found):
        rest = list(kinds)
        changes = []
        for it in node.arguments:
            if it.value is not None:
                kind = rest.pop(0) if rest and not it.option else ""
                changes.append((it.value.start, it.value.end, render_as(at, it.value, kind)))
        return at.put_in(node, changes)
    words = [at.render(it) for it in values_of(node.arguments)]
    words[-1:] = [words[-1] + "".join(f"\\{found[it].option}" + value(at, found[it].value) for it in options if it in found)] if words else []
    return f"{node.name} {','.join(words)};"


def value(at: Rendering, node: Optional[Expression]) -> str:
    return "" if node is None else f":={at.render(node)}"


def argument(at: Rendering, node: Instruct, number: int) -> Expression:
    """The argument of this number, from 0, among those without an option."""
    found = values_of(node.arguments)
    return found[number] if number < len(found) else at.lost(node, f"{node.name} has no argument {number + 1}")


def named(at: Rendering, node: Instruct, number: int) -> Name:
    found = argument(at, node, number)
    return found if isinstance(found, Name) else at.lost(node, f"argument {number + 1} of {node.name} is no name")
