"""Triggers: triggdata becomes the number of its definition, and what the definition does is done after the move."""
from typing import List, Optional

from .expressions import options_of, values_of
from .instructions import INSTRUCTIONS, argument
from .moves import LAST, moves_to
from .rendering import Rendering
from .report import TO_DECIDE
from .signal_rules import group_setter
from .together import before_move
from .tree import Argument, Expression, Instruct, Name

# The moves with triggers: how many targets come before the speed.
MOVES = {"triggl": 1, "triggj": 1, "triggc": 2, "trigglios": 1, "triggjios": 1, "triggabsj": 1}
FURTHER = [f"t{n}" for n in range(2, 9)]


def defined(at: Rendering, node: Instruct) -> str:
    """TriggIO, TriggEquip: the trigger's number stands for what it does."""
    place = argument(at, node, 0)
    done = done_text(at, node)
    return f"{at.render(place)}:={at.job.trigger(done)};"


def done_text(at: Rendering, node: Instruct) -> str:
    """What a trigger does, as a statement of the generated module."""
    found = options_of(node.arguments)
    value = given_value(at, node, found)
    for option in ("dop", "gop", "aop"):
        given = found.get(option)
        if given is None or given.value is None:
            continue
        signal = at.job.signal(given.value.name) if isinstance(given.value, Name) else None
        if signal is None:
            return at.lost(node, f"{at.source(given)} is no signal that is known")
        if option == "gop":
            return f"{group_setter(at, signal)} {value};"
        return f"SetDO {signal.name},{value};" if option == "dop" else f"{at.render(given.value)}:={value};"
    return at.lost(node, "a trigger without an output")


def given_value(at: Rendering, node: Instruct, found: dict) -> str:
    """The value that a trigger gives, which has to be a constant."""
    values = values_of(node.arguments)
    given: Optional[Expression] = values[-1] if len(values) > 2 else None
    if "setdvalue" in found and found["setdvalue"].value:
        given = found["setdvalue"].value
    number = at.constant(given) if given is not None else None
    if not isinstance(number, float):
        return at.lost(node, "a trigger whose value is no constant")
    return f"{number:g}"


def trigg_int(at: Rendering, node: Instruct) -> str:
    """TriggInt: the trigger sets an output of the cell, and the interrupt is ordered on that."""
    place, interrupt = argument(at, node, 0), values_of(node.arguments)[-1]
    name = interrupt.name if isinstance(interrupt, Name) else at.lost(node, "an interrupt that is no name")
    signal = at.job.add_signal(at.job.of_parts("trigger", name), "do")
    done = f"Set {signal}; Reset {signal};"
    supplied_name = at.job.of_parts("order", signal)
    lines = [f"PROC {supplied_name}(VAR intnum i)", f"  ISignalDO {signal},1,i;", "ERROR", "  TRYNEXT;", "ENDPROC"]
    at.add(supplied_name, "\n".join(lines))
    return f"{at.render(place)}:={at.job.trigger(done)}; {supplied_name} {at.render(interrupt)};"


def trigg_check(at: Rendering, node: Instruct) -> str:
    """TriggCheckIO: its interrupt comes only if the check fails, so the trigger does nothing."""
    at.note(TO_DECIDE, node, f"{at.source(node)}: the check is not made")
    return f"{at.render(argument(at, node, 0))}:=0;"


def trigg_move(at: Rendering, node: Instruct) -> str:
    count = MOVES[node.name.lower()]
    targets = [argument(at, node, it) for it in range(count)]
    kind = "jointtarget" if node.name.lower() == "triggabsj" else "robtarget"
    moved = moves_to(at, node, targets, count, LAST, kind)
    return before_move(at, node) + moved + "".join(f" {fire(at, it)}" for it in fired(at, node, count))


def fired(at: Rendering, node: Instruct, count: int) -> List[Expression]:
    """The triggers of a move: the argument after the speed, and \\T2 to \\T8."""
    found = options_of(node.arguments)
    names = [found.get(it) for it in FURTHER]
    return [argument(at, node, count + 1), *(it.value for it in names if isinstance(it, Argument) and it.value)]


def fire(at: Rendering, trigger: Expression) -> str:
    meant = at.datum(trigger.name) if isinstance(trigger, Name) else None
    if meant is not None and getattr(meant, "sizes", None) and isinstance(trigger, Name) and not trigger.parts:
        count = at.constant(meant.sizes[0])  # type: ignore[union-attr]
        return f"FOR abb_i FROM 1 TO {count:g} DO {at.job.fire()} {at.source(trigger)}{{abb_i}}; ENDFOR"
    return f"{at.job.fire()} {at.render(trigger)};"


INSTRUCTIONS.update({"triggio": defined, "triggequip": defined, "triggrampao": defined, "triggint": trigg_int, "triggcheckio": trigg_check})
INSTRUCTIONS.update({it: trigg_move for it in MOVES})
