"""Waits. One with a time limit is a WaitUntil of a function, so that RETRY waits again: the input timeout_TASK ends it."""
from typing import Optional

from .expressions import options_of
from .instructions import INSTRUCTIONS, argument, kept, named
from .loops import is_polling
from .polling import NAME
from .rendering import Rendering, grouped
from .signal_rules import passed_name
from .tree import Instruct

# How the options of waits for groups and analog signals compare.
SIGNS = {"lt": "<", "gt": ">", "noteq": "<>"}


def limited(at: Rendering, node: Instruct, condition: str) -> Optional[str]:
    """A wait with a time limit for a condition; None for one without."""
    found = options_of(node.arguments)
    if "maxtime" not in found:
        return None
    flag = found.get("timeflag")
    if flag is None or flag.value is None:
        return f"WaitUntil {at.need('in_time')}({condition});"
    return f"WaitUntil {at.need('in_time_or')}({condition},{at.render(flag.value)});"


def wait_signal(at: Rendering, node: Instruct) -> str:
    """WaitDI, WaitDO."""
    value = argument(at, node, 1)
    if passed_name(at, argument(at, node, 0)):
        return wait_value(at, node)
    name = named(at, node, 0)
    signal = at.job.signal(name.name)
    if signal is None:
        return at.lost(node, f"{name.name} is no signal that is known")
    if signal.kind in ("DI", "DO") and "maxtime" not in options_of(node.arguments):
        is_input = signal.kind == "DI" and not signal.is_crossed
        wanted = "WaitDI" if is_input else "WaitDO"
        if node.name.lower() == wanted.lower():
            return kept(at, node)
        return f"{wanted} {signal.name},{at.render(value)};"
    return wait_value(at, node)


def wait_value(at: Rendering, node: Instruct) -> str:
    """A wait for the value of a signal, a group or an analog signal."""
    sign = next((SIGNS[it] for it in options_of(node.arguments) if it in SIGNS), "=")
    condition = f"{at.render(argument(at, node, 0))}{sign}{grouped(at.render(argument(at, node, 1)))}"
    return limited(at, node, condition) or f"WaitUntil {condition};"


def wait_until(at: Rendering, node: Instruct) -> str:
    condition = argument(at, node, 0)
    found = limited(at, node, at.render(condition))
    return found if found is not None else kept(at, node)


def wait_time(at: Rendering, node: Instruct) -> str:
    """In a loop that only looks again and again, a wait until something of the cell changes."""
    if is_polling(at, node):
        at.job.is_polling = True
        return f"WaitUntil {NAME}();"
    return kept(at, node)



INSTRUCTIONS.update({"waitdi": wait_signal, "waitdo": wait_signal, "waituntil": wait_until, "waittime": wait_time})
INSTRUCTIONS.update({it: wait_value for it in ("waitgi", "waitgo", "waitai", "waitao")})
INSTRUCTIONS.update({it: kept for it in ("waittestandset", "incr", "decr", "clear", "add")})
