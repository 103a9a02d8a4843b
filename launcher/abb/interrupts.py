"""Interrupts: orders that a cell has too, timers as inputs, and IDelete of what is not connected."""
from .expressions import options_of, values_of
from .instructions import INSTRUCTIONS, argument, kept, named
from .rendering import Rendering, inner
from .report import TO_DECIDE
from .signal_rules import ANALOG, analog, passed_name
from .tree import Instruct, Name

EDGE = "edge"


def single(at: Rendering, node: Instruct) -> str:
    """The option of an order that fires once."""
    found = options_of(node.arguments)
    if "singlesafe" in found:
        at.note(TO_DECIDE, node, f"{node.name}\\SingleSafe: here it is \\Single")
    return "\\Single," if "single" in found or "singlesafe" in found else ""


def i_signal(at: Rendering, node: Instruct) -> str:
    """ISignalDI, ISignalDO."""
    value = argument(at, node, 1)
    if passed_name(at, argument(at, node, 0)):
        return at.lost(node, "an order on a signal that is a parameter")
    name = named(at, node, 0)
    signal = at.job.signal(name.name)
    if signal is None or signal.kind not in ("DI", "DO"):
        return at.lost(node, f"{name.name} is no digital signal that is known")
    if isinstance(value, Name) and value.name.lower() == EDGE:
        return at.lost(node, "an order on both edges")
    wanted = "ISignalDI" if signal.kind == "DI" and not signal.is_crossed else "ISignalDO"
    if wanted.lower() == node.name.lower() and set(options_of(node.arguments)) <= {"single"}:
        return kept(at, node, [], ["single"])
    return f"{wanted} {single(at, node)}{signal.name},{at.render(value)},{at.render(argument(at, node, 2))};".replace(" \\", "\\")


def i_analog(at: Rendering, node: Instruct) -> str:
    """ISignalAI, ISignalAO: an order on each change of the persistent that stands for the signal."""
    name, interrupt = named(at, node, 0), values_of(node.arguments)[-1]
    signal = at.job.signal(name.name)
    if signal is None or signal.kind not in ANALOG:
        return at.lost(node, f"{name.name} is no analog signal that is known")
    at.note(TO_DECIDE, node, f"{at.source(node)}: here the interrupt comes at each change of {signal.name}")
    return f"IPers{single(at, node) or ' '}{analog(at, signal)},{at.render(interrupt)};"


def i_timer(at: Rendering, node: Instruct) -> str:
    """A timer is an input of the script."""
    interrupt = argument(at, node, 1)
    found = inner(interrupt)
    if not isinstance(found, Name):
        return at.lost(node, "a timer of what is no name")
    timer = at.job.timer(found.name)
    at.note(TO_DECIDE, node, f"{at.source(node)}: a cell has no time, so the input {timer} of the script stands for the timer")
    return f"ISignalDI{single(at, node) or ' '}{timer},1,{at.render(interrupt)};"


def i_pers(at: Rendering, node: Instruct) -> str:
    place = inner(argument(at, node, 0))
    if not isinstance(place, Name) or place.parts:
        return at.lost(node, "an order on a part of a persistent")
    return kept(at, node, [], ["single"])


def i_delete(at: Rendering, node: Instruct) -> str:
    """IDelete of an interrupt that is not connected is no error on a controller."""
    return f"{at.need('abb_IDelete')} {at.render(argument(at, node, 0))};"


def values(at: Rendering, node: Instruct) -> str:
    """ISleep, IWatch, IDisable, IEnable."""
    return kept(at, node)


INSTRUCTIONS.update({"isignaldi": i_signal, "isignaldo": i_signal, "itimer": i_timer, "ipers": i_pers, "idelete": i_delete, "isignalai": i_analog, "isignalao": i_analog})
INSTRUCTIONS.update({it: values for it in ("isleep", "iwatch", "idisable", "ienable")})
