"""Signals: their values, and the instructions that set them. A group is a signal for each bit, an analog signal a persistent num."""
from typing import Dict, List, Optional

from .expressions import FUNCTIONS, options_of, values_of
from .instructions import INSTRUCTIONS, argument, kept, named
from .job import Job
from .model import Signal, bit_name
from .rendering import Rendering, grouped, inner
from .report import TO_DECIDE
from .tree import Call, Expression, Instruct, Name
from .tree_items import Parameter
from . import types

GROUPS = ("GI", "GO")
ANALOG = ("AI", "AO")


def signal_value(at: Rendering, node: Name) -> Optional[str]:
    """The value of a signal, or None for a name that is no signal."""
    found = None if node.parts else at.job.signal(node.name)
    return value_text(at, found) if found else None


def value_text(at: Rendering, found: Signal) -> str:
    if found.kind in GROUPS:
        return f"{group_value(at.job, found)}()"
    return analog(at, found) if found.kind in ANALOG else found.name


def analog(at: Rendering, found: Signal) -> str:
    """An analog signal: a persistent of its name, which all tasks share and the script may give a value."""
    at.add(found.name, f"! The analog signal {found.name}.\nPERS num {found.name}:={found.start};")
    return found.name


def group_value(job: Job, found: Signal) -> str:
    """The function that gives the value of a group."""
    name = job.of_parts(found.name, "value")
    bits = "+".join(bit_name(found.name, it) + (f"*{2**it}" if it else "") for it in range(found.bits))
    return job.library.add(name, f"! The value of the group {found.name}.\nFUNC num {name}()\n  RETURN {bits};\nENDFUNC")


def group_setter(at: Rendering, found: Signal) -> str:
    """The routine that sets the bits of a group, the lowest one first."""
    name = at.job.of_parts("Set", found.name)
    lines = [f"! Sets the group {found.name} of {found.bits} bits.", f"PROC {name}(num value)"]
    lines.append(f"  IF value<0 OR value>{2**found.bits - 1} OR value<>Trunc(value) RAISE {at.job.error('ERR_GO_LIM')};")
    for it in range(found.bits):
        part = "value MOD 2" if it == 0 else f"value DIV {2**it} MOD 2"
        lines.append(f"  SetDO {bit_name(found.name, it)},{part};")
    return at.add(name, "\n".join([*lines, "ENDPROC"]))


# Signals as arguments


def passed_name(at: Rendering, node: Expression) -> Optional[str]:
    """The name of a parameter that stands for a signal, or None."""
    found = inner(node)
    meant = at.datum(found.name) if isinstance(found, Name) else None
    return found.name if isinstance(found, Name) and isinstance(meant, Parameter) and at.base(meant.type) in types.SIGNALS else None


def signal_number(at: Rendering, node: Expression, kind: str) -> str:
    """The number of a signal that a call passes."""
    own = passed_name(at, node)
    if own:
        return own
    found = inner(node)
    signal = at.job.signal(found.name) if isinstance(found, Name) else None
    if signal is None or not isinstance(found, Name):
        return at.lost(node, f"{at.source(node)} is no signal of type {kind}")
    name = at.job.of_parts("nr", signal.name)
    return at.add(name, f"CONST num {name}:={at.job.number_of(signal.name)};")


def value_of_parameter(at: Rendering, node: Name) -> str:
    """The value of what is declared as a signal: a parameter, or an alias."""
    if isinstance(at.datum(node.name), Parameter):
        return value_of_passed(at, node.name)
    found = signal_value(at, node)
    return found if found is not None else at.lost(node, f"{node.name} is an alias of no signal that is known")


def value_of_passed(at: Rendering, name: str) -> str:
    return f"{supplied_name(at, 'value')}({name})"


def supplied_name(at: Rendering, what: str) -> str:
    """The routine that does something with a signal by its number. It is written when all signals that are passed are known."""
    at.job.supplied.add(what)
    return f"abb_{what}"


# What is done with an output by its number.
DONE: Dict[str, str] = {"Set": "Set {0};", "Reset": "Reset {0};", "SetDO": "SetDO {0},value;", "PulseDO": "Set {0};\n    Reset {0};"}


def write_supplied(job: Job, value_of: Dict[str, str]) -> None:
    """Writes the routines that do something with a signal by its number; `value_of` has the texts of the signals' values."""
    for what in sorted(job.supplied):
        signals = [(n + 1, job.backup.signals[it]) for n, it in enumerate(job.passed)]
        if what == "value":
            lines = ["FUNC num abb_value(num signal)", "  TEST signal"]
            for n, it in signals:
                lines += [f"  CASE {n}:", f"    RETURN {value_of[it.name.lower()]};"]
            lines += ["  ENDTEST", "ENDFUNC"]
        else:
            lines = [f"PROC abb_{what}(num signal{',num value' if what == 'SetDO' else ''})", "  TEST signal"]
            for n, it in signals:
                if it.kind == "DO":
                    lines += [f"  CASE {n}:", "    " + DONE[what].format(it.name)]
            lines += ["  ENDTEST", "ENDPROC"]
        job.library.add(f"abb_{what}", "\n".join(lines))


def values_of_passed(at: Rendering) -> Dict[str, str]:
    return {it: value_text(at, at.job.backup.signals[it]) for it in at.job.passed} if "value" in at.job.supplied else {}


def output(at: Rendering, node: Instruct, number: int = 0) -> Optional[Signal]:
    """The output of an instruction; None where a parameter stands for it."""
    found = argument(at, node, number)
    if passed_name(at, found):
        return None
    name = named(at, node, number)
    signal = at.job.signal(name.name)
    return signal if signal else at.lost(node, f"{name.name} is no signal that is known")


# Instructions


def set_one(at: Rendering, node: Instruct) -> str:
    """Set, Reset."""
    signal = output(at, node)
    if signal is None:
        return f"{supplied_name(at, node.name.capitalize())} {at.source(argument(at, node, 0))};"
    if signal.kind in GROUPS:
        return f"{group_setter(at, signal)} {2**signal.bits - 1 if node.name.lower() == 'set' else 0};"
    return f"{node.name} {signal.name};" if at.source(argument(at, node, 0)) != signal.name else at.source(node)


def alias_io(at: Rendering, node: Instruct) -> Optional[str]:
    """AliasIO: the alias stands for its signal, where it has only one."""
    if named(at, node, 1).name.lower() not in at.job.aliases:
        at.lost(node, "an alias of several signals")
    return None


def set_do(at: Rendering, node: Instruct) -> str:
    if "sdelay" in options_of(node.arguments):
        at.note(TO_DECIDE, node, f"{at.source(node)}: the output changes at once, without its delay")
    signal, value = output(at, node), argument(at, node, 1)
    if signal is None:
        return f"{supplied_name(at, 'SetDO')} {at.source(argument(at, node, 0))},{at.render(value)};"
    return kept(at, node) if not options_of(node.arguments) else f"SetDO {signal.name},{at.render(value)};"


def pulse_do(at: Rendering, node: Instruct) -> str:
    signal = output(at, node)
    if signal is None:
        return f"{supplied_name(at, 'PulseDO')} {at.source(argument(at, node, 0))};"
    name = at.job.of_parts("pulse", signal.name)
    text = f"! PulseDO {signal.name}: both edges, one after the other.\nPROC {name}()\n  Set {signal.name};\n  Reset {signal.name};\nENDPROC"
    return f"{at.add(name, text)};"


def invert_do(at: Rendering, node: Instruct) -> str:
    signal = output(at, node)
    if signal is None:
        own = at.source(argument(at, node, 0))
        return f"{supplied_name(at, 'SetDO')} {own},1-{value_of_passed(at, own)};"
    return f"SetDO {signal.name},1-DOutput({signal.name});"


def set_go(at: Rendering, node: Instruct) -> str:
    signal = output(at, node)
    found = options_of(node.arguments).get("dvalue")
    value = found.value if found and found.value else argument(at, node, 1)
    if "sdelay" in options_of(node.arguments):
        at.note(TO_DECIDE, node, f"{at.source(node)}: the outputs change at once, without their delay")
    if signal is None or signal.kind not in GROUPS:
        return at.lost(node, "a group that is a parameter")
    return f"{group_setter(at, signal)} {at.render(value)};"


def set_ao(at: Rendering, node: Instruct) -> str:
    signal = output(at, node)
    if signal is None or signal.kind not in ANALOG:
        return at.lost(node, "an analog signal that is a parameter")
    return f"{analog(at, signal)}:={at.render(argument(at, node, 1))};"


def bit(at: Rendering, node: Instruct) -> str:
    """BitSet, BitClear."""
    place = at.render(argument(at, node, 0))
    name = "abb_BitSet" if node.name.lower() == "bitset" else "abb_BitClear"
    return f"{place}:={at.need(name)}({place},{at.render(argument(at, node, 1))});"


# Functions


def value_function(at: Rendering, node: Call) -> str:
    """DInput, GInput, GOutput, AInput, AOutput: the name of the signal stands for its value."""
    return at.render(only(at, node))


def d_output(at: Rendering, node: Call) -> str:
    found = inner(only(at, node))
    signal = at.job.signal(found.name) if isinstance(found, Name) and not passed_name(at, found) else None
    return f"DOutput({signal.name})" if signal and signal.kind == "DO" else at.render(found)


def test_di(at: Rendering, node: Call) -> str:
    found = inner(only(at, node))
    signal = at.job.signal(found.name) if isinstance(found, Name) and not passed_name(at, found) else None
    return f"TestDI({signal.name})" if signal and signal.kind == "DI" and not signal.is_crossed else f"({grouped(at.render(found))}=1)"


def only(at: Rendering, node: Call) -> Expression:
    values: List[Expression] = values_of(node.arguments)
    return values[0] if len(values) == 1 else at.lost(node, f"{node.name} takes one argument")


INSTRUCTIONS.update({"set": set_one, "reset": set_one, "setdo": set_do, "pulsedo": pulse_do, "invertdo": invert_do, "setgo": set_go, "aliasio": alias_io, "setao": set_ao, "bitset": bit, "bitclear": bit})
FUNCTIONS.update({it: value_function for it in ("dinput", "ginput", "goutput", "ainput", "aoutput", "ginputdnum", "goutputdnum")})
FUNCTIONS.update({"doutput": d_output, "testdi": test_di, "validio": lambda at, node: "TRUE"})
