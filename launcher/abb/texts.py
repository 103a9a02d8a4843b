"""What a program says to the operator, and what it asks: the next answer comes from answers_TASK, which the script fills in."""
from typing import List, Optional

from .expressions import FUNCTIONS, options_of, quoted, values_of
from .instructions import INSTRUCTIONS, argument, kept
from .rendering import Rendering, inner
from .report import TO_DECIDE
from .tree import Aggregate, Call, Expression, Instruct, Name, Text

LONGEST = 80


def tp_write(at: Rendering, node: Instruct) -> str:
    found = options_of(node.arguments)
    text = argument(at, node, 0)
    for option in ("pos", "orient"):
        if option in found:
            value = found[option].value
            parts = at.job.reading.parts_of(at, value, option) if value else []
            numbers = '+","+'.join(f"NumToStr({it},1)" for it in parts)
            return f'TPWrite {at.render(text)}+"["+{numbers}+"]";'
    if "dnum" in found and found["dnum"].value:
        return f"TPWrite {at.render(text)}\\Num:={at.render(found['dnum'].value)};"
    return kept(at, node, ["string"], ["num", "bool"])


def written(at: Rendering, text: Expression) -> str:
    return f"TPWrite {at.render(text)};"


def err_write(at: Rendering, node: Instruct) -> str:
    """ErrWrite, ErrLog: the header and the reason as one text if both are literals, else one after the other."""
    texts = values_of(node.arguments)[:2]
    plain = [it.value for it in texts if isinstance(it, Text)]
    joined = ": ".join(plain)
    if len(plain) == 2 and len(joined) <= LONGEST:
        return f"TPWrite {quoted(joined)};"
    return " ".join(written(at, it) for it in texts)


# Questions


def asked_text(at: Rendering, texts: List[Expression]) -> str:
    return at.render(texts[0]) if texts else '""'


def tp_read(at: Rendering, node: Instruct) -> str:
    """TPReadFK, TPReadNum, TPReadDnum: the answer goes into the first argument."""
    place, text = argument(at, node, 0), argument(at, node, 1)
    tell_limit(at, node)
    return f"{at.render(place)}:={at.need('abb_answer')}({at.render(text)});"


def tell_limit(at: Rendering, node: Instruct) -> None:
    limits = [it for it in options_of(node.arguments) if it in ("maxtime", "dibreak", "dobreak", "persbreak", "breakflag")]
    if limits:
        at.note(TO_DECIDE, node, f"{node.name} waits for its answer, without {', '.join(limits)}")


def ui_text(at: Rendering, arguments: List) -> str:
    """What a dialog shows: its header if it has one, else its message."""
    found = options_of(arguments)
    if "header" in found and found["header"].value:
        return at.render(found["header"].value)
    if "message" in found and found["message"].value:
        value = inner(found["message"].value)
        return at.render(value) if not isinstance(value, (Aggregate, Name)) else first_line(at, value)
    texts = [it for it in values_of(arguments) if at.type_of(it) == "string"]
    return asked_text(at, texts)


def first_line(at: Rendering, value: Expression) -> str:
    if isinstance(value, Aggregate):
        return at.render(value.parts[0])
    found = at.datum(value.name) if isinstance(value, Name) else None
    is_array = bool(getattr(found, "sizes", None)) and isinstance(value, Name) and not value.parts
    return f"{at.source(value)}{{1}}" if is_array else at.render(value)


def ui_msg_box(at: Rendering, node: Instruct) -> str:
    """A box without a result shows its text; nobody has to press its button."""
    result = options_of(node.arguments).get("result")
    if result is None or result.value is None:
        return f"TPWrite {ui_text(at, node.arguments)};"
    return f"{at.render(result.value)}:={at.need('abb_answer')}({ui_text(at, node.arguments)});"


def ui_function(at: Rendering, node: Call) -> str:
    """UIListView, UIMessageBox, UINumEntry: the number of the answer."""
    return f"{at.need('abb_answer')}({ui_text(at, node.arguments)})"


def stop(at: Rendering, node: Instruct) -> str:
    """Stop, Break: a text, and a wait for the start."""
    return f"{at.need('abb_halt')} {quoted(node.name)};"


def exit_cycle(at: Rendering, node: Instruct) -> str:
    at.note(TO_DECIDE, node, "ExitCycle ends the task; on the controller its main starts again")
    return "EXIT;"


def tp_erase(at: Rendering, node: Instruct) -> Optional[str]:
    return at.source(node)


INSTRUCTIONS.update({"tpwrite": tp_write, "tperase": tp_erase, "errwrite": err_write, "uimsgwrite": ui_msg_box, "uimsgbox": ui_msg_box})
INSTRUCTIONS.update({"tpreadfk": tp_read, "tpreadnum": tp_read, "tpreaddnum": tp_read})
INSTRUCTIONS.update({"stop": stop, "break": stop, "exitcycle": exit_cycle, "uimsgwriteabort": lambda at, node: None})
FUNCTIONS.update({it: ui_function for it in ("uilistview", "uimessagebox", "uinumentry", "uinumtune", "uidnumentry", "uidnumtune")})
FUNCTIONS["uialphaentry"] = lambda at, node: f"{at.need('abb_text')}({ui_text(at, node.arguments)})"
FUNCTIONS["uiclientexist"] = lambda at, node: "TRUE"
