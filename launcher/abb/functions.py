"""Functions: those that a cell has too, and those of the library."""
from typing import Callable, Dict

from .calls import present
from .expressions import DATA, FUNCTIONS, options_of, parts_of, quoted, values_of
from .job import plain
from .paths import sizes_of
from .rendering import Rendering, inner
from .report import TO_DECIDE
from .tree import Call, Name
from .tree_items import Parameter

# The functions of the library, by their names in small letters.
LIBRARY: Dict[str, str] = {
    it.lower(): f"abb_{it}"
    for it in "Sin Cos Tan ASin ACos ATan ATan2 Sqrt Pow Exp Min Max BitAnd BitOr BitXOr BitLSh BitRSh BitCheck".split()
}
LIBRARY.update({f"{it}dnum": LIBRARY[it] for it in ("sin", "cos", "tan", "asin", "acos", "atan", "atan2", "sqrt", "pow", "bitand", "bitor")})
# Functions of a dnum that are the same of a num.
SAME = {"dnumtonum", "numtodnum"}


def spliced(at: Rendering, node: Call) -> str:
    """A function that a cell has too."""
    if any(it.option for it in node.arguments):
        return f"{node.name}({','.join(at.render(it) for it in values_of(node.arguments))})"
    return at.put_in(node, [(it.start, it.end, at.render(it.value)) for it in node.arguments if it.value is not None])


def of_library(at: Rendering, node: Call) -> str:
    name = at.need(LIBRARY[node.name.lower()])
    return f"{name}({','.join(at.render(it) for it in values_of(node.arguments))})"


def with_decimals(at: Rendering, node: Call) -> str:
    """Round, Trunc, with or without \\Dec."""
    word = "Round" if node.name.lower().startswith("round") else "Trunc"
    decimals = options_of(node.arguments).get("dec")
    value = at.render(values_of(node.arguments)[0])
    if word == "Trunc" and decimals is None:
        return f"Trunc({value})"
    count = at.render(decimals.value) if decimals and decimals.value else "0"
    return f"{at.need(f'abb_{word}')}({value},{count})"


def val_to_str(at: Rendering, node: Call) -> str:
    """ValToStr of a num or a bool."""
    value = values_of(node.arguments)[0]
    kind = at.type_of(value)
    if kind == "string":
        return at.render(value)
    if kind == "bool":
        return f"{at.need('abb_BoolToStr')}({at.render(value)})"
    if kind in ("num", "dnum", "errnum", "byte"):
        return f"{at.need('abb_ValToStr')}({at.render(value)})"
    parts = '+","+'.join(f"{at.need('abb_ValToStr')}({it})" for it in parts_of(at, value, kind))
    return f'("["+{parts}+"]")' if kind in ("pos", "orient") else at.lost(node, f"ValToStr of a {kind}")


def dim(at: Rendering, node: Call) -> str:
    """Dim(a,n): the length, which the declaration gives."""
    values = values_of(node.arguments)
    found, number = inner(values[0]), at.constant(values[1]) if len(values) > 1 else None
    meant = at.datum(found.name) if isinstance(found, Name) else None
    if meant is None or isinstance(meant, Parameter) or not isinstance(number, float):
        return at.lost(node, "Dim of what is no declared array")
    sizes = sizes_of(at, meant)
    if len(sizes) == 1 and at.job.names.fields(at.text, meant.type) is None:
        return at.put_in(node, [(values[0].start, values[0].end, plain(found.name) if isinstance(found, Name) else "")])
    return str(sizes[int(number) - 1]) if 1 <= number <= len(sizes) else at.lost(node, "Dim of a dimension that the array does not have")


def constant_text(at: Rendering, node: Call) -> str:
    """StrPart and the like of constants."""
    values = [at.constant(it) for it in values_of(node.arguments)]
    if node.name.lower() == "strpart" and isinstance(values[0], str) and isinstance(values[1], float) and isinstance(values[2], float):
        start = int(values[1]) - 1
        return quoted(values[0][start : start + int(values[2])])
    return at.lost(node, f"{node.name} reads a text, which a module of a cell cannot")


def dot_prod(at: Rendering, node: Call) -> str:
    """DotProd of two pos."""
    left, right = (parts_of(at, it, "pos") for it in values_of(node.arguments)[:2])
    return "(" + "+".join(f"({a})*({b})" for a, b in zip(left, right)) + ")"


def vect_magn(at: Rendering, node: Call) -> str:
    """VectMagn of a pos."""
    parts = parts_of(at, values_of(node.arguments)[0], "pos")
    return f"{at.need('abb_Sqrt')}({'+'.join(f'({it})*({it})' for it in parts)})"


def read_text(at: Rendering, node: Call) -> str:
    """ReadStr, ReadStrBin: the next of the texts that the script gives."""
    at.note(TO_DECIDE, node, f"{at.source(node)}: the script gives what is read, in texts_{at.job.task.short}")
    return f"{at.need('abb_text')}({quoted(node.name)})"


def read_number(at: Rendering, node: Call) -> str:
    """ReadNum, ReadBin: the next of the answers that the script gives."""
    at.note(TO_DECIDE, node, f"{at.source(node)}: the script gives what is read, in answers_{at.job.task.short}")
    return f"{at.need('abb_answer')}({quoted(node.name)})"


def state(text: str) -> Callable[[Rendering, Call], str]:
    """A function of the controller's state: what it gives while a program runs in automatic mode."""
    return lambda at, node: text


def own_task(at: Rendering, node: Call) -> str:
    return quoted(at.job.task.name)


def predefined(at: Rendering, node: Name) -> str:
    return at.source(node) if not node.parts or node.name.lower() in KEPT_DATA else at.lost(node, f"a part of {node.name}")


def number(text: str) -> Callable[[Rendering, Name], str]:
    return lambda at, node: text


KEPT_DATA = [f"v{it}" for it in (5, 10, 20, 30, 40, 50, 60, 80, 100, 150, 200, 300, 400, 500, 600, 800, 1000, 1500, 2000, 2500, 3000, 4000, 5000, 6000, 7000)]
KEPT_DATA += ["vmax", "low", "high", "fine", "tool0", "wobj0"]
# Constants of RAPID that are numbers: buttons, icons, results, modes.
NUMBERS = {
    "btnnone": 0, "btnok": 1, "btnabrtrtryign": 2, "btnokcancel": 3, "btnretrycancel": 4, "btnyesno": 5, "btnyesnocancel": 6,
    "iconnone": 0, "iconinfo": 1, "iconwarning": 2, "iconerror": 3,
    "resunkwn": 0, "resok": 1, "resabort": 2, "rescancel": 3, "resretry": 4, "resignore": 5, "resyes": 6, "resno": 7,
    "op_undef": 0, "op_auto": 1, "op_man_prog": 2, "op_man_test": 3,
    "run_undef": 0, "run_cont_cycle": 1, "run_instr_fwd": 2, "run_instr_bwd": 3, "run_sim": 4, "run_step_move": 5,
    "opadd": 1, "opsub": 2, "opmult": 3, "opdiv": 4, "opmod": 5, "lt": 1, "lteq": 2, "eq": 3, "noteq": 4, "gteq": 5, "gt": 6,
    "wait_max": 9999999,
}
FUNCTIONS.update({it: spliced for it in ("abs", "strlen", "testandset")})
FUNCTIONS["numtostr"] = spliced
FUNCTIONS["dnumtostr"] = lambda at, node: f"NumToStr({','.join(at.render(it) for it in values_of(node.arguments))})"
FUNCTIONS.update({it: of_library for it in LIBRARY})
FUNCTIONS.update({it: with_decimals for it in ("round", "trunc", "rounddnum", "truncdnum")})
FUNCTIONS.update({it: (lambda at, node: f"({at.render(values_of(node.arguments)[0])})") for it in SAME})
FUNCTIONS["absdnum"] = lambda at, node: f"Abs({at.render(values_of(node.arguments)[0])})"
FUNCTIONS.update({"valtostr": val_to_str, "dim": dim, "present": present, "gettaskname": own_task, "robname": own_task})
FUNCTIONS.update({it: constant_text for it in ("strpart", "strfind", "strmatch", "strtoval", "strmemb", "strmap", "strorder")})
FUNCTIONS.update({"opmode": state("1"), "runmode": state("1"), "robos": state("TRUE"), "isstopmoveact": state("FALSE"), "taskrunrob": state("TRUE")})
FUNCTIONS.update({"nonmotionmode": state("FALSE"), "taskrunmec": state("TRUE"), "cspeedoverride": state("100"), "pfrestart": state("FALSE")})
FUNCTIONS.update({"ismechunitactive": state("TRUE"), "execlevel": state("0"), "exechandler": state("0"), "eventtype": state("0")})
FUNCTIONS.update({it: state("TRUE") for it in ("taskisactive", "taskisexecuting", "modexist")})
FUNCTIONS.update({it: state("FALSE") for it in ("isstopstateevent", "ppmovedinmanmode", "isfile", "isleadthrough", "isbrakecheckactive")})
FUNCTIONS.update({"gettime": state("0"), "iounitstate": state("1"), "pathlevel": state("1"), "remainingretries": state("4"), "maxrobspeed": state("5000")})
FUNCTIONS.update({"getsysinfo": state('""'), "getuasusername": state('""'), "dotprod": dot_prod, "vectmagn": vect_magn})
FUNCTIONS.update({"readstr": read_text, "readstrbin": read_text, "readnum": read_number, "readbin": read_number})
DATA.update({it: predefined for it in KEPT_DATA})
DATA.update({name: number(str(it)) for name, it in NUMBERS.items()})
DATA.update({it: number('"%s:"' % it[4:].upper()) for it in ("diskhome", "diskram", "disktemp")})
DATA["stempty"] = number('""')
DATA["pi"] = number("3.142")
