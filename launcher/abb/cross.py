"""Cross connections, of EIO.cfg and of the file of --cross: which matter to a cell, and the task that does what they say."""
from pathlib import Path
from typing import Dict, List, Set

from .cfg import Cfg, Row, read_cfg
from .model import Actor, Cross, NotRead, Signal, bit_name
from .report import LEFT_OUT, TO_DECIDE, Report

OPERATORS = ("AND", "OR")
# The most actors that a row has.
ACTORS = 5


def read_rows(cfg: Cfg, signals: Dict[str, Signal], is_given: bool = False) -> List[Cross]:
    """The cross connections of a configuration file. NotRead where a row lacks a part, or names a signal that is not there."""
    return [cross_of(cfg, row, signals, is_given) for row in cfg.rows("EIO_CROSS")]


def read_file(file: Path, signals: Dict[str, Signal]) -> List[Cross]:
    """The rows of the file of --cross. Where the backup has no signals, those that the rows name are added to `signals`."""
    cfg = read_cfg(file, needs_head=False)
    if not signals:
        for row in cfg.rows("EIO_CROSS"):
            result, *actors = [row.get("res", "lres"), *(row.get(f"act{n}", f"lact{n}") for n in range(1, ACTORS + 1))]
            for name in filter(None, actors):
                signals.setdefault(name.lower(), Signal(name, "DO", is_guessed=True))
            signals[result.lower()] = Signal(result, "DI", is_guessed=True)
    found = read_rows(cfg, signals, True)
    if not found:
        raise NotRead(str(file), 1, 1, "a section `EIO_CROSS:` with rows was expected")
    return found


def cross_of(cfg: Cfg, row: Row, signals: Dict[str, Signal], is_given: bool) -> Cross:
    result = known(cfg, row, row.get("res", "lres"), "-Res", signals)
    actors, operators = [], []
    for n in range(1, ACTORS + 1):
        name = row.get(f"act{n}", f"lact{n}")
        if n > 1 and not name:
            break
        if n > 1:
            operators.append(operator_of(cfg, row, n - 1))
        is_inverted = row.has(f"act{n}_invert") or row.has(f"lact{n}_invert")
        actors.append(Actor(known(cfg, row, name, f"-Act{n}", signals), is_inverted))
    return Cross(result, tuple(actors), tuple(operators), str(cfg.file), row.line, is_given)


def known(cfg: Cfg, row: Row, name: str, key: str, signals: Dict[str, Signal]) -> str:
    """The name of a signal as EIO.cfg spells it."""
    if not name:
        raise NotRead(str(cfg.file), row.line, 1, f"`{key}` with a signal was expected in the row of a cross connection")
    if name.lower() not in signals:
        raise NotRead(str(cfg.file), row.line, 1, f"there is no signal {name} for `{key}`")
    return signals[name.lower()].name


def operator_of(cfg: Cfg, row: Row, n: int) -> str:
    operator = row.get(f"oper{n}").upper()
    if operator not in OPERATORS:
        raise NotRead(str(cfg.file), row.line, 1, f"`-Oper{n}` should be AND or OR")
    return operator


def that_matter(crosses: List[Cross], used: Set[str]) -> List[Cross]:
    """The cross connections of --cross, and those whose result is used (names in small letters), or is an actor of one that matters."""
    wanted = set(used)
    while True:
        found = [it for it in crosses if it.is_given or it.result.lower() in wanted]
        actors = {actor.signal.lower() for it in found for actor in it.actors}
        if actors <= wanted:
            return found
        wanted |= actors


def module_of(crosses: List[Cross], signals: Dict[str, Signal], report: Report) -> str:
    """The text of the module that sets each result that differs, and then waits until one differs; empty where there is nothing to set."""
    rules = [rule for it in crosses for rule in rules_of(it, signals, report)]
    if not rules:
        return ""
    lines = ["MODULE cross", "  ! What the cross connections say: each result that differs is set, then the task waits until one differs."]
    lines += ["  PROC main()", "    WHILE TRUE DO"]
    lines += [f"      IF ({result}=1)<>({value}) SetDO {result},1-{result};" for result, value in rules]
    lines += ["      WaitUntil " + "\n        OR ".join(f"({result}=1)<>({value})" for result, value in rules) + ";"]
    return "\n".join([*lines, "    ENDWHILE", "  ENDPROC", "ENDMODULE", ""])


def rules_of(it: Cross, signals: Dict[str, Signal], report: Report) -> List[List[str]]:
    """For each bit of a result its name and the condition by which it is 1."""
    result = signals[it.result.lower()]
    widths = {signals[actor.signal.lower()].bits for actor in it.actors} | {result.bits}
    if result.kind in ("GI", "AI", "AO") or any(signals[actor.signal.lower()].kind[0] == "A" for actor in it.actors) or len(widths) > 1:
        report.add(LEFT_OUT, "", Path(it.file).name, it.line, f"the cross connection of {it.result}: only digital signals, and groups of one width")
        return []
    if len(set(it.operators)) > 1:
        report.add(TO_DECIDE, "", Path(it.file).name, it.line, f"{it.result} has AND and OR: here AND comes first")
    return [[bit_of(result, bit), condition(it, signals, bit)] for bit in range(result.bits)]


def condition(it: Cross, signals: Dict[str, Signal], bit: int) -> str:
    text = ""
    for operator, actor in zip(("", *it.operators), it.actors):
        name = bit_of(signals[actor.signal.lower()], bit)
        text += (f" {operator} " if operator else "") + f"{name}={0 if actor.is_inverted else 1}"
    return text


def bit_of(signal: Signal, bit: int) -> str:
    """The name in the cell of a signal, or of a bit of a group."""
    return bit_name(signal.name, bit) if signal.kind[0] == "G" else signal.name
