"""Writes the script of a cell, and the task of its cross connections."""
import re
from typing import Dict, List, Mapping, Optional, Sequence, Set, Tuple

from .cfg import decoded
from .cross import bit_of, module_of, that_matter
from .model import Added, Backup, Converted, Cross, NotRead, Signal
from .report import TO_DECIDE, Report
from .signals import tell_system_uses

MOST_SIGNALS = 256
STEPS = 1_000_000
# The task of the cross connections, and the file of its module.
CROSS = "CROSS"
CROSS_FILE = "cross.mod"


def cell_files(
    backup: Backup, converted: Sequence[Converted], starts: Mapping[str, List[int]], title: str, add: Optional[bytes], report: Report
) -> Dict[str, bytes]:
    """The files of a cell besides its modules, by their names. `starts` has where the arms start, in thousandths, by the names of tasks;
    `title` names the reading of positions; `add` is the text of --add. NotRead where the modules name too many signals."""
    top, rest = parted(decoded(add) if add else "")
    used = {it.lower() for task in converted for it in task.signals} | named_in(rest, backup.signals)
    crosses = that_matter(backup.crosses, used)
    used |= {it.lower() for cross in crosses for it in names_of(cross)}
    tell_system_uses(backup.system, used, report)
    tell_both(rest, crosses, report)
    cross = module_of(crosses, backup.signals, report)
    signals = signals_of(backup, used, converted)
    kept = [it for it in signals if it[0].lower() not in signals_in(rest)]
    if len(kept) + len(signals_in(rest)) > MOST_SIGNALS:
        file = str(backup.folder / "SYSPAR/EIO.cfg")
        raise NotRead(file, 1, 1, f"the modules name {len(kept)} signals, groups bit by bit; a cell has at most {MOST_SIGNALS}")
    tasks = [task_table(it, starts) for it in converted]
    if cross:
        name = cross_name(converted)
        tasks.append(table("task", [("name", quoted(name)), ("modules", f"[{quoted(f'{name}/{CROSS_FILE}')}]")]))
    needs_two = len(tasks) > 8 or any(it.external_axes for it in converted)
    head = head_of(backup, title, top, 2 if needs_two else 1)
    parts = [head, *(signal_table(*it) for it in kept), *tasks]
    text = "\n".join(parts) + ("\n" + rest.strip("\n") + "\n" if rest.strip() else "")
    files = {"cell.toml": text.encode("utf-8", "replace")}
    if cross:
        files[f"{cross_name(converted)}/{CROSS_FILE}"] = cross.encode()
    return files


def head_of(backup: Backup, title: str, top: Mapping[str, str], version: int) -> str:
    keys = {"version": str(version), "steps": str(STEPS), **top}
    lines = [f"# {backup.folder.resolve().name}, by ./rapid_cell import. Positions: {title}."]
    return "\n".join(lines + [f"{key} = {value}" for key, value in keys.items()]) + "\n"


def parted(text: str) -> Tuple[Dict[str, str], str]:
    """The keys at the top of the text of --add, and the rest, from its first table or comment on."""
    top: Dict[str, str] = {}
    lines = text.replace("\r\n", "\n").split("\n")
    for n, line in enumerate(lines):
        key = re.match(r"\s*(\w+)\s*=\s*([^#]*?)\s*(#.*)?$", line)
        if not key or key.group(2).startswith("["):
            if line.strip() and not line.lstrip().startswith("#"):
                break
            continue
        top[key.group(1)] = key.group(2)
        lines[n] = ""
    return top, "\n".join(lines)


def tables_in(text: str, name: str) -> List[str]:
    """The bodies of the tables [[name]] of a text."""
    return [it.split("\n[", 1)[0] for it in re.split(rf"(?m)^\s*\[\[\s*{name}\s*\]\]", text)[1:]]


def signals_in(text: str) -> Set[str]:
    """The names of the signals that the text of --add declares, in small letters: these stand in place of the backup's."""
    found = (re.search(r'(?m)^\s*name\s*=\s*"([^"]*)"', it) for it in tables_in(text, "signal"))
    return {it.group(1).lower() for it in found if it}


def named_in(text: str, signals: Mapping[str, Signal]) -> Set[str]:
    """The signals of EIO.cfg that the text of --add names, a group by one of its bits."""
    words = {it.lower() for it in re.findall(r'"([^"\n]*)"', text)}
    return {name for name in signals if name in words or any(bit_of(signals[name], bit).lower() in words for bit in range(signals[name].bits))}


def names_of(cross: Cross) -> List[str]:
    return [cross.result, *(it.signal for it in cross.actors)]


def tell_both(text: str, crosses: Sequence[Cross], report: Report) -> None:
    """Tells of the inputs of --add whose signal a cross connection sets: no input can."""
    named = {it.lower() for body in tables_in(text, "input") for it in re.findall(r'(?m)^\s*signal\s*=\s*"([^"]*)"', body)}
    for it in crosses:
        if it.result.lower() in named:
            report.add(TO_DECIDE, "", it.file, it.line, f"{it.result} is set by a cross connection, and by an input of --add: leave out one")


def signals_of(backup: Backup, used: Set[str], converted: Sequence[Converted]) -> List[Tuple[str, str, int]]:
    """Name, kind and first value of each signal of the cell: those of EIO.cfg in its order, then those that were added."""
    found: List[Tuple[str, str, int]] = []
    for name, it in backup.signals.items():
        if name in used and it.kind[0] != "A":
            kind = "do" if it.kind[1] == "O" or it.is_crossed else "di"
            found += [(bit_of(it, bit), kind, it.start >> bit & 1) for bit in range(it.bits)]
    added: Dict[str, Added] = {it.name.lower(): it for task in converted for it in task.added}
    return found + [(it.name, it.kind, it.start) for it in added.values()]


def task_table(it: Converted, starts: Mapping[str, List[int]]) -> str:
    names = ", ".join(quoted(f"{it.task.name}/{name}") for name, _ in it.modules)
    keys = [("name", quoted(it.task.name)), ("modules", f"[{names}]")]
    if it.task.has_arm:
        axes = 6 + it.external_axes
        start = (starts.get(it.task.name, []) + [0] * axes)[:axes]
        keys.append(("arm", str(start)))
    return table("task", keys)


def signal_table(name: str, kind: str, start: int) -> str:
    keys = [("name", quoted(name)), ("kind", quoted(kind))]
    return table("signal", keys + [("start", "1")] if start else keys)


def table(name: str, keys: Sequence[Tuple[str, str]]) -> str:
    return "\n".join([f"[[{name}]]", *(f"{key} = {value}" for key, value in keys)]) + "\n"


def quoted(text: str) -> str:
    """A text as TOML has it."""
    shown = "".join(f"\\u{ord(it):04x}" if ord(it) < 32 or ord(it) == 127 else "\\" + it if it in '"\\' else it for it in text)
    return f'"{shown}"'


def cross_name(converted: Sequence[Converted]) -> str:
    name = CROSS
    while any(it.task.name.upper() == name for it in converted):
        name += "_"
    return name
