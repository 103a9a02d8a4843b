"""Why a script is refused, and what to write instead."""
import re
from typing import Dict, List, Optional

from . import actions, tables, toml_places
from .places import COMMAND
from .refusals import Refusal
from .texts import Cell

# The table of the keys of each array of tables.
TABLES = {"signal": "Key of a signal", "task": "Key of a task", "pers": "Key of a persistent's value", "zone": "Key of a zone"}
TABLES["input"] = "Key of an input"
SEE = f"see {COMMAND} explain {{0}}"


def of(refusal: Refusal, cell: Cell) -> List[str]:
    """The text beside the caret, and the notes below."""
    row = row_of(refusal)
    if row is None:
        return [refusal.rule]
    if refusal.rule == "NotToml":
        return [row.get("Cause"), SEE.format(refusal.rule)]
    cause, known = row.get("Cause"), of_key(refusal)
    # The first part of a cause is the rule; the others are exceptions, and what the key takes says more, except of names.
    label = re.split(r"[;.] ", cause)[0]
    is_whole = label == cause or (known and refusal.rule != "Name")
    notes = [*([] if is_whole else [cause]), *known, *of_name(refusal, cell), *of_version(refusal, cell)]
    # What a key takes says more than the example of another key.
    if not known or refusal.rule in ("Twice", "NoSuch", "Pair"):
        notes.append(f"write instead: {row.get('Write instead')}")
    return [label, *notes, SEE.format(refusal.rule)]


def row_of(refusal: Refusal) -> Optional[tables.Row]:
    rows = [it for it in tables.rows() if tables.plain(it.cells[0][1]) == refusal.rule and it.place.startswith("docs/CELL_SCRIPT.md")]
    is_value = re.fullmatch(r"pers\[\d+\]", refusal.key)
    later = [it for it in rows if it.place.endswith("Values of persistents")]
    return later[0] if later and is_value else rows[0] if rows else None


def keys_of(key: str) -> Dict[str, str]:
    """The keys that may stand beside a key, with what they take."""
    path = re.findall(r"[^.\[\]]+", key)
    head = TABLES.get(path[0], "Key") if len(path) > 2 or (len(path) == 2 and path[1].isdigit()) else "Key"
    return {name: value for row in tables.rows() if row.cells[0][0] == head for name, value in cells_of(row)}


def cells_of(row: tables.Row) -> List[List[str]]:
    return [[name, row.cells[1][1]] for name in tables.codes(row.cells[0][1])]


def of_key(refusal: Refusal) -> List[str]:
    """What the key takes, or which key was perhaps meant."""
    known = keys_of(refusal.key)
    name = re.findall(r"[^.\[\]]+", refusal.key)[-1]
    if refusal.rule == "UnknownKey":
        near = actions.nearest(name, known)
        return [f"did you mean `{near}`?" if near else "the keys here are " + ", ".join(f"`{it}`" for it in known)]
    return [f"`{name}` is {known[name]}"] if name in known else []


def of_name(refusal: Refusal, cell: Cell) -> List[str]:
    """The name of a task or a signal that was perhaps meant."""
    if refusal.rule != "NoSuch":
        return []
    keys = list(toml_places.keys_of(cell.text))
    path = tuple(re.findall(r"[^.\[\]]+", refusal.key))
    given = next((it.strings[0] for it in keys if it.path == path and it.strings), None)
    kind = "task" if path[-1] == "task" else "signal"
    names = [it.strings[0] for it in keys if len(it.path) == 3 and it.path[::2] == (kind, "name") and it.strings]
    near = actions.nearest(given, names) if given else None
    if near and given and near.lower() != given.lower():
        return [f"did you mean `{near}`?"]
    return [f"the script's {kind}s are {', '.join(names)}" if names else f"the script has no {kind}"]


def of_version(refusal: Refusal, cell: Cell) -> List[str]:
    """That a script of version 1 has more axes or tasks than that version allows, and not more than the next one does."""
    keys = {it.path: it for it in toml_places.keys_of(cell.text)}
    version = keys.get(("version",))
    if refusal.rule != "Range" or not version or version.value != 1:
        return []
    arm = keys.get(tuple(re.findall(r"[^.\[\]]+", refusal.key)))
    tasks = len({path[1] for path in keys if len(path) > 1 and path[0] == "task"})
    axes = len(arm.value) if arm and isinstance(arm.value, list) else 0
    is_later = refusal.key.endswith(".arm") and 6 < axes <= 12 or refusal.key == "task" and 8 < tasks <= 16
    return ["write instead: `version = 2`, which allows up to twelve axes and 16 tasks"] if is_later else []
