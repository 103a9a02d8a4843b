"""A check of a cell, also with other texts than its files have, as an editor's or those with a fault left out."""
import os
import tempfile
from dataclasses import dataclass, replace
from pathlib import Path
from typing import Dict, Mapping, Optional, Tuple

from .program import Program, answer
from .refusals import Refusal, parse
from .texts import Cell, Module, read


@dataclass(frozen=True)
class Check:
    """What the program answered: its status, its lines on standard error, and the refusal among them."""

    status: int
    said: bytes
    refusal: Optional[Refusal]


def check(program: Program, cell: Cell, changed: Mapping[Path, bytes] = {}, seconds: float = 60) -> Check:
    """Checks a cell. `changed` has texts in place of those of files (resolved paths). OSError, TimeoutExpired."""
    if not changed:
        return made(program, cell.script, named(cell), seconds)
    with tempfile.TemporaryDirectory(prefix="rapid-cell-") as folder:
        script, names = copy(cell, changed, Path(folder))
        return made(program, script, {**names, **named(cell)}, seconds)


def named(cell: Cell) -> Dict[bytes, bytes]:
    """The name of the script, by that which the program is given."""
    return {b"./" + os.fsencode(cell.script.name): os.fsencode(cell.script)}


def made(program: Program, script: Path, names: Mapping[bytes, bytes], seconds: float) -> Check:
    """Checks a script. `names` has the names that files had before they were copied."""
    # A name that begins with a dash would be taken for an option.
    ran = answer(program, ["check", f"./{script.name}"], script.parent, seconds)
    refusal = parse(ran.err)
    if refusal and refusal.name in names:
        refusal = replace(refusal, name=names[refusal.name])
    return Check(ran.status, ran.err, refusal)


def copy(cell: Cell, changed: Mapping[Path, bytes], folder: Path) -> Tuple[Path, Dict[bytes, bytes]]:
    """Writes the cell with the changed texts below a folder, and returns its script's path, and the names that were changed.

    A module keeps its name: one that leads out of the script's folder (`..`) stays below `folder`, since the script lies deep enough.
    One that is a whole path gets another name; where the script spells it in an unusual way, the module is read where it lies.
    """
    steps = max([it.name.split("/").count("..") for it in cell.modules], default=0)
    home = folder.joinpath(*["down"] * steps, "cell")
    home.mkdir(parents=True)
    text = read(cell.script, changed)
    names: Dict[bytes, bytes] = {}
    for n, module in enumerate(cell.modules):
        name = module.name
        if os.path.isabs(name):
            name, spelled = f"whole/{n}.mod", os.fsencode(module.name)
            if b'"%s"' % spelled not in text and spelled not in names.values():
                continue
            text = text.replace(b'"%s"' % spelled, b'"%s"' % name.encode())
            names[name.encode()] = spelled
        put(home / name, module, changed)
    script = home / cell.script.name
    script.write_bytes(text)
    return script, names


def put(place: Path, module: Module, changed: Mapping[Path, bytes]) -> None:
    """Copies a module; one that cannot be read is left out, and the program reports it."""
    if place.exists():
        return
    try:
        text = read(module.file, changed)
    except OSError:
        return
    place.parent.mkdir(parents=True, exist_ok=True)
    place.write_bytes(text)
