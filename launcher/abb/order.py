"""The order of modules: a constant has to be declared before its use, which a controller does not ask for."""
from typing import Dict, List, Set

from .rendering import Rendering
from .tree import Name
from .tree_items import Data
from .walking import nodes_in


def ordered(renderings: List[Rendering]) -> List[Rendering]:
    """The modules, those first whose constants others name."""
    needs = {at.module.lower(): needed(at) for at in renderings}
    found: List[Rendering] = []
    waiting = list(renderings)
    while waiting:
        done = {it.module.lower() for it in found}
        ready = next((it for it in waiting if needs[it.module.lower()] <= done), waiting[0])
        waiting.remove(ready)
        found.append(ready)
    return found


def needed(at: Rendering) -> Set[str]:
    """The other modules of which a module names constants."""
    names, own = at.job.names, at.module.lower()
    constants: Dict[str, str] = {
        name: names.homes[name].name.lower() for name, it in names.shared.items() if isinstance(it, Data) and it.kind == "CONST"
    }
    used = {it.name.lower() for item in at.text.tree.items for it in nodes_in(item) if isinstance(it, Name)}
    return {constants[it] for it in used if it in constants} - {own}
