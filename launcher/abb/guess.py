"""Signals that modules name and EIO.cfg does not have: their types by how they are used."""
from typing import Dict, Set, Tuple

from .expressions import options_of, values_of
from .job import Job
from .names import Text
from .tree import Argument, Call, Instruct, Name, Node
from .tree_items import Routine
from .tree import Text as Literal
from .walking import nodes_in

# Which argument of an instruction or a function is a signal, and of which type.
USES: Dict[str, Tuple[int, str]] = {
    **dict.fromkeys("waitdi isignaldi testdi dinput".split(), (0, "DI")),
    **dict.fromkeys("set reset setdo pulsedo invertdo waitdo isignaldo doutput".split(), (0, "DO")),
    **dict.fromkeys("waitgi ginput ginputdnum isignalgi".split(), (0, "GI")),
    **dict.fromkeys("setgo waitgo goutput goutputdnum isignalgo".split(), (0, "GO")),
    **dict.fromkeys("waitai ainput isignalai".split(), (0, "AI")),
    **dict.fromkeys("setao waitao aoutput isignalao".split(), (0, "AO")),
    **dict.fromkeys("searchl searchj searchc searchextj".split(), (0, "DI")),
    **dict.fromkeys("movejdo moveldo".split(), (4, "DO")),
    "movecdo": (5, "DO"),
}
OPTIONS = {"dop": "DO", "gop": "GO", "aop": "AO"}


def take_aliases(job: Job) -> None:
    """The names that AliasIO gives to signals, where each has one signal in the whole task."""
    found: Dict[str, Set[str]] = {}
    for node in job.names.instructions():
        if node.name.lower() == "aliasio":
            values = values_of(node.arguments)
            if len(values) == 2 and isinstance(values[1], Name) and isinstance(values[0], (Name, Literal)):
                signal = values[0].name if isinstance(values[0], Name) else values[0].value
                found.setdefault(values[1].name.lower(), set()).add(signal.lower())
    job.aliases = {alias: next(iter(signals)) for alias, signals in found.items() if len(signals) == 1}


def guess_signals(job: Job) -> None:
    for text in job.names.texts:
        for item in text.tree.items:
            own = own_names(item)
            for node in nodes_in(item):
                if isinstance(node, (Instruct, Call)):
                    guess_in(job, text, node, own)


def own_names(item: Node) -> Set[str]:
    if not isinstance(item, Routine):
        return set()
    return {it.name.lower() for it in (*item.parameters, *item.data)}


def guess_in(job: Job, text: Text, node: Node, own: Set[str]) -> None:
    assert isinstance(node, (Instruct, Call))
    found = USES.get(node.name.lower())
    if found and job.names.routine(text, node.name) is None:
        values = values_of(node.arguments)
        if found[0] < len(values):
            guess_name(job, text, values[found[0]], found[1], own)
    for option, argument in options_of(node.arguments).items():
        if option in OPTIONS and isinstance(argument, Argument) and argument.value is not None:
            guess_name(job, text, argument.value, OPTIONS[option], own)


def guess_name(job: Job, text: Text, node: Node, kind: str, own: Set[str]) -> None:
    if not isinstance(node, Name) or node.parts:
        return
    small = node.name.lower()
    small = job.aliases.get(small, small)
    if small not in own and small not in job.backup.signals and job.names.item(text, node.name) is None:
        job.guess(text, text.line_of(node.start), small if small in job.aliases.values() else node.name, kind)


def use_generated(job: Job, text: Text) -> None:
    """The signals that a generated module names, bits of groups among them: such a module is left as it is."""
    for item in text.tree.items:
        for node in nodes_in(item):
            if isinstance(node, Name) and job.names.item(text, node.name) is None and job.signal(node.name) is None:
                group, _, bit = node.name.rpartition("_")
                if bit.isdigit() and group:
                    job.signal(group)
