"""The conversion of a task: its modules, each line at its old number, and the generated module."""
from typing import List, Optional, Set, Tuple

from . import rules
from .declarations import declared
from .flow import ends
from .guess import guess_signals, take_aliases, use_generated
from .job import Job
from .library import MODULE, Library
from .model import Backup, Converted, Module, NotRead, Task
from .names import Names, Text
from .order import ordered
from .parser import parse_text
from .polling import write_changed
from .reading import Reading
from .rendering import Rendering
from .report import CHANGED, LEFT_OUT, NOT_KEPT, TO_DECIDE, Report
from .routines import routine
from .signal_rules import values_of_passed, write_supplied
from .tokens import decoded
from .tree import Number, Placeholder, Raise
from .tree_items import Alias, Data, Record, Routine
from .walking import nodes_in

GENERATED = "from_abb.sys"
assert rules.FILES


def read_texts(task: Task, report: Report) -> List[Text]:
    """The modules of a task that can be read. NotRead for a text that is no RAPID."""
    found = []
    for module in task.modules:
        if module.is_encrypted:
            report.add(NOT_KEPT, task.name, module.name, 0, "an encrypted module: nothing of it is known")
            continue
        text = read_text(module)
        if text is None:
            report.add(LEFT_OUT, task.name, module.name, 0, "an empty file")
        else:
            found.append(text)
    return found


def read_text(module: Module) -> Optional[Text]:
    characters, encoding = decoded(module.text)
    try:
        tree = parse_text(str(module.file), characters, encoding)
    except RecursionError:
        raise NotRead(str(module.file), 1, 1, "expected forms that are not so deep in one another") from None
    return Text(module.name, tree, characters, encoding) if tree else None


def convert(backup: Backup, task: Task, texts: List[Text], others: Set[str], reading: Reading, report: Report) -> Converted:
    """Converts the modules of a task. `others` are the names that other tasks write."""
    reading.task(task, [it.tree for it in texts])
    names = Names(texts)
    declared_names = [*names.shared, *(it for text in texts for it in text.own)]
    job = Job(backup, task, names, reading, report, Library(task, declared_names), others=others)
    job.raised = raised_numbers(texts)
    take_aliases(job)
    guess_signals(job)
    repeat_main(job)
    renderings = [Rendering(job, text) for text in texts]
    for at in renderings:
        if at.module.lower() == MODULE:
            use_generated(job, at.text)
        else:
            items(at)
    finish(job, renderings)
    return result(job, renderings)


def raised_numbers(texts: List[Text]) -> set:
    """The numbers that modules raise or declare for errors by themselves."""
    found = set()
    for text in texts:
        for item in text.tree.items:
            for node in nodes_in(item):
                if isinstance(node, Raise) or (isinstance(node, Data) and node.type.lower() == "errnum"):
                    if isinstance(node.value, Number) and node.value.text.isdigit():
                        found.add(int(node.value.text))
    return found


def repeat_main(job: Job) -> None:
    """The main of a background task that ends: a controller runs it again and again, so the generated module does."""
    main = job.names.shared.get("main")
    if job.is_converted or not job.task.is_background or not isinstance(main, Routine) or not ends(main):
        return
    job.repeated = main
    text = job.names.homes["main"]
    job.report.add(TO_DECIDE, job.task.name, text.name, text.line_of(main.start), "main is run again and again, as a background task does")


def items(at: Rendering) -> None:
    for item in at.text.tree.items:
        if isinstance(item, Data):
            declared(at, item)
        elif isinstance(item, Routine):
            routine(at, item)
        elif isinstance(item, (Record, Alias)):
            at.left_out(item, "its components are data of their own" if isinstance(item, Record) else "the type itself stands in its place")
        elif isinstance(item, Placeholder):
            at.left_out(item)


def finish(job: Job, renderings: List[Rendering]) -> None:
    """What the generated module gets when all modules are known."""
    at = renderings[0] if renderings else None
    if at and job.supplied:
        write_supplied(job, values_of_passed(at))
    if job.fires:
        cases = [f"  CASE {n + 1}:\n    {it}" for n, it in enumerate(job.triggers)]
        job.library.add("abb_trigger", "\n".join(["! What a trigger does.", "PROC abb_trigger(num trigger)", "  TEST trigger", *cases, "  ENDTEST", "ENDPROC"]))
    if job.is_polling:
        write_changed(job)
    enter(job)
    if job.repeated is not None and at:
        home = next(it for it in renderings if it.text is job.names.homes["main"])
        name = job.free("main_cycle")
        home.change(job.repeated.name_at, job.repeated.name_at + len("main"), name)
        home.note(CHANGED, job.repeated, f"PROC main -> PROC {name}")
        job.library.declared.discard("main")
        text = f"! A background task runs its main again and again.\nPROC main()\n  WHILE TRUE DO\n    {name};\n  ENDWHILE\nENDPROC"
        job.library.add("main", text)


def enter(job: Job) -> None:
    """The main of a task that SYS.cfg starts at another routine."""
    entry = job.task.entry
    if entry.lower() != "main" and isinstance(job.names.shared.get(entry.lower()), Routine) and "main" not in job.names.shared:
        job.library.add("main", f"PROC main()\n  {entry};\nENDPROC")


def result(job: Job, renderings: List[Rendering]) -> Converted:
    modules: List[Tuple[str, bytes]] = []
    for at in ordered(renderings):
        modules.append((at.text.file, at.result().encode(at.text.encoding, "replace")))
    if not job.is_converted:
        first = [f"What the modules of {job.task.name} need and a cell does not have. {job.reading.title}."]
        modules.insert(0, (GENERATED, job.library.text(first)))
    return Converted(job.task, modules, sorted(job.used), list(job.added.values()), job.reading.external_axes)
