"""Warnings about interrupts: orders and connections that raise an error, and TRAPs that never run again."""
from typing import Iterator, List, Optional, Tuple

from .lint_locks import own_ops
from .lint_places import Found, Step, Warning, at, reachable, routine_of
from .statements import FOR, WHILE
from .tasks import Task


def uses(found: Found, task: Task, what: str) -> List[Tuple[int, Step]]:
    """The interrupt statements of a kind, such as `Irq Delete`, with their places, in routines that the task can come to."""
    alive = reachable(task)
    name, _, args = what.partition(" ")
    steps = ((pc, found.step(task, pc)) for pc, op in found.ops(task, name) if not args or op.args == args)
    return [(pc, it) for pc, it in steps if it and it.routine in alive]


def slot_of(task: Task, pc: int) -> Optional[Tuple[str, int]]:
    """The variable of an interrupt statement, by its place. None for a parameter or an element of an array."""
    ops, span = task.code.ops, task.code.walk.spans[pc]
    if not span or any(it.name == "Index" for it in ops[span[0] : pc]):
        return None
    return next(((it.name, it.number()) for it in ops[span[0] : pc] if it.name in ("Slot", "Local")), None)


def name_of(task: Task, pc: int) -> str:
    slot = slot_of(task, pc)
    return task.code.slots[slot[1]].full_name if slot and slot[0] == "Slot" else "the interrupt"


def never_enabled(found: Found) -> Iterator[Warning]:
    for task in found.tasks:
        # One in a TRAP never runs while TRAPs are disabled.
        enables = [it for _, it in uses(found, task, "Irq Enable") if routine_of(task, it).kind != "TRAP"]
        for pc, step in uses(found, task, "Irq Disable"):
            if not any(it.routine != step.routine or it.pc > step.pc or shares_loop(it, step) for it in enables):
                where = "there is no IEnable" if not enables else "each IEnable stands before it"
                note = f"{where}: no TRAP of {task.name} runs any more, and what fires only fills the queue"
                yield Warning("NeverEnabled", "no IEnable comes after this IDisable", [at(task, pc)], [note])


def shares_loop(one: Step, other: Step) -> bool:
    return any(it in other.around for it in one.around if it.form in (WHILE, FOR))


def never_awake(found: Found) -> Iterator[Warning]:
    for task in found.tasks:
        others = [slot_of(task, pc) for what in ("Irq Watch", "Irq Delete") for pc, _ in uses(found, task, what)]
        connected = [slot_of(task, pc) for pc, _ in uses(found, task, "Connect")]
        for pc, _ in uses(found, task, "Irq Sleep"):
            slot = slot_of(task, pc)
            if slot in connected and slot not in others and None not in (slot, *others):
                says = f"no IWatch comes for {name_of(task, pc)}"
                yield Warning("NeverAwake", says, [at(task, pc)], ["from ISleep on what would fire is lost"])


def single_in_loops(found: Found) -> Iterator[Warning]:
    """An order in a loop, which comes a second time while the first one may stand."""
    for task in found.tasks:
        for pc, step in uses(found, task, "Order"):
            is_single = task.code.ops[pc].args.endswith("TRUE")
            if comes_again(found, task, pc, step) and not (is_single and waits_in_loop(task, step)):
                unless = ", unless the first one has fired by then" if is_single else ""
                notes = [
                    f"a second order of one interrupt is the error ERR_ALRDYCNT{unless}",
                    "write instead: the order before the loop, or IDelete and CONNECT in each turn",
                ]
                yield Warning("OrderInLoop", f"the order of {name_of(task, pc)} is given again in each turn", [at(task, pc)], notes)


def connected_in_loops(found: Found) -> Iterator[Warning]:
    for task in found.tasks:
        for pc, step in uses(found, task, "Connect"):
            if comes_again(found, task, pc, step):
                notes = ["CONNECT of an intnum that is connected is the error ERR_ALRDYCNT", "write instead: CONNECT before the loop"]
                yield Warning("ConnectInLoop", f"{name_of(task, pc)} is connected again in each turn", [at(task, pc)], notes)


def comes_again(found: Found, task: Task, pc: int, step: Step) -> bool:
    """Whether a statement of an interrupt is in a loop that does not end it, in a routine without an ERROR part."""
    is_caught = routine_of(task, step).error is not None
    return step.is_in_loop and not is_caught and slot_of(task, pc) is not None and not is_ended_in_loop(found, task, pc, step)


def is_ended_in_loop(found: Found, task: Task, pc: int, step: Step) -> bool:
    """Whether IDelete ends the same interrupt in the loop."""
    return any(slot_of(task, other) in (slot_of(task, pc), None) and shares_loop(it, step) for other, it in uses(found, task, "Irq Delete"))


def waits_in_loop(task: Task, step: Step) -> bool:
    """Whether something in the innermost loop lets the task wait."""
    inner = [it for it in step.around if it.form in (WHILE, FOR)][-1]
    walk = task.code.walk
    for pc, op in enumerate(task.code.ops):
        owner = walk.owners[pc]
        if op.name in ("Wait", "Call") and owner and owner.routine == step.routine and inner.start <= owner.first < inner.past:
            return True
    return False


def deleted_first(found: Found) -> Iterator[Warning]:
    """An IDelete in main before anything connects its interrupt."""
    for task in found.tasks:
        main = task.code.main()
        for pc, step in uses(found, task, "Irq Delete"):
            slot = slot_of(task, pc)
            if step.routine != main or step.around or routine_of(task, step).error is not None or not slot or slot[0] != "Slot":
                continue
            before = [it for it in found.steps[task.name].values() if it.routine == main and it.pc < step.pc]
            if not any(connects(task, k, slot) or task.code.ops[k].name == "Call" for it in before for k in own_ops(task, it.pc)):
                notes = [
                    "IDelete of an intnum that is not connected is the error ERR_UNKINO: only ABB's controller lets it pass",
                    "write instead: nothing; here each run begins without interrupts",
                ]
                yield Warning("DeletedFirst", f"{name_of(task, pc)} is not connected yet", [at(task, pc)], notes)


def connects(task: Task, pc: int, slot: Tuple[str, int]) -> bool:
    return task.code.ops[pc].name == "Connect" and slot_of(task, pc) == slot
