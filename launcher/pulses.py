"""For how long signals had a value, and where the tasks were meanwhile: what a task that waits may have missed."""
from typing import Dict, NamedTuple, Optional, Sequence, Tuple

from .history import Event
from .tasks import Task

# The places in the code of the statements that the tasks had begun last, by their names.
Places = Dict[str, int]


class Pulse(NamedTuple):
    """The time in which a signal had a value: the events that began and ended it, and where the tasks were then."""

    start: int
    past: int
    began: Places
    ended: Places


class Pulses:
    """`last` has the last time that is over of each signal and value."""

    def __init__(self) -> None:
        self.last: Dict[Tuple[int, int], Pulse] = {}
        self.open: Dict[int, Tuple[int, Places]] = {}
        # The last event by which a task read a value of a signal.
        self.seen: Dict[Tuple[str, int, int], int] = {}

    def take(self, event: Event, number: int) -> None:
        if event.kind == "ReadS":
            self.seen[event.actor, int(event.request.split("D")[1]), int(event.answer)] = number

    def change(self, signal: int, value: int, number: int, tasks: Sequence[Task]) -> None:
        """A signal gets another value by an event."""
        now = {it.name: it.machine.looked for it in tasks}
        if signal in self.open:
            start, began = self.open[signal]
            self.last[signal, 1 - value] = Pulse(start, number, began, now)
        self.open[signal] = number, now

    def missed(self, task: Task, signal: int, value: int) -> Optional[Pulse]:
        """The last time in which a signal had a value, if the task did not look then."""
        pulse = self.last.get((signal, value))
        if pulse is None or self.seen.get((task.name, signal, value), -1) > pulse.start:
            return None
        return pulse


def missed_text(task: Task, name: str, value: int, pulse: Pulse) -> str:
    began, ended = pulse.began[task.name], pulse.ended[task.name]
    when = f"{name} was {value} from event {pulse.start} to {pulse.past}"
    if began < 0:
        return f"{when}, while {task.name} had not begun"
    where = task.where(began)
    if ended != began and task.where(ended) != where:
        return f"{when}, while {task.name} went from {where} to {task.where(ended)}, and did not look"
    return f"{when}, while {task.name} was at {where}: {task.line(began)}"
