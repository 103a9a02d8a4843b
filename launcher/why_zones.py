"""Why a zone stops an arm, or an output is not written."""
from typing import Iterator, List

from .arm_operations import axis_name
from .caught import START, Caught
from .replay import OwnZone
from .script import Axes, Shape, degrees, thousandths
from .story import Story
from .tasks import Task, many
from .touching import bounds_text, touch


def stopped(story: Story, task: Task) -> List[str]:
    """The notes of a ZoneStop: the zone, how the way touches it, and since when it is watched."""
    whose, number = task.last.answer.split()[1:]
    start, end = story.replay.at(task.name) or (), tuple(map(thousandths, task.last.request.split()[1:]))
    if whose == "Own":
        zone = story.replay.zones[task.name][int(number)]
        return [way(start, end, zone.shape, story.own_zone((story.tasks.index(task), int(number)))), *own(task, int(number), zone)]
    found = story.script.zones[int(number)]
    task.signal = found.signal
    return [way(start, end, found.shape, f"the zone `{found.name}` of the script"), watched(story, int(number))]


def way(start: Axes, end: Axes, shape: Shape, name: str) -> str:
    found = touch(start, end, shape)
    if found is None:
        at = ", ".join(f"{axis_name(it)} is at {degrees(start[it])}" for it in sorted(shape.bounds))
        return f"the arm is already in {name}: {at}; the zone is {bounds_text(shape)}"
    axis, bound, _ = found
    goes = f"{axis_name(axis)} would go from {degrees(start[axis])} to {degrees(end[axis])}"
    how = "comes to" if shape.is_inside else "passes"
    return f"{goes}, and {how} the bound {degrees(bound)} of {name}: {bounds_text(shape)}"


def own(task: Task, number: int, zone: OwnZone) -> List[str]:
    made = task.machine.zones[number]
    notes = [f"it was made at {task.where(made.pc)}: {task.line(made.pc)}"]
    if made.on is not None:
        notes.append(f"it was last enabled at {task.where(made.on)}: {task.line(made.on)}")
    return notes


def watched(story: Story, number: int) -> str:
    zone = story.script.zones[number]
    name, change = story.script.signals[zone.signal].name, story.signals.get(zone.signal)
    since = f"set so by {story.by(change)}" if change else "as it has been from the start"
    return f"it is watched while {name} is {zone.value}, {since}"


def tied(story: Story, task: Task) -> List[str]:
    """The notes of a TiedOutput: the zone that sets the output."""
    signal = int(task.last.request.split()[-2].lstrip("D"))
    for other in story.tasks:
        for number, zone in story.replay.zones[other.name].items():
            if zone.change and zone.change[0] == signal:
                made = other.machine.zones[number]
                whose = "of this task" if other is task else f"of {other.name}"
                name = story.script.signals[signal].name
                return [f"{name} is set by the zone `{made.name}` {whose}, made at {other.where(made.pc)}: {other.line(made.pc)}"]
    return []


def used(task: Task) -> List[str]:
    """The note of a ZoneUsed: the zone that the variable stands for."""
    made = task.machine.zones[int(task.last.request.split()[1])]
    return [f"it was made at {task.where(made.pc)}: {task.line(made.pc)}"]


def full(task: Task) -> List[str]:
    """The notes of a ZoneFull: the zones that there are."""
    found = [f"`{made.name}` (line {task.spot(made.pc).row})" for _, made in sorted(task.machine.zones.items())]
    return [f"the arm has ten zones, and WZFree is the only end of one: {', '.join(found)}"]


# Zones that became watched while an arm stood in them

# How many are shown.
MOST = 8


def all_caught(story: Story) -> Iterator[str]:
    """A head, and two lines for each."""
    found = story.watching.caught
    if found:
        yield "zones that became watched while an arm stood in them:"
    for it in found[:MOST]:
        yield f"  {caught(story, it)}"
        yield f"    {stood(story, it)}"
    if found[MOST:]:
        yield f"  and {many(len(found) - MOST, 'more time')}"


def caught(story: Story, it: Caught) -> str:
    """By what a zone became watched."""
    return f"{it.name}, from the start" if it.by == START else f"{it.name}, by {story.by(it.by)}"


def stood(story: Story, it: Caught) -> str:
    """Where the arm stood, and since when."""
    axes = ", ".join(f"{axis_name(axis)} at {degrees(it.at[axis])}" for axis in sorted(it.shape.bounds))
    since = "from the start" if it.since == START else f"since event {it.since.event}, {story.by(it.since).partition(', ')[2]}"
    return f"the arm of {story.tasks[it.task].name} stands there with {axes} ({bounds_text(it.shape)}), {since}"
