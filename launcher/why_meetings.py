"""What a task waits for at a meeting: who has not come, and whom the lists of the tasks name."""
from typing import TYPE_CHECKING, Iterator, List

from .story import Stand, Story
from .tasks import Task, many

if TYPE_CHECKING:
    from .why_waits import Edges, Waits


def at_meeting(waits: "Waits", task: Task, edges: "Edges") -> Iterator[str]:
    """Who has come to a meeting, who has not, and the lists of those that did."""
    story, number = waits.story, waits.story.tasks.index(task)
    own = story.meetings[task.meeting, number]
    name, here = story.names["G"][task.meeting], []
    for k, other in enumerate(story.tasks):
        stand = story.meetings.get((task.meeting, k))
        if k == number or not own.listed >> k & 1:
            continue
        if stand and stand.arrivals > own.passed:
            here.append(other.name)
            continue
        came = f"came {many(stand.arrivals, 'time')}, and not this time" if stand and stand.arrivals else "has not come"
        yield f"{other.name} {came} to the meeting {name}; it {waits.how(other)}"
        if waits.is_stuck(other, task):
            edges[other.name] = f"{other.name}, which has not come to the meeting {name}"
    if here:
        yield f"already there: {', '.join(here)}"
    yield from differing(story, task.meeting, name)


def differing(story: Story, meeting: int, name: str) -> Iterator[str]:
    """The lists of the tasks that came to a meeting, if they do not name the same tasks, and how often each came."""
    stands = sorted((k, it) for (at, k), it in story.meetings.items() if at == meeting)
    if len({circle(k, it) for k, it in stands}) > 1:
        names = [it.name for it in story.tasks]
        lists = [f"{names[k]} waits with {listed(k, it, names)}" for k, it in stands]
        times = [f"{names[k]} {many(it.arrivals, 'time')}" for k, it in stands]
        yield f"the lists of {name} differ: {', '.join(lists)}; so far {', '.join(times)} there"


def circle(number: int, stand: Stand) -> int:
    """Whom a task waits with, itself among them, bit k for task k."""
    return stand.listed | 1 << number


def listed(number: int, stand: Stand, names: List[str]) -> str:
    """The others that a task waits with."""
    others = [it for k, it in enumerate(names) if k != number and stand.listed >> k & 1]
    if len(others) < 2:
        return f"{others[0]} alone" if others else "nobody"
    return f"{', '.join(others[:-1])} and {others[-1]}"
