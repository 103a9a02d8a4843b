"""A plain replay of small cells: what each task asks, written by hand for each cell as a generator of requests that takes their answers,
and what the cell answers. Requests and answers are texts, as `--history` prints them. It knows nothing of the program."""
from collections import Counter
from dataclasses import dataclass, field

INPUTS = "-"


def look(traps=()):
    """A Look, and the TRAPs that it starts; how many changes by others it told."""
    while True:
        word, _, rest = (yield "Look").partition(" ")
        if word == "Go":
            return int(rest)
        yield from traps[int(rest.split()[1])]()
        yield "Leave"


def wait(is_met, traps=()):
    """A wait for what a generator finds."""
    while True:
        seen = yield from look(traps)
        if (yield from is_met()):
            return
        yield f"Hold {seen}"
        yield "Rise"


@dataclass
class Task:
    name: str
    # Makes the generator of its requests.
    asks: object
    # Where its arm is, as a history prints it.
    arm: str = ""


@dataclass
class Input:
    signal: str
    value: str
    # The gate: a function of the replay.
    gate: object = lambda replay: True


@dataclass
class Cell:
    title: str
    script: str
    modules: dict
    tasks: list
    stored: dict = field(default_factory=dict)  # persistents and signals by name, with their first values
    inputs: list = field(default_factory=list)
    steps: int = 100_000
    blocked: dict = field(default_factory=dict)  # the answers of setpoints that are not given
    # The texts that a request or an answer of the cell may be changed to, beside those of its history.
    requests: tuple = ()
    answers: tuple = ()


class Actor:
    """A task, or the input script, after its events so far."""

    def __init__(self, asks, arm=""):
        self.asks, self.arm = asks, arm
        self.next = next(asks, None)
        self.fate = None
        self.made = self.seen = self.given = 0

    def take(self, request, answer):
        if request.startswith("End "):
            self.fate, self.next = request[4:], None
            return
        try:
            self.next = self.asks.send(answer)
        except StopIteration:
            self.next = None


class Replay:
    """A cell after some events. `orders` has the orders of each task: interrupt, routine, what it watches, and the signal's value."""

    def __init__(self, cell):
        self.cell = cell
        self.actors = {task.name: Actor(task.asks(), task.arm) for task in cell.tasks}
        self.actors[INPUTS] = Actor(f"Input {k}" for k in range(len(cell.inputs)))
        self.stored = dict(cell.stored)
        self.changes = self.counted = 0
        self.connected, self.orders, self.due, self.trapped = {}, {}, {}, set()
        # How often each task went on at each meeting, and which tasks wait at which.
        self.passed, self.waiting = Counter(), set()

    # What is wrong.

    def wrong(self, name, request, answer):
        """What is wrong with an event that comes next, or None; it is taken if nothing is."""
        actor = self.actors[name]
        if actor.next is None:
            return "ended"
        if actor.next != request:
            return f"asks {actor.next}"
        if not self.can_be_served(request):
            return "spent"
        if not self.is_enabled(name, request):
            return "waits"
        due = self.answer(name, request)
        if due != answer:
            return f"answers {due}"
        self.take(name, request, answer)
        return None

    def is_whole(self):
        return not any(
            actor.next is not None and self.can_be_served(actor.next) and self.is_enabled(name, actor.next)
            for name, actor in self.actors.items()
        )

    def fate(self, name):
        return self.actors[name].fate or ("Cut" if self.counted >= self.cell.steps else "Held")

    # What the cell answers.

    def can_be_served(self, request):
        return request.split()[0] in ("End", "Input") or self.counted < self.cell.steps

    def others(self, name):
        return self.changes - self.actors[name].made

    def is_due(self, name):
        return bool(self.due.get(name)) and name not in self.trapped

    def is_enabled(self, name, request):
        if request == "Rise":
            return self.others(name) > self.actors[name].seen or self.is_due(name)
        if request.startswith("Input "):
            tasks = [self.actors[task.name] for task in self.cell.tasks]
            running = any(task.fate is None for task in tasks)
            gate = self.cell.inputs[int(request[6:])].gate
            return gate(self) and running and self.counted < self.cell.steps
        return True

    def answer(self, name, request):
        word, _, rest = request.partition(" ")
        if word == "Look":
            if self.is_due(name):
                number = self.due[name][0]
                return f"Trap {number} {self.connected[name][number]}"
            return f"Go {self.others(name)}"
        if word in ("ReadP", "ReadS"):
            return self.stored[rest]
        if word == "TestSet":
            return "TRUE" if self.stored[rest] == "FALSE" else "FALSE"
        if word == "Position":
            return self.actors[name].arm
        if word == "Setpoint":
            return self.cell.blocked.get(rest, "Given")
        if word == "Connect":
            return f"Number {len(self.connected.get(name, {})) + 1}"
        if word == "Arrive":
            return "Met" if self.meets(name, *(int(it) for it in rest.split())) else "Apart"
        return "Ok"

    def meets(self, name, meeting, tasks):
        """Each listed task has come to the meeting more often than this one went on from it."""
        listed = [task.name for k, task in enumerate(self.cell.tasks) if tasks >> k & 1 and task.name != name]
        came = (self.passed[it, meeting] + ((it, meeting) in self.waiting) for it in listed)
        return all(count > self.passed[name, meeting] for count in came)

    # What an event does.

    def take(self, name, request, answer):
        word, _, rest = request.partition(" ")
        actor = self.actors[name]
        self.counted += word not in ("End", "Input")
        if word == "WriteP" or word == "WriteS":
            self.store(name, *rest.split(" ", 1))
        elif word == "TestSet":
            self.store(name, rest, "TRUE")
        elif word == "Input":
            row = self.cell.inputs[int(rest)]
            self.store(name, row.signal, row.value)
        elif word == "Hold":
            actor.seen = int(rest)
        elif word == "Setpoint" and answer == "Given":
            actor.arm, actor.given = rest, actor.given + 1
        elif word == "Connect":
            self.connected.setdefault(name, {})[int(answer.split()[1])] = int(rest.split()[1])
        elif word == "Order":
            self.orders.setdefault(name, []).append(rest.split()[:3])
        elif word == "Look" and answer.startswith("Trap "):
            self.due[name].pop(0)
            self.trapped.add(name)
        elif word == "Leave":
            self.trapped.discard(name)
        elif word == "Arrive":
            self.arrive(name, int(rest.split()[0]), answer)
        actor.take(request, answer)

    def store(self, name, what, value):
        """A persistent or a signal gets a value; if it is another one, that is a change, and orders on it fire."""
        if self.stored[what] == value:
            return
        self.stored[what] = value
        self.changed(name)
        for task, orders in self.orders.items():
            for number, watched, *of in orders:
                if watched == what and of in ([], [value]):
                    self.due.setdefault(task, []).append(int(number))

    def changed(self, name):
        self.changes += 1
        self.actors[name].made += 1

    def arrive(self, name, meeting, answer):
        """A task comes to a meeting, which is a change unless it waits there, and stays or goes on."""
        if (name, meeting) not in self.waiting:
            self.changed(name)
        self.waiting.add((name, meeting))
        if answer == "Met":
            self.waiting.remove((name, meeting))
            self.passed[name, meeting] += 1
