"""The launcher follows the code of a task by a machine of its own. Here it is compared, on every example, with what the program prints:
the place of each event with `trace`, and data, persistents and the next request of each task with `state`, at four places of a run."""
import subprocess
import tempfile
from pathlib import Path

from .common import EXAMPLES, compare, program, text_of
from .spreadsheet import is_refused
from .whys import listing_of


def printed(*words):
    ran = subprocess.run([program().file, *words], stdin=subprocess.DEVNULL, stdout=subprocess.PIPE)
    return text_of(ran.stdout).splitlines()


def scripts():
    return [it.with_name("cell.toml") for it in sorted(EXAMPLES.rglob("round.txt")) if not is_refused(it)]


def story_of(script):
    from launcher.story import Story

    return Story(script, listing_of(script), lambda story, task: [])


def followed(script, lines):
    """The story after these lines of a history, and the last value of each persistent that they have."""
    story, values = story_of(script), {}
    for line in lines:
        story.line(line)
        keep(values, line)
    return story, values


def keep(values, line):
    _, _, kind, path, *rest = line.split(" ", 4) + ["", ""]
    if kind == "ReadP":
        values[path] = rest[0].partition("> ")[2]
    elif kind == "WriteP":
        values[path] = rest[0].rpartition(" > ")[0]
    elif kind == "TestSet":
        values[path] = "TRUE"
    if kind in ("ReadP", "WriteP", "TestSet") and "." in path:
        values[path.partition(".")[0]] = None


def data_lines(story):
    """The lines V and N of a state."""
    for task in story.tasks:
        machine = task.machine
        sorts = {(it.name.lower(), it.is_local): it.type.lower() for source in machine.code.sources for it in source.data}
        for room, held in zip(machine.slots, machine.modules):
            sort = next(sort for (name, _), sort in sorts.items() if name == room.name.lower())
            if not room.is_constant and sort != "syncident":
                yield f"V {task.name} {room.full_name} {value_text(held, sort)}"


def value_text(held, sort):
    from launcher.operations import shown_in_history

    if sort == "shapedata":
        return shape_text(held)
    return str(held) if sort in ("intnum", "wztemporary", "wzstationary") else shown_in_history(held)


def shape_text(held):
    from launcher.memory import Shape
    from launcher.script import degrees

    if not isinstance(held, Shape):
        return "-"
    bounds = [f"{degrees(held.bounds[k][0])}:{degrees(held.bounds[k][1])}" if k in held.bounds else "-" for k in range(12)]
    return " ".join(["Inside" if held.is_inside else "Outside", *bounds])


def compare_state(what, story, values, state):
    compare(f"{what}: data", list(data_lines(story)), [it for it in state if it.startswith("V ")])
    for line in (it for it in state if it.startswith("P")):
        path, _, name, value = line.split(" ", 3)
        path += name[name.index("{") :] if "{" in name else ""
        if values.get(path) is not None:
            compare(f"{what}: {line}", values[path], value)
    for task, line in zip(story.tasks, [it for it in state if it.startswith("N ")]):
        _, name, words = line.split(" ", 2)
        looked, asked = task.machine.looked, task.machine.asked
        place = "- -" if looked < 0 else "{} {}:{}".format(*task.place(looked))
        wanted = f"{place} {'ended' if asked == 'nothing more' else asked}"
        compare(f"{what}: where {name} is", (name, words.startswith(wanted) if asked.endswith(" ") else words), (task.name, True if asked.endswith(" ") else wanted))


def try_places_by_trace():
    """Each event of each example has the place that `trace` gives it."""
    count = 0
    for script in scripts():
        story = story_of(script)
        for number, line in enumerate(it for it in printed("trace", script) if it.startswith("M ")):
            traced = story.reader.read(line)
            found = story.placed(traced._replace(place=None))
            story.go_on(traced)
            if found.place != traced.place:
                compare(f"{script.parent.name}, event {number}", found.place, traced.place)
            count += 1
    compare("there are events", count > 10_000, True)


def try_states_by_machine():
    """After no event, a third, two thirds and all of them, data, persistents and requests are those of `state`."""
    with tempfile.TemporaryDirectory() as folder:
        file = Path(folder, "history.txt")
        for script in scripts():
            lines = [it for it in printed("--history", "round", script) if it.startswith("H ")]
            for count in sorted({0, len(lines) // 3, 2 * len(lines) // 3, len(lines)}):
                file.write_text("".join(f"{it}\n" for it in lines[:count]), encoding="utf-8")
                story, values = followed(script, lines[:count])
                compare_state(f"{script.parent.relative_to(EXAMPLES)} after {count} events", story, values, printed("state", script, file))
