"""`why`, on cells that end badly in each way. The cells and what is said of them are in endings/: the answers were worked out by hand,
from the rules of the language. `why` over every example is only started."""
import os
import re
import subprocess
import tempfile
from pathlib import Path

from .cells import document_cases
from .common import EXAMPLES, TOP, ask, compare, options, program, text_of
from .covers import TRACED, traced
from .spreadsheet import is_refused

ENDINGS = Path(__file__).resolve().parent / "endings"
PART = re.compile(r"^--- (\S+)\n", re.M)
PLACE = re.compile(r" +--> (?:.*/)?([^/]+):(\d+:\d+)")
MARK = re.compile(r" +\| +\^+ ?(.*)")
NOTE = re.compile(r" +(=?) +(.*)")
STEPS = re.compile(r" +([\d,]+)  (line .*)")
# What the documents say of each fault.
OF_DOCUMENTS = re.compile(r"\w+ means: |write instead: ")


def parts_of(file):
    """The files of a cell, and the answer to `why` of it."""
    _, *parts = PART.split(file.read_text(encoding="utf-8"))
    files = dict(zip(parts[::2], parts[1::2]))
    return files, files.pop("why")


def started(story):
    """What `why` prints of a cell whose run it has read."""
    from launcher.why import lines_of

    return list(lines_of(story, False))


def story_of(script, action):
    """A run that is read: with the places of its statements, if the program traces it."""
    from launcher.events import Run, read_events
    from launcher.story import Story
    from launcher.why_faults import notes_of

    story = Story(script, listing_of(script), notes_of)
    read_events(program(), os.fsencode(script), Run(action.encode()), story.take)
    return story


def listing_of(script):
    from launcher.listing import Listing

    return Listing(printed(program().file, "list", script))


def printed(*words):
    ran = subprocess.run(words, stdin=subprocess.DEVNULL, stdout=subprocess.PIPE)
    return text_of(ran.stdout).splitlines()


def bare(lines):
    """The answer without its layout, and without what it repeats of the documents and of the text of the modules."""
    found, is_note = [], False
    for line in lines:
        place, mark, note, steps = PLACE.fullmatch(line), MARK.fullmatch(line), NOTE.fullmatch(line), STEPS.fullmatch(line)
        if place:
            found.append(f"{place[1]} {place[2]}")
        elif mark:
            found[-1] = f"{found[-1]} {mark[1]}".rstrip()
        elif steps:
            found.append(f"{steps[1]} {steps[2]}")
        elif note and note[1]:
            found.append(note[2])
        elif note and is_note and "|" not in line[:8]:
            found[-1] += f" {note[2]}"
        elif "|" not in line[:8]:
            found.append(line.strip())
        is_note = bool(note and (note[1] or is_note)) and not mark and not place
    return [it for it in found if not OF_DOCUMENTS.match(it)]


def try_whys():
    """Each ending, by turns, and, where that does not depend on their order, with threads."""
    files = sorted(ENDINGS.glob("*.txt"))
    for file in files:
        cell, wanted = parts_of(file)
        with tempfile.TemporaryDirectory() as folder:
            for name, text in cell.items():
                Path(folder, name).write_text(text, encoding="utf-8")
            script = Path(folder, "cell.toml")
            found = bare(started(story_of(script, "round")))
            compare(f"why {file.stem}", found, wanted.splitlines())
            if cell["cell.toml"].count("[[task]]") == 1 and "[[input]]" not in cell["cell.toml"]:
                compare(f"why --run {file.stem}", bare(started(story_of(script, "run"))), found)
    compare("there are endings", len(files) > 30, True)


def try_faults_have_endings():
    """Each fault is one of the endings."""
    from launcher.explain import cause_of

    text = (EXAMPLES.parent / "crates/rapid_model/src/fate.rt").read_text(encoding="utf-8")
    names = re.findall(r"^    ([A-Z]\w+)", text.partition("pub enum Fault {")[2].partition("\n}")[0], re.M)
    said = "".join(parts_of(it)[1] for it in ENDINGS.glob("*.txt"))
    compare("there are faults", len(names) > 15, True)
    for name in names:
        compare(f"an ending by {name}", (f"Fault {name}" in said, cause_of(name) != ""), (True, True))


def try_whys_of_examples():
    """The machine of each task asks what the history of each example has, and each end that is not good has a reason."""
    for file in sorted(EXAMPLES.rglob("round.txt")):
        if not is_refused(file):
            script = file.with_name("cell.toml")
            story = story_of(script, "round")
            lines = started(story)
            for task in story.tasks:
                what = f"why of {task.name} in {script.parent.relative_to(EXAMPLES)}"
                heads = (f"{task.name}: ", f"{task.name} is Done", f"{task.name} ended by")
                begun = [k for k, it in enumerate(lines) if it.startswith(heads)]
                compare(what, len(begun), 1)
                if task.fate.startswith(("Fault", "Held")):
                    notes = [it for it in bare(lines[begun[0] :])[2:] if it][:1]
                    compare(f"{what}, its reason", len(notes), 1)


def try_whys_of_documents():
    """The same for the cells of the documents, and for every form of the language."""
    with tempfile.TemporaryDirectory() as folder:
        scripts = sorted({case.script for case in document_cases(folder)}) + [TOP / "bench/every_form/cell.toml"]
        for script in scripts:
            story = story_of(script, "round")
            compare(f"why of {script.parent.name}", len(started(story)) >= len(story.tasks), True)
        compare("there are cells in documents", len(scripts) > 10, True)


def try_whys_of_traces():
    """The places of a trace are those of the statements that look, and a trace gives the same answer as a history."""
    from launcher.events import Run
    from launcher.story import Story
    from launcher.why import explained
    from launcher.why_faults import notes_of

    for cell in ("lists", "handler", "trap"):
        script = TRACED / cell / "cell.toml"
        answer = explained(program(), os.fsencode(script), script, Run(), False)
        by_history = Story(script, listing_of(script), notes_of)
        by_history.take(iter(printed(program().file, "round", script, "--history")))
        compare(f"why of the trace of {cell}", answer.out.decode().splitlines(), started(by_history))
        others = {" 5:5 Look": " 6:5 Look", " 7:1 Look": " 8:1 Look", " 10:5 Look": " 11:7 Look"}
        lines = [re.sub(r" \d+:\d+ Look", lambda it: others.get(it[0], it[0]), it) for it in traced(cell)]
        try:
            Story(script, listing_of(script), notes_of).take(iter(lines))
            compare(f"wrong places of {cell}", "taken", "refused")
        except ValueError:
            pass


def try_why_command():
    file = EXAMPLES / "worked/cells/deadlock/cell.toml"
    status, out, err = ask("--plain", *options, "why", file)
    compare("why", (status, out.splitlines() == started(story_of(file, "round")), err), (8, True, ""))
    compare("why --run", ask("--plain", *options, "why", "--run", file)[0], 8)
    status, out, err = ask("--plain", *options, "why", EXAMPLES / "faults/syntax/cell.toml")
    compare("why of a refused cell", (status, out, err.startswith("rapid_cell: module ")), (4, "", True))
    compare("why of no file", ask("--plain", *options, "why", EXAMPLES / "none.toml")[:2], (5, ""))
    for words in (("why",), ("why", "a", "b", "c"), ("why", "--run", "a", "b"), ("why", "/dev/null"), ("--lcov", "why", "a")):
        compare(f"{words}", ask(*words)[:2], (2, ""))
    full = os.open("/dev/full", os.O_WRONLY)
    compare("why to a full device", ask(*options, "why", file, before=lambda: os.dup2(full, 1))[:2], (6, ""))
    os.close(full)
