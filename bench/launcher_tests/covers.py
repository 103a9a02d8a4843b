"""`trace`, `cover`, and the places on the page of `show`, on the cells of traced/, whose traces were made by hand: each event of the
history with the place of the last look, as the text of the modules has it."""
import os
import re
import subprocess
import tempfile
from pathlib import Path

from .common import EXAMPLES, ask, compare, program, text_of
from .pages import browsed, has_node, page_of
from .spreadsheet import history_of

TRACED = Path(__file__).resolve().parent / "traced"
OLD = "#!/bin/sh\necho 'rapid_cell: words 0' >&2\nexit 2\n"
# How often each line ran, by hand.
COUNTS = {
    "the lists.mod": {5: 3, 6: 1, 10: 3, 11: 2, 12: 1, 14: 0, 16: 1, 19: 3, 20: 2, 22: 1, 24: 0, 27: 1, 29: 1, 30: 1, 32: 1, 33: 0, 38: 0},
    "main.mod": {4: 3, 5: 1, 7: 2, 8: 2, 9: 2},
    "fetch.mod": {5: 4, 6: 2},
    "b.mod": {3: 1, 4: 1, 5: 1, 7: 1},
    "a.mod": {4: 1, 7: 1, 8: 1, 9: 2, 10: 1},
}
# The ways out of each statement with lists: the line, and how often each list was entered, and then, if it may be, none of them.
BRANCHES = {
    "the lists.mod": [(5, [2, 1]), (10, [2, 1]), (11, [1, 0, 1]), (19, [2]), (22, [0, 1, 0]), (29, [0, 1]), (30, [None]), (32, [0])],
    "main.mod": [(7, [2, 0])],
    "fetch.mod": [(5, [2, 2])],
    "b.mod": [(4, [1, 0])],
    "a.mod": [],
}
TEXT = """the lists.mod: 13 of 17 lines, 9 of 14 branches
    14 never ran: n := 6;
    22 one of the CASEs of this TEST was taken each time
    24 never ran: TPWrite "one";
    29 the condition of this IF was never TRUE
    33 never ran: TPWrite "never";
    38 never ran: TPWrite "unused";
main.mod: 5 of 5 lines, 1 of 2 branches
     7 the condition of this IF was TRUE each time
fetch.mod: 2 of 2 lines, 2 of 2 branches
b.mod: 4 of 4 lines, 1 of 2 branches
     4 the condition of this IF was TRUE each time
a.mod: 5 of 5 lines, 0 of 0 branches
"""
LCOV = """TN:
SF:fetch.mod
BRDA:5,0,0,2
BRDA:5,0,1,2
BRF:2
BRH:2
DA:5,4
DA:6,2
LF:2
LH:2
end_of_record
"""


def old_program(folder):
    """A program without the action trace."""
    from launcher.program import Program

    file = Path(folder, "program")
    file.write_text(OLD)
    file.chmod(0o700)
    return Program(file, False)


def traced(cell):
    return (TRACED / cell / "trace.txt").read_text().splitlines()[1:]


def try_traces():
    """The program prints the traces that were made by hand. Without the places they are the lines of the runs' histories."""
    from launcher.script import parse
    from launcher.texts import read_cell
    from launcher.trace import Reader

    for cell in ("lists", "handler", "trap"):
        script = TRACED / cell / "cell.toml"
        reader = Reader(it.name for it in read_cell(script).modules)
        compare(f"tasks of {cell}", len(parse(script.read_bytes()).tasks) > 0, True)
        read = [reader.read(it) for it in traced(cell) if not it.startswith("E ")]
        found = [f"H {it.actor} {it.request} > {it.answer}" for it, _ in read]
        compare(f"history of {cell}", found, [it for it in history_of(script) if it.startswith("H ")])
        ran = subprocess.run([program().file, "trace", script], stdin=subprocess.DEVNULL, stdout=subprocess.PIPE)
        compare(f"trace of {cell}", text_of(ran.stdout).splitlines(), traced(cell))
        starts = [(it.actor, place) for it, place in read if it.kind == "Look"]
        compare(f"places of {cell}", None in [place for _, place in starts], False)


def try_covers():
    """The counts of lines and branches, those of a cell that runs twice, the text, and the file of lcov."""
    from launcher.cover import Cover

    with tempfile.TemporaryDirectory() as folder:
        found, covered, twice = program(), Cover(), Cover()
        for cell in ("lists", "handler", "trap"):
            script = TRACED / cell / "cell.toml"
            status = covered.run(found, os.fsencode(script), script).status
            compare(f"cover of {cell}", status, cell == "handler")
            for _ in range(2):
                twice.run(found, os.fsencode(script), script)
        for file, module in covered.modules.items():
            compare(f"counts of {file.name}", module.rows(), COUNTS[file.name])
            branches = [(module.source.row_of(it.start), [way.entered for way in ways]) for it, ways in module.branches()]
            compare(f"branches of {file.name}", branches, BRANCHES[file.name])
        for file, module in twice.modules.items():
            compare(f"counts of {file.name}, twice", module.rows(), {row: 2 * count for row, count in COUNTS[file.name].items()})
        compare("cover, its text", re.sub(r"^\S.*/", "", covered.text(), flags=re.M), TEXT)
        records = re.sub(r"^SF:.*/", "SF:", covered.lcov(), flags=re.M)
        compare("cover, its file of lcov", (LCOV in records, records.count("end_of_record")), (True, 5))
        for name, status in (("faults/no_name", 4), ("faults/syntax", 4), ("none", 5)):
            script = EXAMPLES / name / "cell.toml"
            compare(f"cover of {name}", covered.run(found, os.fsencode(script), script).status, status)
        old = old_program(folder)
        compare("cover by a program without trace", Cover().run(old, b"a", TRACED / "trap/cell.toml").status, 2)


def try_traced_pages():
    """The page shows the place of each event, the counts of the lines, and the next event of a line that is clicked."""
    if not has_node():
        return
    with tempfile.TemporaryDirectory() as folder:
        for cell in ("lists", "handler", "trap"):
            page, _ = page_of(folder, TRACED / cell / "cell.toml", started=program().file)
            each = 'Array.from({ length: page.run.count }, (_, k) => (press(k ? "ArrowRight" : "Home"), details()))'
            shown = 'page.run.cell.modules.map((it, k) => (page.texts.show(k, 1), [it.name, document.getElementById("lines").children.map((line) => line.children[1].textContent)]))'
            details, lines = browsed(page, each, shown)
            wanted = [it.split(" ", 2) for it in traced(cell) if it.startswith("M ")]
            for (_, task, words), detail in zip(wanted, details):
                said = detail["in the history"].split(" ", 2)[2]
                compare(f"page of {cell}, {words}", f"{detail.get('place', '- -')} {said}", words)
            for name, counts in lines:
                own = {k + 1: int(it) if it != "never" else 0 for k, it in enumerate(counts) if it}
                compare(f"page of {cell}, counts of {name}", own, COUNTS[name])
        page, _ = page_of(folder, TRACED / "trap/cell.toml", started=program().file)
        clicks = browsed(page, *['(page.texts.pick(9), page.picture.chosen)'] * 3, "page.picture.rows[1].errors.length", "page.texts.row")
        # Line 9 looks at events 4 and 12; event 8 is the TRAP's.
        compare("clicks on a line", clicks, [4, 12, 4, 0, 9])


def try_cover_words():
    for words in (("cover",), ("--lcov", "table", "a"), ("cover", "/dev/null")):
        compare(f"{words}", ask(*words)[:2], (2, ""))
