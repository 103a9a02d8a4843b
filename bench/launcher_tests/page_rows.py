"""The rows of a page of `show`: which stay, which are folded, which the reader chooses; where all tasks are at an event; what the page
says of the ends; and two histories side by side."""
import base64
import hashlib
import re
import tempfile
from pathlib import Path

from .common import EXAMPLES, ask, compare, options
from .pages import browsed, has_node, page_of
from .second_machine import printed
from .whys import ENDINGS, bare, parts_of

PRESS, TABLE = EXAMPLES / "press_cell/cell.toml", EXAMPLES / "shared_table/cell.toml"
LABELS = "page.picture.rows.map((it) => it.label)"
# An input and two outputs of which only one changes, and a zone of the arm.
CELL = """version = 1
[[signal]]
name = "di_never"
kind = "di"
[[signal]]
name = "do_never"
kind = "do"
start = 1
[[signal]]
name = "do_once"
kind = "do"
[[task]]
name = "A"
modules = ["a.mod"]
arm = [0, 0, 0, 0, 0, 0]
"""
MODULE = """MODULE A
  PERS num kept := 7;
  VAR shapedata shape;
  VAR wztemporary keep_out;
  VAR intnum once_seen;
  VAR num got;
  TRAP seen
  ENDTRAP
  PROC main()
    CONNECT once_seen WITH seen;
    ISignalDO do_once, 1, once_seen;
    ISleep once_seen;
    got := kept;
    WZLimJointDef \\Inside, shape, [[20,9E9,9E9,9E9,9E9,9E9],[9E9,9E9,9E9,9E9,9E9,9E9]], [[30,9E9,9E9,9E9,9E9,9E9],[9E9,9E9,9E9,9E9,9E9,9E9]];
    WZLimSup \\Temp, keep_out, shape;
    IWatch once_seen;
    IDisable;
    Set do_once;
    IDelete once_seen;
  ENDPROC
ENDMODULE
"""


def own_page(folder):
    Path(folder, "a.mod").write_text(MODULE)
    script = Path(folder, "cell.toml")
    script.write_text(CELL)
    return page_of(folder, script)[0]


def try_rows_that_stay():
    """The ruler and the lanes are drawn at the same place when the picture is scrolled, and a click there finds them."""
    if not has_node():
        return
    with tempfile.TemporaryDirectory() as folder:
        page, _ = page_of(folder, PRESS)
        lanes = '["ROB1", "ROB2", "SUP"].map((name) => drawn().texts.filter((it) => it[0] === name).map((it) => it[2]))'
        scrolled = f'(document.getElementById("scroll").scrollTop = 150, page.draw(), [page.picture.fixed, {lanes}])'
        wanted = [130, [[34], [70], [106]]]
        compare("rows that stay", browsed(page, f"[page.picture.fixed, {lanes}]", scrolled), [wanted, wanted])
        click = '(document.getElementById("scroll").scrollTop = 150, click(page.picture.view.x(0.5), 150 + 30), page.run.actor(page.picture.chosen))'
        compare("a click on a lane that stays", browsed(page, click), ["ROB1"])


def try_folded_rows():
    """What never changes shares a line of its group; a zone has its variable's name; the course of an interrupt is a row."""
    if not has_node():
        return
    with tempfile.TemporaryDirectory() as folder:
        page = own_page(folder)
        labels, still, zone, course = browsed(
            page, LABELS, "page.picture.rows.filter((it) => it instanceof Still).map((it) => it.words)", "page.run.cell.zones.map((it) => it.name)",
            'page.picture.choices.rows.find((it) => it.label === "A once_seen").changes.values',
        )  # fmt: skip
        wanted = ["event", "A", "signals", "do_once", "never changes", "persistents", "never changes", "interrupts", "A once_seen", "arm of A, in degrees", "axis 1"]
        compare("rows of a page", labels, wanted)
        compare("rows that are folded", still, ["di_never 0, do_never 1", "kept 7"])
        compare("the name of a zone", zone, ["keep_out"])
        order = "TRAP seen, when do_once becomes 1"
        states = ["TRAP seen, no order", order, f"{order}, asleep", order, f"{order}, disabled", f"{order}, 1 queued, disabled", "deleted"]
        compare("the course of an interrupt", course, states)


def try_choices():
    """Rows are hidden, pinned and moved; the address keeps that, and brings it back."""
    if not has_node():
        return
    with tempfile.TemporaryDirectory() as folder:
        page, _ = page_of(folder, TABLE)
        first, hidden, pinned, moved, back, reset = browsed(
            page,
            "page.picture.choices.text",
            f'(document.getElementById("rows").children[3].children[0].send("click"), [location.hash, {LABELS}.includes("texts")])',
            f'(document.getElementById("rows").children.find((it) => it.textContent.endsWith("do_rob1_in")).children[1].send("click"), {LABELS}.slice(0, 4))',
            f'(document.getElementById("rows").children[1].children[3].send("click"), [location.hash, {LABELS}.slice(0, 4)])',
            f'(location.hash = "#event=5&rows=p0.5", page.follow(), [{LABELS}, page.picture.fixed, details().event])',
            f'(document.getElementById("reset").send("click"), [location.hash, {LABELS}.length])',
        )  # fmt: skip
        compare("rows at first", first, "p0.p1.p2.3.4.5.6.7.8.9.10")
        compare("a row that is hidden", hidden, ["#rows=p0.p1.p2.4.5.6.7.8.9.10", False])
        compare("a row that is pinned", pinned, ["event", "ROB1", "ROB2", "do_rob1_in"])
        compare("a row that is moved", moved, ["#rows=p0.p2.p1.4.p5.6.7.8.9.10", ["event", "ROB2", "ROB1", "do_rob1_in"]])
        compare("rows of an address", back, [["event", "do_rob1_in"], 22, "5 of 68"])
        compare("rows as at first", reset, ["#event=5", 11])


def try_pointers():
    """At each event each task has its mark at the place that its last event in the trace has."""
    if not has_node():
        return
    with tempfile.TemporaryDirectory() as folder:
        page, _ = page_of(folder, PRESS)
        each = "Array.from({ length: page.run.count }, (_, k) => (page.choose(k), page.texts.pointers.map((it) => `${it.name} ${page.run.cell.modules[it.module].name} ${it.row}`)))"
        last, wanted = {}, []
        for line in (it for it in printed("trace", PRESS) if it.startswith("M ")):
            _, task, module, spot, _ = line.split(" ", 4)
            last.update({task: f"{task} {module} {spot.partition(':')[0]}"} if module != "-" else {})
            wanted.append([last[it] for it in ("ROB1", "ROB2", "SUP") if it in last])
        compare("where the tasks are", browsed(page, each)[0], wanted)
        marks = '(page.choose(9), page.texts.show(page.texts.pointers[0].module, 1), document.getElementById("lines").children.filter((it) => it.children[2].textContent).length > 0)'
        compare("marks in the text", browsed(page, marks), [True])


def try_reasons_on_pages():
    """'because' has the notes of `why`."""
    if not has_node():
        return
    with tempfile.TemporaryDirectory() as folder:
        for name in ("shared_table", "worked/cells/deadlock"):
            script = EXAMPLES / name / "cell.toml"
            page, _ = page_of(folder, script)
            notes = [it for task in browsed(page, "page.run.cell.tasks.map((it) => it.notes)")[0] for it in task[1:]]
            said = bare(ask("--plain", *options, "why", script)[1].splitlines())
            compare(f"because of {name}", [it for it in notes if it.strip() not in said and not it.startswith("write instead")], [])
            compare(f"because of {name}, all of it", len(notes) > 3, True)


def try_caught_on_pages():
    """A zone that becomes watched while an arm stands in it is told at its event."""
    if not has_node():
        return
    with tempfile.TemporaryDirectory() as folder:
        for name, text in parts_of(ENDINGS / "zone_that_catches.txt")[0].items():
            Path(folder, name).write_text(text)
        page, _ = page_of(folder, Path(folder, "cell.toml"))
        words = "the zone `press` of the script, by A at event 1, line 3 of a.mod: Set do_on; the arm of A stands there with axis 1 at 48 (inside axis 1 from 40 to 60), from the start"
        listed = 'document.getElementById("caught").children.map((it) => it.textContent)'
        detail = '(document.getElementById("caught").children[0].send("click"), details()["catches an arm"])'
        compare("a zone that catches, on a page", browsed(page, listed, detail), [[f"event 1: an arm is caught in {words}"], words])


def try_policy():
    """The page allows its own script and style, by their checksums, and nothing else."""
    with tempfile.TemporaryDirectory() as folder:
        text = page_of(folder, TABLE)[0].read_text(encoding="utf-8")
        policy = re.search(r'http-equiv="Content-Security-Policy" content="([^"]+)"', text)[1]
        for tag, inner in (("style", re.search(r"<style>(.*?)</style>", text, re.S)[1]), ("script", re.search(r"<script>(.*)</script>", text, re.S)[1])):
            digest = base64.b64encode(hashlib.sha256(inner.encode()).digest()).decode()
            compare(f"policy of the {tag}", f"{tag}-src 'sha256-{digest}'" in policy, True)
        compare("policy", policy.startswith("default-src 'none'; "), True)


def try_parting():
    """Where two histories part, by hand, and on a page of a history that is compared with itself and with its start."""
    from launcher.parting import parting

    ours, theirs = ["H A one", "H B two", "H A three", "H B four", "E A Done"], ["H A one", "H A three", "H B two"]
    found = parting(ours, theirs, ["A", "B"])
    rows = [[0, "A one", "A one"], [1, "B two", "A three"], [2, "A three", "B two"], [3, "B four", ""]]
    tasks = [{"task": "A", "both": None}, {"task": "B", "both": ["event 3: B four", ""]}]
    compare("parting", found, {"event": 1, "rows": rows, "tasks": tasks})
    if has_node():
        with tempfile.TemporaryDirectory() as folder:
            whole, start, page = Path(folder, "a.txt"), Path(folder, "b.txt"), Path(folder, "p.html")
            whole.write_text(ask("--plain", *options, "--history", "round", TABLE)[1])
            start.write_text("".join(whole.read_text().splitlines(True)[:30]))
            for other, wanted in ((whole, None), (start, 30)):
                compare("show of two histories", ask("--plain", *options, "show", TABLE, whole, other, "-o", page)[0], 0)
                compare("parting on a page", browsed(page, "page.run.cell.parting.event"), [wanted])
            compare("show of a history and none", ask("--plain", *options, "show", TABLE, whole, Path(folder, "none"), "-o", page)[0], 5)
