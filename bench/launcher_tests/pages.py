"""`show CELL`: the page, which node runs with a document that only pretends (browser.js), if node is installed."""
import json
import re
import shutil
import subprocess
import tempfile
from decimal import Decimal
from html.parser import HTMLParser
from pathlib import Path

from .common import EXAMPLES, TOP, ask, compare, document, options, pieces, program, tables_of, text_of
from .spreadsheet import history_of, rows_of

CELLS = ("first_move", "press_cell", "shared_table", "feeder", "door", "operator_stop", "track", "worked/cells/each_lists_the_other", "worked/cells/steps_are_shared")
BROWSER = Path(__file__).resolve().parent / "browser.js"
PICTURE = TOP / "docs/show.svg"
# What the page shows of each event, by the keys, and where the lines of the picture are.
EACH = 'Array.from({ length: page.run.count }, (_, k) => (press(k ? "ArrowRight" : "Home"), details()["in the history"]))'
SIGNALS = "page.run.signals.map((it) => Array.from({ length: page.run.count }, (_, k) => page.run.valueAt(it, k, it.start)))"
ARMS = "page.run.cell.tasks.map((_, task) => page.run.positionAt(task, page.run.count - 1))"
FATES = "page.run.cell.tasks.map((it) => [it.name, it.fate, it.cause !== ''])"
# Whether all that is drawn lies on the canvas, and has a colour and a size; and how much it is.
DRAWN = """(() => {
  const { rectangles, texts } = drawn();
  const isDrawn = ([x, y, width, height, colour]) => [x, y, width, height].every(Number.isFinite) && x >= 0 && x + width <= page.size.width && width > 0 && typeof colour === "string" && colour !== "";
  return [rectangles.every(isDrawn) && texts.every(([text, x, y]) => text !== undefined && Number.isFinite(x + y)), rectangles.length];
})()"""
ZOOMS = f'[0, 1, 2].map(() => (press("+"), {DRAWN}[0])).concat([0, 1].map(() => (press("PageDown"), {DRAWN}[0])), (press("0"), {DRAWN}[0]))'
# A click in the lane of an event's task, where a pixel has no more than one event, chooses it.
CLICKS = """(() => {
  const { view, rows, tops } = page.picture;
  const ran = [];
  for (let k = 0; k < page.run.count; k += 7) {
    if (page.run.actor(k) === "-") continue;
    view.set(k - 10, k + 10);
    page.draw();
    click(view.x(k + 0.5), tops[1 + page.run.actors[k]] + 10);
    ran.push(page.picture.chosen === k);
  }
  return ran;
})()"""
# The wheel with Ctrl zooms to where the mouse is, the wheel with Shift moves along the run, and so does a drag, which chooses nothing.
MOUSE = """(() => {
  const { view } = page.picture;
  const send = (name, event) => document.getElementById(name === "wheel" ? "scroll" : "canvas").send(name, event);
  const seen = () => [view.from, view.to].map((it) => Number(it.toFixed(3)));
  page.whole();
  const centre = view.event(400);
  send("wheel", { offsetX: 400, ctrlKey: true, deltaY: -200 });
  const zoomed = [view.to - view.from <= Math.max(page.run.count / 1.9, LEAST_SPAN), Math.abs(view.event(400) - centre) < 1e-6];
  send("wheel", { offsetX: 400, shiftKey: true, deltaY: 300 });
  const moved = view.from;
  const { chosen } = page.picture;
  const before = seen();
  for (const [name, x] of [["pointerdown", 500], ["pointermove", 450], ["pointermove", 300], ["pointermove", 500], ["pointerup", 500]]) send(name, { offsetX: x, offsetY: 60 });
  return [...zoomed, moved > 0, seen().join() === before.join(), page.picture.chosen === chosen];
})()"""
PRINT = f"(print(true), [{DRAWN}[0], page.size.height === Math.min(page.picture.height, 8000), print(false) === undefined])"


def has_node():
    if shutil.which("node"):
        return True
    print("node is not here: the pages of show are not tried")
    return False


def page_of(folder, script, started=None):
    """Writes the page of a cell. Returns its path and the status."""
    from launcher.events import Run
    from launcher.program import Program
    from launcher.show import write_page

    page = Path(folder, "page.html")
    answer = write_page(Program(started, False) if started else program(), str(script).encode(), script, Run(), page)
    return page, answer.status


def browsed(page, *commands):
    """What a page answers to commands."""
    text = "".join(it.replace("\n", " ") + "\n" for it in commands)
    ran = subprocess.run(["node", BROWSER, page], input=text.encode(), stdout=subprocess.PIPE, stderr=subprocess.PIPE)
    if ran.returncode:
        return [text_of(ran.stderr)] * len(commands)
    return [json.loads(it) for it in text_of(ran.stdout).splitlines()]


def try_pages():
    """What a page shows is what the run printed: each event, the signals and arms, and how the tasks ended."""
    if not has_node():
        return
    for name in CELLS:
        with tempfile.TemporaryDirectory() as folder:
            script = EXAMPLES / name / "cell.toml"
            page, status = page_of(folder, script)
            lines = history_of(script)
            events = [it for it in lines if it.startswith("H ")]
            each, signals, arms, fates, zooms, clicks, mouse, printed = browsed(page, EACH, SIGNALS, ARMS, FATES, ZOOMS, CLICKS, MOUSE, PRINT)
            compare(f"page of {name}: its events", each, events)
            rows = rows_of(script, lines)
            compare(f"page of {name}: its signals", signals, signals_along(rows, len(events)))
            compare(f"page of {name}: its arms", [[f"{Decimal(it) / 1000:.3f}" for it in arm] for arm in arms], last_positions(rows, len(arms)))
            compare(f"page of {name}: its ends", fates, [[it[1], it[-1], True] for it in rows if it[2] == "end"])
            compare(f"page of {name}: drawn", (set(zooms), set(clicks) - {True}, printed), ({True}, set(), [True, True, True]))
            compare(f"page of {name}: the mouse", mouse, [True] * 5)


def signals_along(rows, count):
    """The value of each signal after each event, by the rows of the table."""
    starts = {it[-3]: it[-2] for it in rows if it[2] == "start" and it[-3]}
    found = []
    for name, value in starts.items():
        changes = {it[0]: it[-2] for it in rows if it[2] == "signal" and it[-3] == name}
        values = []
        for number in range(count):
            value = changes.get(number, value)
            values.append(value)
        found.append(values)
    return found


def last_positions(rows, count):
    """Where each arm is at the end; the tasks come in the order of their ends."""
    tasks = [it[1] for it in rows if it[2] == "end"]
    found = {task: [] for task in tasks}
    for it in rows:
        if it[2] in ("start", "setpoint") and it[1] in found:
            found[it[1]] = [f"{Decimal(axis):.3f}" for axis in it[3:-3] if axis]
    return [found[task] for task in tasks][:count]


LOOP = """MODULE Loop
  PERS num total := 0;
  VAR jointtarget there := [[0,0,0,0,0,0],[9E9,9E9,9E9,9E9,9E9,9E9]];
  PROC main()
    WHILE TRUE DO
      there.robax.rax_1 := (total * 37) MOD 90;
      MoveAbsJ there, v1000, fine, tool0;
      total := total + 1;
      TPWrite "total "\\Num:=total;
      Set do_lamp;
      Reset do_lamp;
    ENDWHILE
  ENDPROC
ENDMODULE
"""


def try_long_page():
    """A picture of many events has no more to draw than it has pixels, some times over."""
    if has_node():
        with tempfile.TemporaryDirectory() as folder:
            script = Path(folder, "cell.toml")
            task = '[[task]]\nname = "{0}"\nmodules = ["loop.mod"]\narm = [0, 0, 0, 0, 0, 0]\n'
            script.write_text('version = 1\nsteps = 60000\n[[signal]]\nname = "do_lamp"\nkind = "do"\n' + task.format("A") + task.format("B"))
            Path(folder, "loop.mod").write_text(LOOP)
            page, status = page_of(folder, script)
            compare("long page", (status, page.stat().st_size < 2_000_000), (9, True))
            count, drawn = browsed(page, "page.run.count", DRAWN)
            compare("long page: drawn", (count >= 60_000, drawn[0], drawn[1] < 20_000), (True, True, True))


def try_stories():
    """What docs/SEEING.md says of the pages of its stories."""
    if not has_node():
        return
    reasons = 'document.getElementById("ends").children.map((it) => it.children[2].children[1]?.textContent || "")'
    for name, wanted in (("shared_table", ["", "ZoneStop at line 8 of rob2.mod"]), ("worked/cells/deadlock", ["waits here at line 5 of a.mod", "waits here at line 5 of b.mod"])):
        with tempfile.TemporaryDirectory() as folder:
            page, _ = page_of(folder, EXAMPLES / name / "cell.toml")
            compare(f"reasons of {name}", browsed(page, reasons), [wanted])
            if name == "shared_table":
                last = '(document.getElementById("ends").children[1].children[3].children[0].send("click"), details().event)'
                rows = "page.picture.rows.filter((it) => it instanceof Axis).at(-1)"
                shown = browsed(page, last, f"[{rows}.value(31), {rows}.spans.map((it) => [it.name, it.bounds, it.past])]", "page.run.signals[0].events")
                compare(f"story of {name}", shown, ["31 of 68", ["65", [["table", [40000, 60000], 62]]], {"0": 61}])
    with tempfile.TemporaryDirectory() as folder:
        page, _ = page_of(folder, EXAMPLES / "worked/cells/lost_update/cell.toml")
        compare("story of lost_update", browsed(page, "[...page.run.stored[0].events]", "page.run.stored[0].values"), [[0, 4], ["0", "1", ""]])


def drawn_picture():
    """The picture of README.md."""
    with tempfile.TemporaryDirectory() as folder:
        page, _ = page_of(folder, EXAMPLES / "press_cell/cell.toml")
        return browsed(page, '(press("Home"), page.choose(30), svg(1000))')[0]


def try_picture():
    """The picture of README.md is what the page draws; bench/show_picture draws it anew."""
    if has_node():
        compare("docs/show.svg", PICTURE.read_text(encoding="utf-8") == drawn_picture(), True)


def try_page_command():
    """The name of the page, and what is not written over."""
    with tempfile.TemporaryDirectory() as folder:
        shutil.copytree(EXAMPLES / "first_move", Path(folder, "first"))
        said = ask("--plain", *options, "show", "first/cell.toml", cwd=folder)
        compare("show", said, (0, "first.html\n", ""))
        text = Path(folder, "first.html").read_bytes()
        compare("show, alone", [it for it in (b"http:", b"https:", b"src=", b"@import", b"url(") if it in text], [])
        compare("show again", ask("--plain", *options, "show", "first/cell.toml", "-o", "first.html", cwd=folder), said)
        Path(folder, "mine.html").write_text("mine")
        status, out, err = ask("--plain", *options, "show", "-o", "mine.html", "first/cell.toml", cwd=folder)
        compare("show over another file", (status, out, Path(folder, "mine.html").read_text()), (2, "", "mine"))
        compare("show into no folder", ask("--plain", *options, "show", "first/cell.toml", "-o", "none/a.html", cwd=folder)[:2], (6, ""))
        compare("show --run", ask("--plain", *options, "show", "--run", "first/cell.toml", cwd=folder), said)
        module = Path(folder, "first/first_move.mod")
        module.write_text(module.read_text().replace("fine", "z10", 1))
        status, out, err = ask("--plain", *options, "show", "first/cell.toml", "-o", "other.html", cwd=folder)
        compare("show of a refused cell", (status, out, "CornerZone" in err, Path(folder, "other.html").exists()), (4, "", True, False))
    for words in (("show",), ("show", "--run", "a", "b"), ("show", "a", "b", "c", "d"), ("show", "-o", "a")):
        compare(f"{words}", ask(*words)[:2], (2, ""))


def try_kinds():
    """The timeline knows each request that a history can have."""
    from launcher.timeline import BY_ANSWER, KINDS

    rows = [pieces(row["Line"])[0] for row in tables_of(document("LANGUAGE")) if row.get("Line", "").startswith("`H ")]
    requests = {it.split()[2] for it in rows} - set(BY_ANSWER)
    compare("requests of histories", (len(requests) > 15, sorted(requests - set(KINDS))), (True, []))


class Tags(HTMLParser):
    """The ids of a page; a tag that is closed where it is not open, or not closed, is an error."""

    def __init__(self):
        super().__init__()
        self.open, self.ids, self.errors = [], [], []

    def handle_starttag(self, tag, attributes):
        self.ids += [value for name, value in attributes if name == "id"]
        if tag not in ("meta", "input"):
            self.open.append(tag)

    def handle_endtag(self, tag):
        if not self.open or self.open.pop() != tag:
            self.errors.append(tag)


def try_page_parts():
    """The elements and colours that the scripts name are in the page, each once."""
    folder = TOP / "launcher/page"
    tags = Tags()
    tags.feed((folder / "page.html").read_text(encoding="utf-8"))
    compare("tags of the page", (tags.open, tags.errors, sorted(set(tags.ids)) == sorted(tags.ids)), ([], [], True))
    scripts = "".join(it.read_text(encoding="utf-8") for it in folder.glob("*.js"))
    named = set(re.findall(r'getElementById\("(\w+)"\)', scripts)) | set(re.findall(r'\bon\("(\w+)", "', scripts))
    compare("elements of the page", (len(named) > 15, sorted(named - set(tags.ids))), (True, []))
    style = (folder / "page.css").read_text(encoding="utf-8")
    colours = re.search(r'"(ground [^"]+)"', scripts)[1].split()
    compare("colours of the page", [it for it in colours if style.count(f"--{it}:") != 2], [])
    drawn = {it for words in re.findall(r'pen\.\w+\(.*', scripts) for it in re.findall(r'"(\w+)"', words)}
    compare("colours that are drawn", sorted(drawn - set(colours)), [])


def try_page_scripts():
    """The scripts of the page are JavaScript by themselves."""
    if has_node():
        for file in sorted((TOP / "launcher/page").glob("*.js")):
            ran = subprocess.run(["node", "--check", file], stdout=subprocess.PIPE, stderr=subprocess.STDOUT)
            compare(f"{file.name}", text_of(ran.stdout), "")
            compare(f"{file.name} is small", len(file.read_text().splitlines()) < 400, True)
