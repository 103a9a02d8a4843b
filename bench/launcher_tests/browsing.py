"""A page of `show` in a browser, and what it has to show: the events of the program's trace, and the counts of `cover`."""
import re
import subprocess
import time
from pathlib import Path
from typing import NamedTuple, Optional

from .common import compare, text_of
from .pages import LOOP

LONG_LIMIT, MOST_BYTES, MOST_SECONDS = 1_000_000, 40_000_000, 3
EVENT = re.compile(r"M (\S+) (?:- -|(.+?) (\d+):(\d+)) (.*)")
# The requests whose words differ from those of the history only by a name in place of a number.
NAMED = {"ReadP": "P", "WriteP": "P", "TestSet": "P", "ReadS": "D", "WriteS": "D", "Look": "", "Setpoint": "", "Hold": "", "Rise": ""}
# The picture's rows: a ruler, and then a lane for each task.
RULER, LANE = 22, 36
IS_THERE = '["title", "failed"].some((it) => document.getElementById(it)?.textContent)'
TWO_FRAMES = "new Promise((done) => requestAnimationFrame(() => requestAnimationFrame(() => done(true))))"
DETAILS = 'Array.from(document.querySelectorAll("#details dt"), (it) => [it.textContent, it.nextElementSibling.textContent])'
BOX = "(() => { const it = document.%s; it.scrollIntoView({ block: 'nearest' }); const { x, y, width, height } = it.getBoundingClientRect(); return [x, y, width, height]; })()"
LINES = 'Array.from(document.querySelectorAll("#lines .line"), (it) => it.children[1].textContent)'
MARKED = '[document.getElementById("module").selectedOptions[0].textContent, Number(document.querySelector("#lines .chosen").dataset.row)]'
CHOOSE = '(() => { const it = document.getElementById("module"); it.value = "%d"; it.dispatchEvent(new Event("change")); })()'
# Keeps the words that were drawn last, with their places and widths.
RECORDER = """{
const { fillText, setTransform } = CanvasRenderingContext2D.prototype;
window.words = [];
CanvasRenderingContext2D.prototype.setTransform = function (...given) {
  window.words = [];
  return setTransform.apply(this, given);
};
CanvasRenderingContext2D.prototype.fillText = function (text, x, y) {
  window.words.push([text, x, y, this.measureText(text).width]);
  return fillText.call(this, text, x, y);
};
}"""
# The height of a letter, in pixels.
LETTER = 10
# Which colours of words have to be read on which grounds, and which colours of bars have to be seen on them.
READ = "ink/ground muted/ground ink/field muted/field onRun/run error/ground ink/box ink/never ink/ran muted/never muted/ran error/never"
SEEN = "run/ground wait/ground trap/ground error/ground mark/ground text/ground signal/ground stored/box axis/field chosen/ground"
LEAST_READ, LEAST_SEEN = 4.5, 3
COLOURS = "Object.fromEntries(%s.map((it) => [it, getComputedStyle(document.documentElement).getPropertyValue(`--${it}`).trim()]))"


class Event(NamedTuple):
    actor: str
    module: Optional[str]
    row: int
    column: int
    words: str


class Cell:
    """A cell's script, the events of its trace, and the names of its persistents and signals."""

    def __init__(self, started, script):
        self.started, self.script = started, script
        self.events = [event_of(it) for it in self.lines("trace") if it.startswith("M ")]
        self.names = {it.split()[0]: it.split()[-1] for it in self.lines("list") if re.match(r"[PD]\d+ ", it)}
        self.tasks = re.findall(r'\[\[task\]\]\s+name = "(\w+)"', script.read_text())

    def lines(self, action):
        ran = subprocess.run([self.started, action, self.script], stdin=subprocess.DEVNULL, stdout=subprocess.PIPE)
        return text_of(ran.stdout).splitlines()

    def readable(self, words):
        """The words of an event with the name of what it reads or writes, or None of a request that has more numbers."""
        letter = NAMED.get(words.split()[0])
        if letter is None:
            return None
        return re.sub(rf" ({letter}\d+)", lambda it: f" {self.names[it[1]]}", words, count=1) if letter else words

    def ran(self):
        """How often each line ran, by the looks of the trace."""
        spots = {}
        for it in self.events:
            if it.words.startswith("Look > Go"):
                spots[it[1:4]] = spots.get(it[1:4], 0) + 1
        found = {}
        for (module, row, _), count in spots.items():
            found[module, row] = max(found.get((module, row), 0), count)
        return found

    def looks(self, module, row):
        """The events at which a line is started."""
        return [k for k, it in enumerate(self.events) if it[1:3] == (module, row) and it.words.startswith("Look > Go")]

    def covered(self):
        """How often each line ran, as `cover` says."""
        from launcher.cover import Cover
        from launcher.program import Program

        cover, found, name = Cover(), {}, ""
        cover.run(Program(self.started, False), str(self.script).encode(), self.script)
        for word, _, rest in (line.partition(":") for line in cover.lcov().splitlines()):
            if word == "SF":
                name = Path(rest).name
            elif word == "DA":
                row, count = rest.split(",")
                found[name, int(row)] = int(count)
        return found


def event_of(line):
    actor, module, row, column, words = EVENT.fullmatch(line).groups()
    return Event(actor, module, int(row or 0), int(column or 0), words)


class Shown:
    """A page, opened and drawn."""

    def __init__(self, browser, page):
        self.browser = browser
        browser.ask("Page.addScriptToEvaluateOnNewDocument", source=RECORDER)
        browser.media("light")
        start = time.monotonic()
        browser.ask("Page.navigate", url=page.resolve().as_uri())
        browser.wait(IS_THERE)
        browser.value(TWO_FRAMES)
        self.seconds = time.monotonic() - start
        metrics = {it["name"]: it["value"] for it in browser.ask("Performance.getMetrics")["metrics"]}
        self.used = metrics.get("ThreadTime", metrics["TaskDuration"])
        compare("the page says that it failed", browser.value('document.getElementById("failed").textContent'), "")

    def count(self):
        said = self.browser.value('document.getElementById("summary").textContent')
        return int(said.split()[0].replace(",", ""))

    def details(self):
        return dict(self.browser.value(DETAILS))

    def chosen(self):
        """The number of the chosen event, or -1."""
        said = self.details()["event"].split()[0]
        return int(said) if said.isdigit() else -1

    def box(self, element):
        return self.browser.value(BOX % element)

    def click_event(self, number, task):
        """Clicks on an event in the lane of a task, while the whole run is seen."""
        x, y, width, _ = self.box('getElementById("canvas")')
        gutter, margin = self.browser.value("[GUTTER, MARGIN]")
        scale = (width - gutter - margin) / max(self.count(), 6)
        self.browser.click(x + gutter + (number + 0.5) * scale, y + RULER + LANE * task + LANE / 2)

    def click_line(self, row):
        x, y, _, height = self.box(f'getElementById("lines").children[{row - 1}]')
        self.browser.click(x + 30, y + height / 2)

    def steps(self, count):
        """The seconds from a key to the picture that it makes."""
        self.browser.value('document.getElementById("scroll").focus()')
        start = time.monotonic()
        for _ in range(count):
            self.browser.press("ArrowRight")
            self.browser.value(TWO_FRAMES)
        return (time.monotonic() - start) / count

    def words(self):
        return self.browser.value("window.words")

    def pictures(self, folder, name, is_printed=True):
        for scheme in ("light", "dark"):
            self.browser.media(scheme)
            self.browser.value(TWO_FRAMES)
            self.browser.picture(folder / f"{name}_{scheme}.png")
            self.contrast(f"{name}, {scheme}")
        if is_printed:
            self.browser.print(folder / f"{name}.pdf")
            # The same as a picture: what a browser does before it prints, from a dark page.
            self.browser.media("dark", "print")
            self.browser.value('window.dispatchEvent(new Event("beforeprint"))')
            self.browser.value(TWO_FRAMES)
            self.contrast(f"{name}, printed from a dark page")
            self.browser.picture(folder / f"{name}_print.png", is_whole=True)
            self.browser.value('window.dispatchEvent(new Event("afterprint"))')
        self.browser.media("light")

    def contrast(self, what):
        """Each colour stands out from its ground."""
        for pairs, least in ((READ, LEAST_READ), (SEEN, LEAST_SEEN)):
            names = sorted(set(re.findall(r"\w+", pairs)))
            colours = self.browser.value(COLOURS % names)
            for pair in pairs.split():
                one, other = (light_of(colours[it]) + 0.05 for it in pair.split("/"))
                ratio = round(max(one, other) / min(one, other), 2)
                if ratio < least:
                    compare(f"{what}: contrast of {pair}", ratio, f"at least {least}")


def light_of(colour):
    """How light a colour is, #rrggbb, by the rule of WCAG."""
    parts = [int(colour[k : k + 2], 16) / 255 for k in (1, 3, 5)]
    linear = [it / 12.92 if it <= 0.04045 else ((it + 0.055) / 1.055) ** 2.4 for it in parts]
    return 0.2126 * linear[0] + 0.7152 * linear[1] + 0.0722 * linear[2]


def tried(shown, cell, pictures):
    """Tries a page in each way. Returns in words what was compared."""
    name = cell.script.parent.name
    compare(f"{name}: events", shown.count(), len(cell.events))
    keys = try_keys(shown, cell, name)
    clicks = try_events(shown, cell, name)
    lines = try_lines(shown, cell, name)
    counts = try_counts(shown, cell, name)
    overlaps(shown, name)
    try_rows(shown, cell, name)
    try_policy(shown, name)
    shown.pictures(pictures, name)
    return f"{clicks} events clicked, {lines} lines clicked, {counts} counts of lines, {keys} keys"


def compare_event(shown, cell, what, number):
    """The page shows an event as the trace has it, and its line in the text."""
    event, details = cell.events[number], shown.details()
    compare(f"{what}: event", details["event"], f"{number} of {len(cell.events)}")
    compare(f"{what}: task", details["task"], "the input script" if event.actor == "-" else event.actor)
    compare(f"{what}: history", details["in the history"], f"H {event.actor} {event.words}")
    readable = cell.readable(event.words)
    if readable is not None:
        compare(f"{what}: request and answer", f"{details['asks']} > {details['answer']}", readable)
    compare(f"{what}: place", details.get("place"), event.module and f"{event.module} {event.row}:{event.column}")
    if event.module:
        compare(f"{what}: line in the text", shown.browser.value(MARKED), [event.module, event.row])


def try_events(shown, cell, name):
    """A click in a lane chooses the event there."""
    shown.browser.press("0")
    count = 0
    for number in range(0, len(cell.events), 1 + len(cell.events) // 40):
        event = cell.events[number]
        if event.actor != "-":
            shown.click_event(number, cell.tasks.index(event.actor))
            compare_event(shown, cell, f"{name}: click on event {number}", number)
            count += 1
    return count


def modules(shown):
    return shown.browser.value('Array.from(document.getElementById("module").options, (it) => it.textContent)')


def try_lines(shown, cell, name):
    """A click on a line chooses its next event after the chosen one, and after its last one its first."""
    count = 0
    for number, module in enumerate(modules(shown)):
        shown.browser.value(CHOOSE % number)
        for row in range(1, len(shown.browser.value(LINES)) + 1):
            own, before = cell.looks(module, row), shown.chosen()
            shown.click_line(row)
            wanted = next((k for k in own if k > before), own[0]) if own else before
            if own:
                compare_event(shown, cell, f"{name}: click on line {row} of {module}", wanted)
            else:
                compare(f"{name}: click on line {row} of {module}", shown.chosen(), before)
            count += 1
    return count


def try_counts(shown, cell, name):
    """Each line has the number of times that it ran, by `cover` and by the trace."""
    covered, ran, count = cell.covered(), cell.ran(), 0
    for number, module in enumerate(modules(shown)):
        shown.browser.value(CHOOSE % number)
        for row, said in enumerate(shown.browser.value(LINES), 1):
            found = None if said == "" else 0 if said == "never" else int(said.replace(",", ""))
            compare(f"{name}: count of line {row} of {module}", found, covered.get((Path(module).name, row)))
            compare(f"{name}: count of line {row} of {module}, by the trace", found or 0, ran.get((module, row), 0))
            count += found is not None
    return count


def try_keys(shown, cell, name):
    """The page is used without a mouse, from its start."""
    browser, used = shown.browser, 0

    def press(key, wanted, shift=False):
        nonlocal used
        used += 1
        browser.press(key, shift)
        compare_event(shown, cell, f"{name}: key {'Shift ' * shift}{key}", wanted)

    own = [k for k, it in enumerate(cell.events) if it.actor == cell.events[0].actor]
    press("Home", 0)
    press("ArrowRight", 1)
    press("ArrowLeft", 0)
    press("ArrowRight", own[1], shift=True)
    press("ArrowRight", own[2], shift=True)
    press("ArrowLeft", own[1], shift=True)
    press("End", len(cell.events) - 1)
    press("Home", 0)
    whole = shown.words()
    for key in ("+", "PageDown", "-"):
        browser.press(key)
        used += 1
    browser.press("+")
    compare(f"{name}: zoomed", shown.words() != whole, True)
    browser.press("0")
    compare(f"{name}: the whole run again", shown.words(), whole)
    press("Home", 0)
    if len(cell.tasks) > 1:
        browser.press("ArrowDown")
        compare(f"{name}: key ArrowDown", shown.details()["task"], cell.tasks[1])
        compare_event(shown, cell, f"{name}: key ArrowDown", shown.chosen())
        press("Home", 0)
    return used + 3 + line_by_key(shown, cell, name)


def line_by_key(shown, cell, name):
    """Enter goes to the text; there the arrows choose a line, and Enter its next event."""
    module, row = shown.browser.value(MARKED)
    shown.browser.press("Enter")
    compare(f"{name}: Enter goes to the text", shown.browser.value("document.activeElement.id"), "lines")
    rows = sorted(it for own, it in cell.ran() if own == module and it > row)
    if not rows:
        return 1
    for _ in range(rows[0] - row):
        shown.browser.press("ArrowDown")
    own, before = cell.looks(module, rows[0]), shown.chosen()
    shown.browser.press("Enter")
    compare_event(shown, cell, f"{name}: Enter on line {rows[0]}", next((k for k in own if k > before), own[0]))
    return 2 + rows[0] - row


def try_rows(shown, cell, name):
    """The ruler and the lanes stay when the picture is scrolled; a row that is hidden goes, and the address brings it back."""
    names = ["event", *cell.tasks]
    tops = {text: y for text, _, y, _ in shown.words() if text in names}
    shown.browser.value('document.getElementById("scroll").scrollTop = 60')
    shown.browser.value(TWO_FRAMES)
    compare(f"{name}: rows that stay", {text: y for text, _, y, _ in shown.words() if text in names}, tops)
    shown.browser.value('document.getElementById("scroll").scrollTop = 0')
    shown.browser.value('document.getElementById("choice").open = true')
    shown.browser.value('document.querySelector("#rows div:nth-child(2) button").click()')
    compare(f"{name}: a row that is hidden", (cell.tasks[0] in [it[0] for it in shown.words()], "rows=" in shown.browser.value("location.hash")), (False, True))
    shown.browser.value('document.getElementById("reset").click()')
    shown.browser.value('document.getElementById("choice").open = false')
    compare(f"{name}: rows as at first", {text: y for text, _, y, _ in shown.words() if text in names}, tops)


def try_policy(shown, name):
    """The browser runs no script but the page's own."""
    added = "(() => { const it = document.createElement('script'); it.textContent = 'window.added = 1'; document.body.append(it); return window.added === undefined; })()"
    compare(f"{name}: a script that was added", shown.browser.value(added), True)


def try_addresses(shown, cell, name):
    """An event that the page's address names is the chosen one."""
    count = len(cell.events)
    for number in (0, count // 7, count // 2, count - 1):
        shown.browser.value(f'location.hash = "#event={number}"')
        shown.browser.value(TWO_FRAMES)
        compare_event(shown, cell, f"{name}: address of event {number}", number)


def overlaps(shown, name):
    """No words of the picture are drawn over others, or beyond its right end."""
    words, width = shown.words(), shown.browser.value('document.getElementById("scroll").clientWidth')
    for k, (text, x, y, wide) in enumerate(words):
        compare(f"{name}: {text!r} is on the picture", x + wide <= width, True)
        for other, left, top, long in words[k + 1 :]:
            if abs(y - top) < LETTER and x < left + long and left < x + wide:
                compare(f"{name}: {text!r} and {other!r}", "are drawn over each other", "apart")


def long_cell(folder):
    """The script of a cell with a million events and more."""
    script = Path(folder, "cell.toml")
    task = '[[task]]\nname = "{0}"\nmodules = ["loop.mod"]\narm = [0, 0, 0, 0, 0, 0]\n'
    head = f'version = 1\nsteps = {LONG_LIMIT}\n[[signal]]\nname = "do_lamp"\nkind = "do"\n'
    script.write_text(head + task.format("A") + task.format("B"))
    Path(folder, "loop.mod").write_text(LOOP)
    return script
