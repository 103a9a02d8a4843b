"use strict";
// The page: the picture on its canvas, the text of the modules beside it, and the chosen event below.

const COLOURS = (
  "ground ink muted faint field run onRun wait trap error mark text signal high stored box axis zone output chosen"
).split(" ");
const FONT = '11px ui-monospace, "DejaVu Sans Mono", Menlo, Consolas, monospace';
// How many lines of modules are printed.
const MOST_PRINTED = 5000;
// The highest picture that is printed, in pixels.
const MOST_DRAWN = 8000;

class Page {
  constructor(run) {
    this.run = run;
    this.picture = new Picture(run);
    this.canvas = document.getElementById("canvas");
    this.context = this.canvas.getContext("2d");
    this.scroll = document.getElementById("scroll");
    this.tall = document.getElementById("tall");
    this.texts = new Texts(run, document.getElementById("module"), document.getElementById("lines"));
    this.isPrinted = false;
    this.list = new RowList(this.picture.choices, document.getElementById("rows"), () => this.arrange());
    this.fillHead();
    fillParting(run, document.getElementById("parting"), (event) => this.choose(event));
    this.listen();
    this.texts.fill();
    this.resize();
    this.follow();
  }

  fillHead() {
    const { cell, count } = this.run;
    document.title = cell.title;
    document.getElementById("title").textContent = cell.title;
    const hows = { run: "each task on a thread of its own: one of the runs that the cell can have", history: "of a history that was kept" };
    const how = hows[cell.action] || "by turns";
    document.getElementById("summary").textContent = `${count.toLocaleString("en")} events, ${how}`;
    const body = document.getElementById("ends");
    cell.tasks.forEach((task, number) => {
      const cells = [made("th", task.name), made("td", task.fate), reasonOf(task)];
      const row = made("tr", "", ...cells);
      row.className = /^(Done|Exit)$/.test(task.fate) ? "good" : "bad";
      const last = this.run.last(number);
      const button = made("button", "its last event");
      button.addEventListener("click", () => this.choose(last));
      row.append(made("td", "", ...(last >= 0 ? [button] : [])));
      body.append(row);
    });
    const caught = document.getElementById("caught");
    for (const it of cell.caught) {
      const line = made("div", `event ${it.event}: an arm is caught in ${it.words}`);
      line.addEventListener("click", () => this.choose(it.event));
      caught.append(line);
    }
  }

  listen() {
    const on = (name, event, act) => document.getElementById(name).addEventListener(event, act);
    on("in", "click", () => this.zoom(0.5));
    on("out", "click", () => this.zoom(2));
    on("all", "click", () => this.whole());
    on("find", "keydown", (event) => event.key === "Enter" && this.find(event.target.value, event.shiftKey ? -1 : 1));
    on("next", "click", () => this.find(document.getElementById("find").value, 1));
    // The keys go to the picture from wherever the focus is, but for places that have keys of their own.
    document.addEventListener("keydown", (event) => this.key(event));
    on("reset", "click", () => {
      this.picture.choices.reset();
      this.list.fill();
      this.arrange();
    });
    this.scroll.addEventListener("scroll", () => this.draw());
    this.scroll.addEventListener("wheel", (event) => this.wheel(event), { passive: false });
    this.canvas.addEventListener("pointerdown", (event) => this.press(event));
    this.canvas.addEventListener("pointermove", (event) => this.move(event));
    this.canvas.addEventListener("pointerup", (event) => this.release(event));
    this.canvas.addEventListener("pointerleave", () => this.hover(-1));
    this.texts.onLine = (module, row) => this.chooseLine(module, row);
    window.addEventListener("resize", () => this.resize());
    new ResizeObserver(() => this.resize()).observe(this.scroll);
    window.addEventListener("hashchange", () => this.follow());
    window.addEventListener("beforeprint", () => this.print(true));
    window.addEventListener("afterprint", () => this.print(false));
    window.matchMedia("(prefers-color-scheme: dark)").addEventListener("change", () => this.draw());
  }

  // Drawing

  resize() {
    const ratio = window.devicePixelRatio || 1;
    this.picture.layOut(this.isPrinted ? Infinity : this.scroll.clientHeight);
    // First the height, since a scroll bar takes some of the width.
    this.tall.style.height = `${this.picture.height}px`;
    const width = this.scroll.clientWidth;
    const height = Math.min(this.picture.height, this.isPrinted ? MOST_DRAWN : this.scroll.clientHeight);
    this.canvas.width = Math.round(width * ratio);
    this.canvas.height = Math.round(height * ratio);
    this.canvas.style.width = `${width}px`;
    this.canvas.style.height = `${height}px`;
    this.picture.view.width = Math.max(width - GUTTER - MARGIN, 100);
    this.size = { ratio, width, height };
    this.draw();
  }

  draw() {
    const { ratio, height } = this.size;
    const style = getComputedStyle(document.documentElement);
    const colours = Object.fromEntries(COLOURS.map((name) => [name, style.getPropertyValue(`--${name}`).trim()]));
    this.context.setTransform(ratio, 0, 0, ratio, 0, 0);
    this.context.font = FONT;
    this.context.textBaseline = "middle";
    const letter = this.context.measureText("0").width;
    this.picture.draw(this.context, colours, letter, this.isPrinted ? 0 : this.scroll.scrollTop, height);
  }

  // The rows are other ones, or in another order.
  arrange() {
    this.resize();
    this.name(this.picture.chosen);
  }

  print(isPrinted) {
    this.isPrinted = isPrinted;
    document.documentElement.classList.toggle("print", isPrinted);
    this.texts.print(isPrinted, document.getElementById("printed"));
    this.resize();
  }

  // Choosing

  choose(event) {
    if (!this.picture.choose(event)) return;
    this.describe(event);
    const place = this.run.place(event);
    if (place) this.texts.show(place[0], place[1]);
    const pointers = this.run.cell.tasks.map(({ name }, task) => ({ name, at: this.run.pointer(task, event) }));
    this.texts.point(pointers.filter(({ at }) => at).map(({ name, at }) => ({ name, module: at[0], row: at[1] })));
    this.name(event);
    this.draw();
  }

  // Puts an event, and rows that were chosen, into the page's address, if the browser lets a page do so.
  name(event) {
    const { choices } = this.picture;
    const words = [...(event >= 0 ? [`event=${event}`] : []), ...(choices.isChanged ? [`rows=${choices.text}`] : [])];
    try {
      history.replaceState(null, "", `#${words.join("&")}`);
    } catch {
      return;
    }
  }

  // The next event of a line of a module, after the chosen one; from the first one on after the last.
  chooseLine(module, row) {
    const isHere = (k) => {
      const place = this.run.place(k);
      return place && place[0] === module && place[1] === row && this.run.kinds[k] === this.run.kind.Go;
    };
    const next = this.run.next(this.picture.chosen, 1, isHere);
    this.choose(next >= 0 ? next : this.run.next(-1, 1, isHere));
  }

  find(text, step) {
    const wanted = text.toLowerCase();
    const isFound = (k) => `${this.run.actor(k)} ${this.run.readable(k)}`.toLowerCase().includes(wanted);
    if (wanted) this.choose(this.run.next(this.picture.chosen, step, isFound));
  }

  // The event and the rows that the page's address names.
  follow() {
    const found = new Map(location.hash.slice(1).split("&").map((it) => it.split("=")));
    if (found.has("rows")) {
      this.picture.choices.text = found.get("rows");
      this.list.fill();
      this.resize();
    }
    if (/^\d+$/.test(found.get("event") || "")) this.choose(Number(found.get("event")));
  }

  describe(event) {
    const list = document.getElementById("details");
    list.replaceChildren();
    for (const [name, words] of detailsOf(this.run, event)) list.append(made("dt", name), made("dd", words));
  }

  // Zoom and pan

  zoom(factor, centre) {
    const { view, chosen } = this.picture;
    const isSeen = chosen >= view.from && chosen <= view.to;
    view.zoom(factor, centre ?? (isSeen ? chosen + 0.5 : (view.from + view.to) / 2));
    this.draw();
  }

  whole() {
    this.picture.view.whole();
    this.draw();
  }

  pan(part) {
    const { view } = this.picture;
    view.pan(part * (view.to - view.from));
    this.draw();
  }

  key(event) {
    // The text of a module has taken its keys before.
    if (event.defaultPrevented || event.ctrlKey || event.altKey || event.metaKey || hasOwnKeys(event)) return;
    const act = {
      ArrowRight: () => this.choose(this.picture.step(1, event.shiftKey)),
      ArrowLeft: () => this.choose(this.picture.step(-1, event.shiftKey)),
      ArrowDown: () => this.choose(this.picture.lane(1)),
      ArrowUp: () => this.choose(this.picture.lane(-1)),
      Home: () => this.choose(0),
      End: () => this.choose(this.run.count - 1),
      PageDown: () => this.pan(0.8),
      PageUp: () => this.pan(-0.8),
      "+": () => this.zoom(0.5),
      "=": () => this.zoom(0.5),
      "-": () => this.zoom(2),
      0: () => this.whole(),
      " ": () => (this.scroll.scrollTop += (event.shiftKey ? -0.8 : 0.8) * this.scroll.clientHeight),
      Enter: () => document.getElementById("lines").focus(),
    }[event.key];
    if (!act) return;
    event.preventDefault();
    act();
  }

  wheel(event) {
    const x = event.offsetX;
    if (event.ctrlKey) this.zoom(Math.exp(event.deltaY / 300), this.picture.view.event(x));
    else if (event.shiftKey || event.deltaX) this.pan((event.deltaX || event.deltaY) / 1000);
    else return;
    event.preventDefault();
  }

  press(event) {
    this.pressed = { x: event.offsetX, from: this.picture.view.from, moved: false };
    this.canvas.setPointerCapture(event.pointerId);
  }

  move(event) {
    if (!this.pressed) return this.hover(this.picture.eventAt(event.offsetX, event.offsetY, this.scroll.scrollTop));
    const { view } = this.picture;
    const by = event.offsetX - this.pressed.x;
    if (Math.abs(by) > 3) this.pressed.moved = true;
    if (this.pressed.moved) {
      view.set(this.pressed.from - by / view.scale, this.pressed.from - by / view.scale + (view.to - view.from));
      this.draw();
    }
  }

  release(event) {
    if (this.pressed && !this.pressed.moved) this.choose(this.picture.eventAt(event.offsetX, event.offsetY, this.scroll.scrollTop));
    this.pressed = null;
    this.scroll.focus();
  }

  hover(event) {
    document.getElementById("hover").textContent = event < 0 ? "" : lineOf(this.run, event);
  }
}

function made(tag, text, ...inner) {
  const element = document.createElement(tag);
  if (text) element.textContent = text;
  element.append(...inner);
  return element;
}

// An event in one line.
function lineOf(run, event) {
  const place = run.place(event);
  const where = place ? `, ${run.cell.modules[place[0]].name} ${place[1]}:${place[2]}` : "";
  return `event ${event}, ${run.actor(event)}${where}: ${run.readable(event)}`;
}

function detailsOf(run, event) {
  const place = run.place(event);
  const words = run.readable(event);
  const isRead = run.kinds[event] === run.kind.ReadP;
  const at = isRead ? words.indexOf(" > ") : words.lastIndexOf(" > ");
  const actor = run.actor(event);
  const found = [
    ["event", `${event} of ${run.count}`],
    ["task", actor === "-" ? "the input script" : actor],
  ];
  if (place) {
    const module = run.cell.modules[place[0]];
    found.push(["place", `${module.name} ${place[1]}:${place[2]}`], ["statement", module.lines[place[1] - 1].trim()]);
  }
  found.push(["asks", words.slice(0, at)], ["answer", words.slice(at + 3)]);
  for (const it of run.cell.caught) if (it.event === event) found.push(["catches an arm", it.words]);
  return [...found, ["in the history", `H ${actor} ${run.words(event)}`]];
}

// Whether an element uses the keys itself: what takes words, and a button for Enter and Space.
function hasOwnKeys({ key, target }) {
  if (target.closest?.("input, select, textarea")) return true;
  return (key === "Enter" || key === " ") && Boolean(target.closest?.("button, summary"));
}

// Why a task ended as it did: what the documents say of such an end, and below that what `why` says of this one.
function reasonOf({ cause, notes }) {
  return made("td", "", made("div", cause), ...notes.map((it) => made("div", it)));
}

async function start() {
  const cell = JSON.parse(document.getElementById("cell").textContent);
  const buffer = await inflated(document.getElementById("columns").textContent);
  for (const module of cell.modules) module.lines = module.text.replace(/\n$/, "").split(/\r?\n/);
  return new Page(new Run(cell, columnsOf(cell.columns, buffer)));
}
