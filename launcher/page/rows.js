"use strict";
// The rows that tell what happens: a lane for each task, and events with words. A row has the events that it is about.

class Row {
  constructor(label, height, events) {
    this.label = label;
    this.height = height;
    this.events = events;
  }

  // What stands at the right end of the labels: words, and how far below the row's top.
  get scale() {
    return [];
  }

  // What stands beside the label: the value after an event.
  value(event) {
    return "";
  }

  draw(pen, y) {}
}

class Title extends Row {
  constructor(label) {
    super(label, 24, new Uint32Array(0));
    this.isTitle = true;
  }
}

class Ruler extends Row {
  constructor() {
    super("event", 22, new Uint32Array(0));
  }

  draw(pen, y) {
    const { view } = pen;
    const step = niceStep(90 / view.scale);
    for (let k = Math.ceil(view.from / step) * step; k <= view.to; k += step) {
      pen.vertical(view.x(k), y + 15, 6, "muted");
      const words = k.toLocaleString("en");
      const most = view.left + view.width + MARGIN - words.length * pen.letter;
      pen.text(words, Math.min(view.x(k) + 3, most), y + 10, "muted", 90);
    }
  }
}

// The least of 1, 2, 5, 10, 20 .. that is not below a size.
function niceStep(size) {
  let power = 1;
  while (power * 10 <= size) power *= 10;
  return [1, 2, 5, 10].map((it) => it * power).find((it) => it >= size) || 1;
}

class Lane extends Row {
  constructor(run, task) {
    super(run.cell.tasks[task].name, 36, run.own[task]);
    this.run = run;
    this.task = task;
    this.waits = run.waits(task);
    this.traps = run.traps(task);
    this.errors = run.errors(task);
    this.starts = run.eventsOf(task, ["Go"]);
    this.marks = run.eventsOf(task, ["Stopped", "Flood", "End"]);
  }

  value(event) {
    const { fate } = this.run.cell.tasks[this.task];
    if (event >= this.run.last(this.task)) return fate;
    if (inPairs(this.waits, event)) return "waits";
    if (inPairs(this.traps, event)) return "in a TRAP";
    return inPairs(this.errors, event) ? "in an ERROR part" : "runs";
  }

  draw(pen, y) {
    const { run } = this;
    const last = run.last(this.task);
    const isEnded = last >= 0 && run.kinds[last] === run.kind.End;
    if (last >= 0) pen.bar(0, isEnded ? last + 1 : run.count, y + 8, 20, "run");
    // A wait is a thin line: the bar above and below it is taken away.
    pen.bars(this.waits, y + 8, 20, "ground");
    pen.bars(this.waits, y + 16, 4, "wait");
    pen.bars(this.traps, y + 2, 4, "trap");
    pen.bars(this.errors, y + 30, 4, "error");
    this.drawStatements(pen, y);
    this.drawMarks(pen, y);
  }

  // The statements, where there is room for them: a line where each starts, and its text.
  drawStatements(pen, y) {
    const { view } = pen;
    const [first, past] = view.seen(this.starts);
    if ((past - first) * 4 > view.width) return;
    for (let k = first; k < past; k++) {
      const x = view.x(this.starts[k]);
      const wait = this.waits[firstPair(this.waits, this.starts[k])] ?? Infinity;
      const mark = this.marks[below(this.marks, this.starts[k])] ?? Infinity;
      const next = Math.min(k + 1 < this.starts.length ? this.starts[k + 1] : this.run.last(this.task) + 1, wait, mark);
      pen.vertical(x, y + 6, 24, "ground");
      const left = Math.max(x, view.left);
      const room = Math.min(view.x(next), view.left + view.width) - left - 6;
      if (room > 3 * pen.letter) pen.text(this.statement(this.starts[k]), left + 4, y + 19, "onRun", room);
    }
  }

  // What a statement is, by the line where it stands, or else by what it asks.
  statement(look) {
    const place = this.run.place(look);
    if (place) return this.run.cell.modules[place[0]].lines[place[1] - 1].slice(place[2] - 1).trim();
    const { own, kinds, kind } = this.run;
    const list = own[this.task];
    for (let k = below(list, look) + 1; k < list.length && kinds[list[k]] !== kind.Go; k++) {
      const isAsked = ![kind.Hold, kind.Rise, kind.Trap].includes(kinds[list[k]]);
      if (isAsked) return this.run.readable(list[k]).split(" > ")[0];
    }
    return "";
  }

  drawMarks(pen, y) {
    const [first, past] = pen.view.seen(this.marks);
    for (let k = first; k < past; k++) {
      const event = this.marks[k];
      const isBad = this.run.kinds[event] !== this.run.kind.End || !/^End (Done|Exit) /.test(this.run.words(event));
      pen.rect(pen.view.x(event), y + 4, Math.max(pen.view.scale, 3), 28, isBad ? "error" : "mark");
    }
  }
}

function inPairs(pairs, event) {
  const k = firstPair(pairs, event);
  return k < pairs.length && pairs[k] <= event;
}

// Events with words beside them, as texts and inputs.
class Words extends Row {
  constructor(label, events, words, colour) {
    super(label, 24, events);
    this.words = words;
    this.colour = colour;
  }

  value(event) {
    const k = below(this.events, event + 1);
    return k ? this.words(this.events[k - 1]) : "";
  }

  draw(pen, y) {
    const { view } = pen;
    const [first, past] = view.seen(this.events);
    const hasRoom = (past - first) * 24 < view.width;
    let drawn = -1;
    for (let k = first; k < past; k++) {
      const x = view.x(this.events[k] + 0.5);
      if (Math.floor(x) === drawn) continue;
      drawn = Math.floor(x);
      pen.vertical(x - 1, y + 4, 16, this.colour, 2);
      const end = view.left + view.width;
      const next = k + 1 < this.events.length ? Math.min(view.x(this.events[k + 1] + 0.5), end) : end;
      if (hasRoom && x >= view.left) pen.text(this.words(this.events[k]), x + 4, y + 12, "ink", next - x - 8);
    }
  }
}
