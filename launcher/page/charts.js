"use strict";
// The rows of the picture that tell how things stand: signals, persistents, meetings, and the axes of arms.

class Signal extends Row {
  constructor(name, kind, changes) {
    super(name, 26, changes.events);
    this.kind = kind;
    this.changes = changes;
  }

  get isStill() {
    return !this.events.length;
  }

  at(event) {
    const k = below(this.events, event + 1);
    return k ? this.changes.values[k - 1] : this.changes.start;
  }

  value(event) {
    return String(this.at(event));
  }

  draw(pen, y) {
    const { view } = pen;
    const [first, past] = view.seen(this.events);
    const level = (value) => y + (value ? 5 : 20);
    let value = first ? this.changes.values[first - 1] : this.changes.start;
    let x = view.left;
    for (let k = first; k < past; k++) {
      const at = view.x(this.events[k] + 0.5);
      // Changes within one pixel are one line from top to bottom.
      if (Math.floor(at) > Math.floor(x) || k === first) {
        if (value) pen.rect(x, y + 5, at - x, 15, "high");
        pen.horizontal(x, at, level(value), "signal");
        pen.vertical(Math.floor(at), y + 5, 16, "signal");
        x = at;
      }
      value = this.changes.values[k];
    }
    if (value) pen.rect(x, y + 5, view.left + view.width - x, 15, "high");
    pen.horizontal(x, view.left + view.width, level(value), "signal");
  }
}

// Values as a step from one event to the next; what shares a pixel is one line.
function drawSteps(pen, events, values, start, place, colour) {
  const { view } = pen;
  const [first, past] = view.seen(events);
  let at = first ? values[first - 1] : start;
  let x = view.left;
  for (let k = first; k < past; ) {
    const pixel = Math.floor(view.x(events[k] + 0.5));
    let low = at;
    let high = at;
    pen.horizontal(x, pixel + 1, place(at), colour);
    for (; k < past && Math.floor(view.x(events[k] + 0.5)) === pixel; k++) {
      at = values[k];
      if (at < low) low = at;
      if (at > high) high = at;
    }
    pen.rect(pixel, place(high), 1, place(low) - place(high) + 1, colour);
    x = pixel;
  }
  pen.horizontal(x, view.left + view.width, place(at), colour);
}

function rangeOf(values, start) {
  let low = start;
  let high = start;
  for (const value of values) {
    if (value < low) low = value;
    if (value > high) high = value;
  }
  return [low, high];
}

class Stored extends Row {
  constructor(name, changes) {
    super(name, 26, changes.events);
    this.changes = changes;
    const numbers = Float64Array.from(changes.events, (_, k) => Number(changes.values[k]));
    this.numbers = numbers.length > 2 && numbers.every((it) => !Number.isNaN(it)) ? numbers : null;
    if (this.numbers) this.range = rangeOf(numbers, numbers[0]);
  }

  get isStill() {
    return this.events.length < 2;
  }

  value(event) {
    const k = below(this.events, event + 1);
    return k ? this.changes.values[k - 1] : "";
  }

  draw(pen, y) {
    const [first, past] = pen.view.seen(this.events);
    if (this.numbers && (past - first) * 4 * pen.letter > pen.view.width) this.drawNumbers(pen, y);
    else this.drawBoxes(pen, y, first, past);
  }

  // A num that changes too often for its values to be written.
  drawNumbers(pen, y) {
    const [low, high] = this.range;
    pen.rect(pen.view.left, y + 4, pen.view.width, 18, "box");
    const place = (value) => y + 21 - (16 * (value - low)) / (high - low || 1);
    drawSteps(pen, this.events, this.numbers, this.numbers[0], place, "stored");
  }

  drawBoxes(pen, y, first, past) {
    const { view } = pen;
    const end = view.left + view.width;
    let drawn = -1;
    for (let k = first; k < past; k++) {
      const x = this.events[k] ? view.x(this.events[k] + 0.5) : view.x(0);
      const next = k + 1 < this.events.length ? view.x(this.events[k + 1] + 0.5) : end;
      if (next - x < 2 && Math.floor(x) === drawn) continue;
      drawn = Math.floor(x);
      const left = Math.max(x, view.left);
      const right = Math.min(next, end);
      pen.rect(left, y + 5, right - left, 16, "box");
      pen.vertical(x, y + 4, 18, "stored");
      if (right - left > 2 * pen.letter) pen.text(this.changes.values[k], left + 4, y + 13, "ink", right - left - 6);
    }
  }
}

class Meeting extends Row {
  // `comes` has, of each task that comes to the meeting, its events there, and whether each is Met.
  constructor(name, comes, tasks) {
    const events = comes.flatMap((it) => it.events).sort((a, b) => a - b);
    super(name, 12 + 9 * comes.length, Uint32Array.from(events));
    this.comes = comes.map((it) => ({ ...it, name: tasks[it.task].name, waits: waitsAt(it) }));
  }

  draw(pen, y) {
    this.comes.forEach((it, k) => {
      const top = y + 6 + 9 * k;
      pen.bars(it.waits, top + 2, 4, "wait");
      const [first, past] = pen.view.seen(it.events);
      let drawn = -1;
      for (let n = first; n < past; n++) {
        const x = pen.view.x(it.events[n] + 0.5);
        if (!it.met[n] || Math.floor(x) === drawn) continue;
        drawn = Math.floor(x);
        pen.vertical(x - 1, top, 8, "mark", 3);
        if (pen.view.scale > 2 * pen.letter) pen.text(it.name, x + 4, top + 4, "muted", 60);
      }
    });
  }
}

// Pairs of events between which a task waits at a meeting.
function waitsAt(comes) {
  const found = [];
  let open = -1;
  comes.events.forEach((event, k) => {
    if (!comes.met[k] && open < 0) open = event;
    if (comes.met[k] && open >= 0) {
      found.push(open, event);
      open = -1;
    }
  });
  if (open >= 0) found.push(open, comes.count);
  return Uint32Array.from(found);
}

class Axis extends Row {
  constructor(label, events, values, start, spans) {
    super(label, 64, events);
    this.values = values;
    this.start = start;
    this.spans = spans;
    this.fit();
  }

  // The degrees that are seen: those of the arm, and bounds near them.
  fit() {
    let [low, high] = rangeOf(this.values, this.start);
    this.most = [low, high];
    const reach = Math.max(high - low, 1000);
    for (const { bounds } of this.spans) {
      for (const bound of bounds) {
        if (bound > high && bound < high + reach) high = bound;
        if (bound < low && bound > low - reach) low = bound;
      }
    }
    const margin = Math.max(high - low, 100) * 0.08;
    this.low = low - margin;
    this.high = high + margin;
  }

  get isStill() {
    return this.most[0] === this.most[1] && !this.spans.length;
  }

  get scale() {
    const [low, high] = this.most;
    return low === high ? [[degrees(low), this.height / 2]] : [[degrees(high), 10], [degrees(low), this.height - 10]];
  }

  value(event) {
    const k = below(this.events, event + 1);
    return degrees(k ? this.values[k - 1] : this.start);
  }

  draw(pen, y) {
    const { view } = pen;
    const top = y + 4;
    const height = this.height - 8;
    const place = (value) => top + height * (1 - (value - this.low) / (this.high - this.low));
    pen.rect(view.left, top, view.width, height, "field");
    this.drawZones(pen, top, height, place);
    if (this.low < 0 && this.high > 0) pen.horizontal(view.left, view.left + view.width, place(0), "faint");
    drawSteps(pen, this.events, this.values, this.start, place, "axis");
  }

  drawZones(pen, top, height, place) {
    for (const { bounds, from, past, inside, name, isOutput } of this.spans) {
      const end = past < 0 ? pen.view.count : past;
      const high = Math.max(Math.min(place(bounds[1]), top + height), top);
      const low = Math.max(Math.min(place(bounds[0]), top + height), top);
      const colour = isOutput ? "output" : "zone";
      if (inside) pen.bar(from, end, high, Math.max(low - high, 1), colour);
      else {
        pen.bar(from, end, top, high - top, colour);
        pen.bar(from, end, low, top + height - low, colour);
      }
      const x = Math.max(pen.view.x(from), pen.view.left);
      const room = Math.min(pen.view.x(end), pen.view.left + pen.view.width) - x - 4;
      pen.text(name, x + 3, Math.min((inside ? high : top) + 7, top + height - 6), "ink", room);
    }
  }
}

// The rows of a group that never change, in one line.
class Still extends Row {
  constructor(rows) {
    super("never changes", 20, new Uint32Array(0));
    this.words = rows.map((it) => `${it.label} ${it.value(Number.MAX_SAFE_INTEGER)}`).join(", ");
  }

  draw(pen, y) {
    pen.text(this.words, pen.view.left + 4, y + 10, "muted", pen.view.width - 8);
  }
}
