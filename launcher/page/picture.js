"use strict";
// The picture of a run: its rows, what is seen of them, and the event that is chosen.

function rowsOf(run) {
  const { cell } = run;
  const rows = [new Ruler(), ...cell.tasks.map((_, task) => new Lane(run, task))];
  for (const row of rows) row.isFixed = true;
  const inputs = run.own[INPUTS];
  if (inputs.length) rows.push(new Words("inputs", inputs, (event) => inputText(run, event), "signal"));
  const texts = run.eventsOf(null, ["Say"]);
  if (texts.length) rows.push(new Words("texts", texts, (event) => run.said(event), "text"));
  const groups = [signalRows(run), storedRows(run), interruptRows(run), meetingRows(run), ...armRows(run)];
  return [...rows, ...groups.flatMap(folded)];
}

// A row that never changes is folded: its group has a line with the names and the values of all these.
function folded(group) {
  const still = group.filter((it) => it.isStill);
  if (!still.length) return group;
  for (const row of still) row.isFolded = true;
  return [...group, new Still(still)];
}

function inputText(run, event) {
  const [signal, value] = run.cell.inputs[Number(run.words(event).split(" ")[1])];
  return `${run.cell.signals[signal].name} ${value}`;
}

function signalRows(run) {
  const found = run.cell.signals.map((it, k) => new Signal(it.name, it.kind, run.signals[k]));
  return found.length ? [new Title("signals"), ...found] : [];
}

function storedRows(run) {
  const found = run.cell.stored.map((name, k) => new Stored(name, run.stored[k]));
  return found.length ? [new Title("persistents"), ...found] : [];
}

function interruptRows(run) {
  const found = run.cell.interrupts.map(([name, events, values]) => new Stored(name, { events: Uint32Array.from(events), values }));
  return found.length ? [new Title("interrupts"), ...found] : [];
}

function meetingRows(run) {
  const comes = new Map();
  for (const event of run.eventsOf(null, ["Met", "Apart"])) {
    const [, meeting] = run.words(event).split(" ");
    const tasks = comes.get(meeting) || comes.set(meeting, new Map()).get(meeting);
    const task = run.actors[event];
    if (!tasks.has(task)) tasks.set(task, { task, events: [], met: [], count: run.count });
    const row = tasks.get(task);
    row.events.push(event);
    row.met.push(run.kinds[event] === run.kind.Met);
  }
  const { meetings, tasks: names } = run.cell;
  const found = [...comes].map(([meeting, tasks]) => new Meeting(meetings[meeting], [...tasks.values()], names));
  return found.length ? [new Title("meetings"), ...found] : [];
}

// A row for each axis that moves, or that a zone bounds.
function armRows(run) {
  const groups = [];
  run.arms.forEach((arm, task) => {
    const zones = run.cell.zones.filter((it) => it.task === task);
    const axes = [];
    arm.axes.forEach((values, axis) => {
      const start = run.cell.tasks[task].start[axis];
      const spans = zones.flatMap((zone) => spansOf(zone, axis));
      const moves = values.some((it) => it !== start);
      if (spans.length || moves) axes.push(new Axis(`axis ${axis + 1}`, arm.events, values, start, spans));
    });
    if (axes.length) groups.push([new Title(`arm of ${run.cell.tasks[task].name}, in degrees`), ...axes]);
  });
  return groups;
}

// What a zone says of an axis: its bounds there, and between which events it is watched.
function spansOf(zone, axis) {
  const { name, inside, signal, from, past } = zone;
  const own = zone.bounds.filter(([number]) => number === axis);
  return own.map(([, low, high]) => ({ name, inside, from, past, bounds: [low, high], isOutput: signal !== null }));
}

class Picture {
  constructor(run) {
    this.run = run;
    this.view = new View(run.count);
    this.choices = new Choices(rowsOf(run));
    this.chosen = -1;
    this.task = 0;
    this.layOut(Infinity);
  }

  // Lays the rows out in a height that is seen: those that stay at its top, and below them those that scroll.
  layOut(seen) {
    const [fixed, free] = this.choices.parted(seen);
    this.rows = [...fixed, ...free];
    this.tops = [];
    this.height = this.fixed = 0;
    this.rows.forEach((row, k) => {
      this.tops.push(this.height);
      this.height += row.height;
      if (k + 1 === fixed.length) this.fixed = this.height;
    });
  }

  // Draws the rows that are seen when the picture is scrolled by `top`.
  draw(context, colours, letter, top, height) {
    const pen = new Pen(context, this.view, colours, letter);
    context.fillStyle = colours.ground;
    context.fillRect(0, 0, this.view.left + this.view.width + MARGIN, height);
    this.drawRows(pen, top, this.fixed, height);
    // What scrolls goes away under the rows that stay.
    context.fillStyle = colours.ground;
    context.fillRect(0, 0, this.view.left + this.view.width + MARGIN, this.fixed);
    this.drawRows(pen, 0, 0, this.fixed);
    if (top > 0) pen.horizontal(0, this.view.left + this.view.width, this.fixed, "muted");
    this.drawChosen(pen, height);
  }

  // Draws the rows that stay, or those that scroll, between two heights of the canvas.
  drawRows(pen, top, from, past) {
    this.rows.forEach((row, k) => {
      const y = this.tops[k] - top;
      const stays = this.tops[k] < this.fixed;
      if (stays === from > 0 || y > past || y + row.height < from) return;
      row.draw(pen, y);
      this.drawLabel(pen, row, y);
    });
  }

  drawChosen(pen, height) {
    const { view } = this;
    for (const { event, task } of this.run.cell.caught) {
      const k = this.rows.findIndex((it) => it instanceof Lane && it.task === task);
      if (k >= 0 && this.tops[k] < this.fixed) pen.rect(view.x(event), this.tops[k] + 1, Math.max(view.scale, 4), 6, "error");
    }
    if (this.chosen < 0) return;
    pen.vertical(view.x(this.chosen), 0, height, "chosen");
    if (view.scale > 3) pen.vertical(view.x(this.chosen + 1), 0, height, "chosen");
  }

  drawLabel({ context, colours, letter }, row, y) {
    const most = Math.floor((GUTTER - 14) / letter);
    context.fillStyle = row.isTitle ? colours.muted : colours.ink;
    context.fillText(cut(row.label, most), 6, y + (row.isTitle ? 14 : 12));
    context.fillStyle = colours.muted;
    for (const [words, at] of row.scale || []) context.fillText(words, GUTTER - 6 - words.length * letter, y + at);
    const value = this.chosen >= 0 && !row.isTitle ? row.value(this.chosen) : "";
    const room = most - row.label.length - 1;
    if (!value) return;
    if (row.height > 30) context.fillText(cut(value, most), 6, y + 25);
    else if (room > 0) context.fillText(cut(value, room), 6 + (row.label.length + 1) * letter, y + 12);
  }

  // The event at a place of the canvas, when the picture is scrolled by `top`: the one that the row there has nearest to it, or any if
  // the row has none.
  eventAt(x, y, top) {
    const event = Math.floor(this.view.event(x));
    const row = this.rowAt(y < this.fixed ? y : y + top);
    const found = row && row.events.length ? nearest(row.events, event) : event;
    return Math.min(Math.max(found, 0), this.run.count - 1);
  }

  rowAt(y) {
    const k = below(this.tops, y + 1) - 1;
    return this.rows[k];
  }

  choose(event) {
    if (event < 0 || event >= this.run.count) return false;
    this.chosen = event;
    if (this.run.actors[event] !== INPUTS) this.task = this.run.actors[event];
    this.view.show(event);
    return true;
  }

  // The nearest event of another task, `step` lanes further down.
  lane(step) {
    const count = this.run.cell.tasks.length;
    for (let k = 1; k <= count; k++) {
      const task = (this.task + step * k + count * k) % count;
      if (this.run.own[task].length) return nearest(this.run.own[task], Math.max(this.chosen, 0));
    }
    return -1;
  }

  // The event before or after the chosen one, of the same task or of any.
  step(step, isOwn) {
    if (this.chosen < 0) return step > 0 ? 0 : this.run.count - 1;
    if (!isOwn) return this.chosen + step;
    const own = this.run.own[this.task];
    const k = below(own, this.chosen);
    return own[k + (step > 0 && own[k] !== this.chosen ? 0 : step)] ?? -1;
  }
}
