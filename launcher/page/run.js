"use strict";
// The run that the page shows: its columns, one number for each event or change, and what is read off them.

const TYPES = { u8: Uint8Array, u32: Uint32Array, i32: Int32Array };
const INPUTS = 255;

function bytesOf(base64) {
  const text = atob(base64);
  const bytes = new Uint8Array(text.length);
  for (let k = 0; k < text.length; k++) bytes[k] = text.charCodeAt(k);
  return bytes;
}

async function inflated(base64) {
  const packed = new Blob([bytesOf(base64)]).stream().pipeThrough(new DecompressionStream("deflate"));
  return new Response(packed).arrayBuffer();
}

function columnsOf(rows, buffer) {
  const found = {};
  let at = 0;
  for (const [name, type, length] of rows) {
    found[name] = new TYPES[type](buffer, at, length);
    at += length * TYPES[type].BYTES_PER_ELEMENT;
  }
  return found;
}

// How many numbers of an ascending list are below a limit.
function below(list, limit) {
  let low = 0;
  let high = list.length;
  while (low < high) {
    const middle = (low + high) >> 1;
    if (list[middle] < limit) low = middle + 1;
    else high = middle;
  }
  return low;
}

// The number of an ascending list that is nearest to a place, or -1.
function nearest(list, place) {
  const k = below(list, place);
  if (k === list.length) return k ? list[k - 1] : -1;
  return k && place - list[k - 1] <= list[k] - place ? list[k - 1] : list[k];
}

// Thousandths as a num of a history.
function degrees(size) {
  const text = String(Math.abs(size) / 1000);
  return size < 0 ? `-${text}` : text;
}

class Run {
  constructor(cell, columns) {
    this.cell = cell;
    this.count = columns.actors.length;
    this.actors = columns.actors;
    this.kinds = columns.kinds;
    this.places = columns.places;
    this.lines = columns.lines;
    this.kind = Object.fromEntries(cell.kinds.map((name, number) => [name, number]));
    this.starts = this.startsOfLines();
    this.own = this.eventsOfActors();
    this.arms = cell.tasks.map((task, number) => this.arm(task, number, columns));
    this.signals = cell.signals.map(({ start }, k) => {
      return { events: columns[`signal ${k} events`], values: columns[`signal ${k} values`], start };
    });
    this.stored = cell.stored.map((_, k) => {
      return { events: columns[`stored ${k} events`], values: textOf(columns[`stored ${k} values`]).split("\n") };
    });
  }

  startsOfLines() {
    const starts = new Uint32Array(this.count + 1);
    let at = 0;
    for (let k = 0; k < this.count; k++) {
      at = this.lines.indexOf(10, at) + 1;
      starts[k + 1] = at;
    }
    return starts;
  }

  // The events of each task, and of the input script under INPUTS.
  eventsOfActors() {
    const counts = new Uint32Array(256);
    for (const actor of this.actors) counts[actor]++;
    const own = Array.from(counts, (count) => new Uint32Array(count));
    counts.fill(0);
    for (let k = 0; k < this.count; k++) own[this.actors[k]][counts[this.actors[k]]++] = k;
    return own;
  }

  arm(task, number, columns) {
    const events = this.eventsOf(number, ["Given"]);
    const axes = task.start.map((start, axis) => {
      const steps = columns[`arm ${number} ${axis}`];
      const values = new Int32Array(steps.length);
      let at = start;
      for (let k = 0; k < steps.length; k++) values[k] = at += steps[k];
      return values;
    });
    return { events, axes };
  }

  // The events of these kinds, of one actor or of all.
  eventsOf(actor, names) {
    const wanted = new Uint8Array(256);
    for (const name of names) wanted[this.kind[name]] = 1;
    if (actor !== null) return this.own[actor].filter((k) => wanted[this.kinds[k]]);
    const found = [];
    for (let k = 0; k < this.count; k++) if (wanted[this.kinds[k]]) found.push(k);
    return Uint32Array.from(found);
  }

  // The request and the answer of an event, as the history has them.
  words(event) {
    if (this.kinds[event] === this.kind.Given) return `Setpoint ${this.setpoint(event).map(degrees).join(" ")} > Given`;
    return textOf(this.lines.subarray(this.starts[event], this.starts[event + 1] - 1));
  }

  // The position that an arm is given at an event.
  setpoint(event) {
    return this.positionAt(this.actors[event], event);
  }

  actor(event) {
    return this.actors[event] === INPUTS ? "-" : this.cell.tasks[this.actors[event]].name;
  }

  // The place of the statement that an event belongs to: module, line and column, or null.
  place(event) {
    const number = this.places[event];
    return number ? this.cell.places[number - 1] : null;
  }

  // Pairs of events: where a wait begins, and where the task rises or, if it does not, where the run ends.
  waits(task) {
    return this.pairs(task, "Hold", ["Rise"]);
  }

  traps(task) {
    return this.pairs(task, "Trap", ["Leave", "End"]);
  }

  pairs(task, opening, closing) {
    const found = [];
    const closes = closing.map((name) => this.kind[name]);
    let open = -1;
    for (const k of this.own[task]) {
      if (this.kinds[k] === this.kind[opening]) {
        open = k;
      } else if (open >= 0 && closes.includes(this.kinds[k])) {
        found.push(open, k);
        open = -1;
      }
    }
    if (open >= 0) found.push(open, this.count);
    return Uint32Array.from(found);
  }

  // Pairs of events between which a task is in an ERROR part, by the places of its looks.
  errors(task) {
    const found = [];
    let open = -1;
    for (const k of this.own[task]) {
      const place = this.kinds[k] === this.kind.Go ? this.place(k) : null;
      const isEnd = this.kinds[k] === this.kind.End;
      if (place && place[3] && open < 0) open = k;
      if (open >= 0 && (isEnd || (place && !place[3]))) {
        found.push(open, k);
        open = -1;
      }
    }
    if (open >= 0) found.push(open, this.count);
    return Uint32Array.from(found);
  }

  // The event after which a task has none.
  last(task) {
    const own = this.own[task];
    return own.length ? own[own.length - 1] : -1;
  }

  // The next event, from one on in a direction, that a test takes; -1 if there is none.
  next(event, step, test) {
    for (let k = event + step; k >= 0 && k < this.count; k += step) if (test(k)) return k;
    return -1;
  }

  // The last look of an event's task that started what it does.
  look(event) {
    const own = this.own[this.actors[event]];
    for (let k = below(own, event + 1) - 1; k >= 0; k--) if (this.kinds[own[k]] === this.kind.Go) return own[k];
    return -1;
  }

  // The place of the statement that a task is at after an event, or null.
  pointer(task, event) {
    const own = this.own[task];
    const k = below(own, event + 1) - 1;
    return k < 0 ? null : this.place(own[k]);
  }

  // The value of a column of changes after an event.
  valueAt(changes, event, start) {
    const k = below(changes.events, event + 1);
    return k ? changes.values[k - 1] : start;
  }

  positionAt(task, event) {
    const arm = this.arms[task];
    const k = below(arm.events, event + 1);
    return arm.axes.map((values, axis) => (k ? values[k - 1] : this.cell.tasks[task].start[axis]));
  }

  // The words of an event with names in place of the numbers of persistents, signals and meetings.
  readable(event) {
    const words = this.words(event);
    const { persistents, signals, meetings, inputs, zoneNames } = this.cell;
    const persistent = (_, number) => ` ${persistents[number]}`;
    const signal = (_, number) => ` ${signals[number].name}`;
    const met = (_, meeting, set) => `Arrive ${meetings[meeting]} ${this.tasksOf(Number(set))}`;
    const given = (all, number) => `${all} (${signals[inputs[number][0]].name} becomes ${inputs[number][1]})`;
    switch (this.cell.kinds[this.kinds[event]]) {
      case "ReadP":
      case "WriteP":
      case "TestSet":
        return words.replace(/ P(\d+)/, persistent);
      case "Order":
        return words.replace(/ P(\d+)/, persistent).replace(/ D(\d+)/, signal);
      case "ReadS":
      case "WriteS":
      case "ZoneTie":
        return words.replace(/ D(\d+)/, signal);
      case "Met":
      case "Apart":
        return words.replace(/^Arrive (\d+) (\d+)/, met);
      case "Stopped":
        return words.replace(/Cell (\d+)$/, (_, number) => zoneNames[number]).replace(/Own (\d+)$/, "zone $1");
      case "Input":
        return words.replace(/^Input (\d+)/, given);
      default:
        return words;
    }
  }

  tasksOf(set) {
    return this.cell.tasks.filter((_, number) => (set >> number) & 1).map((it) => it.name).join("+");
  }

  // The text that an event writes for the operator.
  said(event) {
    const found = /^Say "((?:[^"\\]|""|\\\\)*)"(?: (.*))? > Ok$/.exec(this.words(event));
    return found ? found[1].replace(/(["\\])\1/g, "$1") + (found[2] || "") : "";
  }
}

function textOf(bytes) {
  return new TextDecoder().decode(bytes);
}
