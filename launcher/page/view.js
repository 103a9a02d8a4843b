"use strict";
// The part of the run that is seen, and the pen that draws it.

// Pixels to the left of the plot, for labels, and to its right.
const GUTTER = 170;
const MARGIN = 8;
const LEAST_SPAN = 6;

class View {
  constructor(count) {
    this.count = Math.max(count, LEAST_SPAN);
    this.width = 800;
    this.left = GUTTER;
    this.whole();
  }

  whole() {
    this.from = 0;
    this.to = this.count;
  }

  // Pixels of an event.
  get scale() {
    return this.width / (this.to - this.from);
  }

  x(event) {
    return this.left + (event - this.from) * this.scale;
  }

  // The event, as a fraction, at a pixel.
  event(x) {
    return this.from + (x - this.left) / this.scale;
  }

  set(from, to) {
    const span = Math.min(Math.max(to - from, LEAST_SPAN), this.count);
    this.from = Math.min(Math.max(from, 0), this.count - span);
    this.to = this.from + span;
  }

  // Makes the span that is seen `factor` times as long; the event at the centre stays where it is.
  zoom(factor, centre) {
    const span = Math.min(Math.max((this.to - this.from) * factor, LEAST_SPAN), this.count);
    const part = (centre - this.from) / (this.to - this.from);
    this.set(centre - part * span, centre - part * span + span);
  }

  pan(events) {
    this.set(this.from + events, this.to + events);
  }

  // Moves the span, no more than needed, so that an event is seen.
  show(event) {
    const margin = (this.to - this.from) * 0.08;
    if (event < this.from + margin) this.pan(event - this.from - margin);
    else if (event + 1 > this.to - margin) this.pan(event + 1 - this.to + margin);
  }

  // The numbers of a list of events, [first, past), that may be seen.
  seen(events) {
    return [Math.max(below(events, this.from) - 1, 0), Math.min(below(events, this.to) + 1, events.length)];
  }
}

// Draws within the plot, to the right of the labels.
class Pen {
  constructor(context, view, colours, letter) {
    this.context = context;
    this.view = view;
    this.colours = colours;
    this.letter = letter;
  }

  colour(name) {
    return this.colours[name] || name;
  }

  rect(x, y, width, height, name) {
    const left = Math.max(x, this.view.left);
    const right = Math.min(x + width, this.view.left + this.view.width);
    if (right <= left) return;
    this.context.fillStyle = this.colour(name);
    this.context.fillRect(left, y, right - left, height);
  }

  // A bar between two events, at least a pixel wide.
  bar(from, past, y, height, name) {
    const x = this.view.x(from);
    this.rect(x, y, Math.max(this.view.x(past) - x, 1), height, name);
  }

  // Bars between pairs of events; those that share a pixel are drawn once.
  bars(pairs, y, height, name) {
    let drawn = -1;
    for (let k = firstPair(pairs, this.view.from); k < pairs.length && pairs[k] < this.view.to; k += 2) {
      const end = Math.floor(this.view.x(pairs[k + 1]));
      if (end > drawn || drawn < 0) {
        this.bar(pairs[k], pairs[k + 1], y, height, name);
        drawn = end;
      }
    }
  }

  text(words, x, y, name, width) {
    const most = Math.floor(width / this.letter);
    if (most < 1) return;
    this.context.fillStyle = this.colour(name);
    this.context.fillText(cut(words, most), x, y);
  }

  vertical(x, y, height, name, width = 1) {
    this.rect(Math.round(x), y, width, height, name);
  }

  horizontal(x, past, y, name) {
    this.rect(x, Math.round(y), past - x, 1, name);
  }
}

function cut(text, most) {
  return text.length > most ? `${text.slice(0, Math.max(most - 1, 0))}…` : text;
}

// The place of the first of pairs of events, in order, that ends after an event.
function firstPair(pairs, event) {
  let low = 0;
  let high = pairs.length / 2;
  while (low < high) {
    const middle = (low + high) >> 1;
    if (pairs[2 * middle + 1] <= event) low = middle + 1;
    else high = middle;
  }
  return 2 * low;
}
