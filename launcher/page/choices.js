"use strict";
// Which rows of the picture are shown, which of them stay when it is scrolled, and their order: chosen by the reader, kept in the address.

// Rows stay above the others up to this part of the height that is seen.
const MOST_FIXED = 0.6;

class Choices {
  // `rows` has all rows in their order; each one's number there is its name in the address.
  constructor(rows) {
    this.rows = rows;
    this.reset();
  }

  reset() {
    this.order = this.rows.map((_, k) => k);
    this.hidden = new Set(this.order.filter((k) => this.rows[k].isFolded));
    this.pinned = new Set(this.order.filter((k) => this.rows[k].isFixed));
  }

  get isChanged() {
    return this.text !== new Choices(this.rows).text;
  }

  // The rows that are shown, in their order: `4` is shown, `p4` stays.
  get text() {
    return this.order.filter((k) => !this.hidden.has(k)).map((k) => (this.pinned.has(k) ? `p${k}` : `${k}`)).join(".");
  }

  set text(words) {
    const named = words.split(".").map((it) => ({ isPinned: it.startsWith("p"), row: Number(it.replace("p", "")) }));
    const known = named.filter(({ row }) => Number.isInteger(row) && row >= 0 && row < this.rows.length);
    const shown = [...new Set(known.map((it) => it.row))];
    this.hidden = new Set(this.rows.map((_, k) => k).filter((k) => !shown.includes(k)));
    this.pinned = new Set(known.filter((it) => it.isPinned).map((it) => it.row));
    this.order = [...shown, ...this.hidden];
  }

  toggle(set, row) {
    if (!set.delete(row)) set.add(row);
  }

  // Moves a row up or down past the next one that is shown.
  move(row, step) {
    const shown = this.order.filter((k) => !this.hidden.has(k));
    const other = shown[shown.indexOf(row) + step];
    if (other === undefined) return;
    this.order = this.order.filter((k) => k !== row);
    this.order.splice(this.order.indexOf(other) + (step > 0 ? 1 : 0), 0, row);
  }

  // The rows that stay and those that scroll. The ruler and the lanes stay, as far as there is room for them.
  parted(height) {
    const shown = this.order.filter((k) => !this.hidden.has(k)).map((k) => this.rows[k]);
    const fixed = [];
    let used = 0;
    for (const k of this.order) {
      if (!this.pinned.has(k) || this.hidden.has(k)) continue;
      used += this.rows[k].height;
      if (fixed.length && used > height * MOST_FIXED) break;
      fixed.push(this.rows[k]);
    }
    return [fixed, shown.filter((it) => !fixed.includes(it))];
  }
}

// The list of all rows, each with what can be chosen for it.
class RowList {
  constructor(choices, body, onChange) {
    this.choices = choices;
    this.body = body;
    this.onChange = onChange;
    this.fill();
  }

  fill() {
    this.body.replaceChildren();
    for (const k of this.choices.order) if (this.choices.rows[k].label) this.body.append(this.rowOf(k));
  }

  rowOf(k) {
    const { choices } = this;
    const isShown = !choices.hidden.has(k);
    const act = (does) => () => {
      does();
      this.fill();
      this.onChange();
    };
    const shown = button(isShown ? "hide" : "show", act(() => choices.toggle(choices.hidden, k)));
    const pinned = button(choices.pinned.has(k) ? "let go" : "pin", act(() => choices.toggle(choices.pinned, k)));
    const moves = [button("up", act(() => choices.move(k, -1))), button("down", act(() => choices.move(k, 1)))];
    const name = made("span", choices.rows[k].label);
    name.className = isShown ? "" : "hidden";
    return made("div", "", shown, ...(isShown ? [pinned, ...moves] : []), name);
  }
}

function button(words, act) {
  const found = made("button", words);
  found.addEventListener("click", act);
  return found;
}
