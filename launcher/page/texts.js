"use strict";
// The text of the modules, each line with the number of times that it ran.

class Texts {
  constructor(run, choice, lines) {
    this.run = run;
    this.choice = choice;
    this.lines = lines;
    this.module = 0;
    this.row = 1;
    this.onLine = () => {};
    // The statement that each task is at: its name, module and line.
    this.pointers = [];
    run.cell.modules.forEach((it, k) => choice.append(optionOf(it, k)));
    choice.addEventListener("change", () => this.show(Number(choice.value), 1));
    lines.addEventListener("click", (event) => this.click(event));
    lines.addEventListener("keydown", (event) => this.key(event));
  }

  fill() {
    this.lines.replaceChildren();
    // One by one, since a module may have more lines than a call takes arguments.
    for (const line of linesOf(this.run.cell, this.module)) this.lines.append(line);
    this.mark();
    this.drawPointers();
  }

  // Shows where all tasks are, each by its name beside its line.
  point(pointers) {
    this.pointers = pointers;
    this.drawPointers();
  }

  drawPointers() {
    for (const line of this.pointed || []) line.children[2].textContent = "";
    const here = this.pointers.filter((it) => it.module === this.module);
    this.pointed = here.map((it) => this.lines.children[it.row - 1]).filter(Boolean);
    for (const { name, row } of here) {
      const mark = this.lines.children[row - 1]?.children[2];
      if (mark) mark.textContent = mark.textContent ? `${mark.textContent} ${name}` : `\u25b6 ${name}`;
    }
  }

  // Shows a line of a module, as the chosen one.
  show(module, row) {
    if (module !== this.module) {
      this.module = module;
      this.choice.value = String(module);
      this.row = row;
      this.fill();
      return;
    }
    this.row = row;
    this.mark();
  }

  mark() {
    const old = this.lines.querySelector(".chosen");
    if (old) old.classList.remove("chosen");
    const line = this.lines.children[this.row - 1];
    if (!line) return;
    line.classList.add("chosen");
    this.reveal(line);
  }

  // Scrolls the text, and not the page, no more than needed.
  reveal(line) {
    const { lines } = this;
    const past = line.offsetTop + line.offsetHeight;
    if (line.offsetTop < lines.scrollTop) lines.scrollTop = line.offsetTop;
    else if (past > lines.scrollTop + lines.clientHeight) lines.scrollTop = past - lines.clientHeight;
  }

  click(event) {
    const line = event.target.closest(".line");
    if (line) this.pick(Number(line.dataset.row));
  }

  pick(row) {
    this.row = row;
    this.mark();
    this.onLine(this.module, row);
  }

  key(event) {
    const step = { ArrowDown: 1, ArrowUp: -1, PageDown: 20, PageUp: -20 }[event.key];
    if (step) {
      this.row = Math.min(Math.max(this.row + step, 1), this.run.cell.modules[this.module].lines.length);
      this.mark();
    } else if (event.key === "Enter") {
      this.pick(this.row);
    } else {
      return;
    }
    event.preventDefault();
  }

  // For a print all modules are there, if they are not too long.
  print(isPrinted, place) {
    place.replaceChildren();
    const { modules } = this.run.cell;
    if (!isPrinted || modules.reduce((sum, it) => sum + it.lines.length, 0) > MOST_PRINTED) return;
    modules.forEach((it, k) => {
      if (k !== this.module) place.append(made("h3", it.name), ...linesOf(this.run.cell, k));
    });
  }
}

function optionOf(module, number) {
  const option = made("option", module.name);
  option.value = String(number);
  return option;
}

function linesOf(cell, number) {
  const module = cell.modules[number];
  if (!module) return [];
  return module.lines.map((text, k) => {
    const count = module.counts[k + 1];
    const parts = [made("span", String(k + 1)), made("span", countText(count)), made("b"), made("code", text || " ")];
    const line = made("div", "", ...parts);
    line.className = count === 0 ? "line never" : count ? "line ran" : "line";
    line.dataset.row = String(k + 1);
    if (count === 0) line.title = "never ran";
    return line;
  });
}

// How often a line ran; nothing if no statement starts there.
function countText(count) {
  return count === undefined ? "" : count === 0 ? "never" : count.toLocaleString("en");
}
