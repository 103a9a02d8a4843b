"use strict";
// A page of `show` in node, without a browser: a document that has as much as the page uses, and a canvas that notes what is drawn.
//
//     node browser.js PAGE < COMMANDS
//
// Each line of COMMANDS is an expression of the page's own scripts, with `page` the page, `press(key)` a key, `click(x, y)`
// a click on it, `drawn()` what was drawn last, `details()` what is shown of the chosen event, and `svg(width)` the whole picture as SVG,
// in the page's own colours. Its value is printed as JSON.
const fs = require("fs");
const vm = require("vm");

class Element {
  constructor(tag) {
    this.tagName = tag;
    this.children = [];
    this.dataset = {};
    this.style = {};
    this.listeners = {};
    this.text = "";
    this.clientWidth = 1000;
    this.clientHeight = 600;
    this.scrollTop = 0;
    this.className = "";
    this.classList = {
      add: (name) => this.classes([...this.names(), name]),
      remove: (name) => this.classes(this.names().filter((it) => it !== name)),
      toggle: (name, isOn) => (isOn ? this.classList.add(name) : this.classList.remove(name)),
    };
  }

  names() {
    return this.className.split(" ").filter(Boolean);
  }

  classes(names) {
    this.className = [...new Set(names)].join(" ");
  }

  get textContent() {
    return this.text + this.children.map((it) => it.textContent).join("");
  }

  set textContent(text) {
    this.text = text;
    this.children = [];
  }

  append(...inner) {
    for (const it of inner) this.children.push(typeof it === "string" ? Object.assign(new Element("#text"), { text: it }) : it);
  }

  replaceChildren(...inner) {
    this.children = [];
    this.append(...inner);
  }

  querySelector(selector) {
    return this.children.find((it) => it.names().includes(selector.slice(1))) || null;
  }

  addEventListener(name, act) {
    (this.listeners[name] = this.listeners[name] || []).push(act);
  }

  send(name, event) {
    for (const act of this.listeners[name] || []) act({ preventDefault() {}, target: this, ...event });
  }

  closest(selector) {
    return selector === ".line" ? this : null;
  }

  scrollIntoView() {}

  setPointerCapture() {}

  focus() {}

  getContext() {
    return (this.context = this.context || new Context());
  }
}

// Notes what is drawn since the canvas was cleared, which a draw of the picture begins with.
class Context {
  constructor() {
    this.rectangles = [];
    this.texts = [];
  }

  setTransform() {
    this.rectangles = [];
    this.texts = [];
  }

  measureText(text) {
    return { width: 6.6 * text.length };
  }

  fillRect(...box) {
    this.rectangles.push([...box, this.fillStyle]);
  }

  fillText(text, x, y) {
    this.texts.push([text, x, y, this.fillStyle]);
  }
}

// What is drawn, as SVG, with a class for each colour; `style` is that of the page.
function svgOf({ rectangles, texts }, width, height, style) {
  const names = [...new Set([...rectangles.map((it) => it[4]), ...texts.map((it) => it[3])])].sort();
  const colours = (block) => names.map((name) => `.${name}{fill:${new RegExp(`--${name}: ([^;]+);`).exec(block)[1]}}`).join("");
  const [light, dark] = style.split("@media (prefers-color-scheme: dark)");
  const escaped = (text) => text.replace(/&/g, "&amp;").replace(/</g, "&lt;");
  const round = (size) => Number(size.toFixed(2));
  const boxes = rectangles.map(([x, y, w, h, name]) => `<rect class="${name}" x="${round(x)}" y="${round(y)}" width="${round(w)}" height="${round(h)}"/>`);
  const words = texts.map(([text, x, y, name]) => `<text class="${name}" x="${round(x)}" y="${round(y + 4)}">${escaped(text)}</text>`);
  const rules = `text{font:11px "DejaVu Sans Mono",Menlo,Consolas,monospace;white-space:pre}${colours(light)}@media (prefers-color-scheme:dark){${colours(dark)}}`;
  return [`<svg xmlns="http://www.w3.org/2000/svg" viewBox="0 0 ${width} ${height}">`, `<style>${rules}</style>`, ...boxes, ...words, "</svg>", ""].join("\n");
}

function partsOf(html) {
  const data = (id) => new RegExp(`<script type="[^"]*" id="${id}">([^]*?)</script>`).exec(html)[1];
  return { style: /<style>([^]*?)<\/style>/.exec(html)[1], cell: data("cell"), columns: data("columns"), script: /<script>\n([^]*?)<\/script>/.exec(html)[1] };
}

async function main() {
  const parts = partsOf(fs.readFileSync(process.argv[2], "utf8"));
  const elements = new Map();
  const document = new Element("document");
  document.documentElement = new Element("html");
  document.createElement = (tag) => new Element(tag);
  document.getElementById = (id) => elements.get(id) || elements.set(id, new Element(id)).get(id);
  document.getElementById("cell").textContent = parts.cell;
  document.getElementById("columns").textContent = parts.columns;
  const window = new Element("window");
  window.devicePixelRatio = 1;
  window.matchMedia = () => new Element("media");
  const names = { console, document, window, Blob, Response, DecompressionStream, TextDecoder, atob };
  const location = { hash: process.argv[3] || "" };
  const history = { replaceState: (_state, _title, address) => (location.hash = address) };
  const context = vm.createContext({ ...names, location, history });
  context.ResizeObserver = class {
    observe() {}
  };
  context.getComputedStyle = () => ({ getPropertyValue: (name) => name.slice(2) });
  const element = document.getElementById;
  context.press = (key, more) => document.send("keydown", { key, ...more });
  context.click = (x, y) => {
    for (const name of ["pointerdown", "pointerup"]) element("canvas").send(name, { offsetX: x, offsetY: y - element("scroll").scrollTop });
  };
  context.drawn = () => element("canvas").getContext();
  context.details = () => {
    const shown = element("details").children.map((it) => it.textContent);
    return Object.fromEntries(shown.filter((_, k) => k % 2 === 0).map((name, k) => [name, shown[2 * k + 1]]));
  };
  context.svg = (width) => {
    const { page } = context;
    element("scroll").clientWidth = width;
    element("scroll").clientHeight = page.picture.height;
    window.send("resize");
    return svgOf(context.drawn(), width, page.picture.height, parts.style);
  };
  context.print = (isOn) => window.send(isOn ? "beforeprint" : "afterprint");
  vm.runInContext(parts.script.replace(/^start\(\)\.catch/m, "globalThis.started = start(); started.catch"), context);
  context.page = await context.started;
  for (const line of fs.readFileSync(0, "utf8").split("\n").filter(Boolean)) {
    console.log(JSON.stringify(vm.runInContext(line, context) ?? null));
  }
}

main();
