/* Arrays as tables of cells, drawn once and then kept up to date in place. */

import {ask, button, make, put, state} from "./talk.js";

/** What is drawn: of each array its card, by name. */
const cards = new Map();
/** Where each cell stands: its card, its plane, its row and column there, and its key. */
const places = new WeakMap();
/** What changed and wasn't looked at yet: by a cell's key, what stood there before. */
export const marks = new Map();
/** Keys of the cells that this page itself is setting. */
export const setting = new Set();

export const placeOf = cell => places.get(cell);
export const cardOf = name => cards.get(name);

/** A number as it is shown, with so many of its digits behind a point; the workbook has whole numbers. */
export function pointed(number, decimals) {
  if (!decimals) return number;
  const minus = number.startsWith("-") ? "-" : "", digits = number.slice(minus.length).padStart(decimals + 1, "0");
  return minus + digits.slice(0, -decimals) + "." + digits.slice(-decimals);
}

/** Shows the arrays and domains as they were heard; `kept` is a card that isn't drawn anew now. */
export function showArrays(root, tinted, kept) {
  const shown = state.arrays.map(a => cardFor(a, tinted, kept));
  for (const name of [...cards.keys()]) if (!state.arrays.some(a => a.name === name)) cards.delete(name);
  const parts = shown.map(card => card.root);
  if (state.domains.length) parts.push(domains());
  if (!parts.length) parts.push(empty());
  put(root, parts);
  for (const key of marks.keys()) if (!shown.some(card => card.cells.has(key))) marks.delete(key);
}

function cardFor(a, tinted, kept) {
  const looks = [a.down, a.across, a.decimals];
  const sign = JSON.stringify([a.over, a.words, a.size, a.part, a.irv, tinted && a.locales, looks, a.values.map(v => v[1])]);
  const held = cards.get(a.name);
  if (held && held.sign !== sign && held === kept) return held;
  if (held) note(held, a);
  if (held && held.sign === sign) { refresh(held, a); return held; }
  const made = card(a, tinted && a.locales ? a.locales : null, sign);
  cards.set(a.name, made);
  for (const cell of made.cells.values()) light(cell);
  return made;
}

/** Marks the elements that others, or an undo, changed. */
function note(held, a) {
  for (const [, at, value] of a.values) {
    const key = keyOf(a.name, at), cell = held.cells.get(key);
    if (!cell || cell.dataset.value === value || setting.has(key)) continue;
    const before = marks.has(key) ? marks.get(key) : cell.dataset.value;
    if (before === value) marks.delete(key);
    else marks.set(key, before);
  }
}

function refresh(held, a) {
  for (const [, at, value] of a.values) {
    const cell = held.cells.get(keyOf(a.name, at));
    if (cell.dataset.value !== value) write(cell, value);
    light(cell);
  }
}

/** What a cell shows, but for one in which somebody types. */
function write(cell, value) {
  cell.dataset.value = value;
  if (!cell.querySelector("input")) showNumber(cell);
}

/** Shows a cell's number, or another in its place, as the table's numbers are shown. */
export function showNumber(cell, number = cell.dataset.value) {
  cell.textContent = pointed(number, places.get(cell).card.decimals);
}

/** Shows whether a cell is marked. */
export function light(cell) {
  const {key, title, card} = places.get(cell), marked = marks.has(key);
  if (cell.classList.toggle("changed", marked)) cell.title = title + ", was " + pointed(marks.get(key), card.decimals);
  else cell.title = title;
}

/** Takes the marks off all cells. */
export function settleCells() {
  marks.clear();
  for (const card of cards.values()) for (const cell of card.cells.values()) light(cell);
}

export const keyOf = (name, at) => name + "[" + at + "]";

// --- drawing

function empty() {
  const box = make("div", "empty", make("p", "", "The workbook is empty. Paste a table of a spreadsheet (Ctrl-V), open one, or write below, for example:"));
  for (const line of ["D = {1..3, 1..4}", "A over D", "A[2, 3] = 9"]) box.append(make("code", "", line));
  return box;
}

let below = {sign: "", root: null};

/** The domains, drawn anew where one changed. */
function domains() {
  const sign = JSON.stringify(state.domains);
  if (below.sign !== sign) below = {sign, root: drawnDomains()};
  return below.root;
}

function drawnDomains() {
  const list = make("ul", "domains");
  for (const d of state.domains) list.append(make("li", "", make("b", "", d.name), make("span", "", " = " + d.words)));
  return make("section", "card", make("h2", "", "Domains"), list);
}

function card(a, locales, sign) {
  const csv = make("a", "csv", "CSV");
  csv.href = "csv?a=" + a.name;
  csv.download = a.name + ".csv";
  const by = a.decimals ? ", shown / 1" + "0".repeat(a.decimals) : "";
  const title = make("h3", "", a.name, make("small", "", "over " + a.over + " = " + a.words + by), csv);
  const made = {name: a.name, sign, ranges: a.ranges, decimals: a.decimals, root: make("section", "card", title), cells: new Map()};
  const cells = a.values.map(([parts, at, value], n) => ({parts, at, value, locale: locales ? locales[n] : null}));
  made.root.append(elements(a, cells, made));
  if (a.parent) made.root.append(make("p", "note", "elsewhere in " + a.parent + ": " + pointed(a.irv, a.decimals)));
  if (a.part[1] > 1) made.root.append(turner(a));
  if (locales) made.root.append(legend(locales));
  return made;
}

/** Which part of a large array is shown, and the way to the others. */
function turner(a) {
  const [number, of] = a.part, turn = (to, word) => {
    const made = button("turn", word, () => ask({op: "turn", a: a.name, part: to}, "part " + (to + 1) + " of " + a.name));
    made.disabled = to < 0 || to >= of || to === number;
    return made;
  };
  const words = "part " + (number + 1) + " of " + of + ": " + a.values.length + " of " + a.size + " elements";
  return make("p", "note parts", words, turn(0, "first"), turn(number - 1, "before"), turn(number + 1, "next"), turn(of - 1, "last"));
}

function elements(a, cells, made) {
  if (!cells.length) return make("p", "note", "no elements");
  const rank = cells[0].parts.length;
  if (rank === 1) return row(a, cells, made);
  if (rank === 2) return plane(a, cells, made, []);
  const planes = make("div", "planes");
  for (const top of new Set(cells.map(c => c.parts[0]))) {
    planes.append(make("div", "", make("div", "plane", a.name + "[" + top + ", .., ..]"),
      plane(a, cells.filter(c => c.parts[0] === top), made, [top])));
  }
  return planes;
}

function legend(locales) {
  const keys = make("div", "keys");
  for (const l of [...new Set(locales)].sort((x, y) => x - y)) {
    const key = make("span", "", "locale " + l);
    key.style.setProperty("--hue", hue(l));
    keys.append(key);
  }
  return keys;
}

const hue = locale => (165 + locale * 137.5) % 360;

/** A plane of cells: its rows, each a list of cells and holes, and what stands before and above them. Over a rectangle it has the
    array's ranges too, and how many rows and columns are before those that are shown. */
function planeOf(card, top, rows, columns, line, begins) {
  const [row, column] = line ? [0, begins[0]] : begins.slice(-2);
  const cells = rows.map(() => columns.map(() => null));
  return {card, top, rows, columns, line, row, column, ranged: card.ranges.length > 0, axes: card.ranges, cells};
}

/** Tells who doesn't see it what cells are below. */
function grid(root, role, name) {
  root.setAttribute("role", role);
  root.setAttribute("aria-label", name);
  root.setAttribute("aria-multiselectable", "true");
  return root;
}

/** The heading of a row or a column: its title, or its index. */
function heading(tag, kind, titles, at) {
  const titled = Object.hasOwn(titles, at), head = make(tag, kind, titled ? titles[at] : at);
  if (titled) head.title = at;
  return head;
}

function row(a, cells, card) {
  const boxes = grid(make("div", "cells"), "listbox", a.name), on = planeOf(card, [], [""], cells.map(c => c.parts[0]), true, a.part.slice(2));
  cells.forEach((c, n) => boxes.append(make("div", "box", heading("div", "at", a.down, c.parts[0]), value(a, c, "div", on, 0, n))));
  return boxes;
}

function plane(a, cells, card, top) {
  const [down, across] = [top.length, top.length + 1];
  const rows = [...new Set(cells.map(c => c.parts[down]))];
  const columns = [...new Set(cells.map(c => c.parts[across]))];
  if (cells.length < rows.length * columns.length) columns.sort((x, y) => (BigInt(x) < BigInt(y) ? -1 : 1));
  const on = planeOf(card, top, rows, columns, false, a.part.slice(2));
  const there = new Map(cells.map(c => [c.parts[down] + "," + c.parts[across], c]));
  const heads = columns.map(c => heading("th", "", top.length ? {} : a.across, c));
  const table = grid(make("table", "", make("tr", "", make("th"), ...heads)), "grid", a.name);
  rows.forEach((r, n) => {
    const line = make("tr", "", heading("th", "", top.length ? {} : a.down, r));
    columns.forEach((c, m) => {
      const cell = there.get(r + "," + c);
      line.append(cell ? value(a, cell, "td", on, n, m) : make("td", "hole", "·"));
    });
    table.append(line);
  });
  return make("div", "scroll", table);
}

/** An element's name as it is shown: its key may have marks in it that turn the direction of the text. */
const shown = (a, c) => a.name + "[" + (c.at.startsWith('"') ? '"' + c.parts[0] + '"' : c.at) + "]";

function value(a, c, tag, plane, r, n) {
  const cell = make(tag, "value", pointed(c.value, a.decimals)), key = keyOf(a.name, c.at);
  const title = shown(a, c) + (c.locale === null ? "" : ", locale " + c.locale);
  cell.dataset.key = key;
  cell.dataset.value = c.value;
  cell.tabIndex = r + n ? -1 : 0;
  if (plane.line) cell.setAttribute("role", "option");
  if (c.locale !== null) cell.style.setProperty("--hue", hue(c.locale));
  places.set(cell, {card: plane.card, plane, r, c: n, key, at: c.at, title});
  plane.cells[r][n] = cell;
  plane.card.cells.set(key, cell);
  return cell;
}
