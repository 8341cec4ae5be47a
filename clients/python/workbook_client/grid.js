/* The cells as a grid: one is chosen, or a rectangle of them; keys and the mouse move, type, copy, paste and fill. */

import {$, ask, button, tell} from "./talk.js";
import {cardOf, light, marks, placeOf, pointed, setting, showArrays, showNumber} from "./tables.js";
import {placed, spelled, whole} from "./pasting.js";
import {offerPasted} from "./newtable.js";

let chosen = null; // the array, the key of the cell that is chosen and of the one up to which cells are, or whether all are
let editor = null; // the cell in which somebody types
let dragged = null; // the plane over which the mouse goes, while its button is down
let tinted = false;

const root = $("objects");
const typing = target => target.tagName === "INPUT" || target.tagName === "TEXTAREA";
const cellAt = key => chosen && cardOf(chosen.name)?.cells.get(key);

/** Shows the arrays as they were heard, and what is chosen where it is still there. */
export function showGrid() {
  if (editor && !editor.cell.isConnected) editor = null; // its array is gone
  const held = placeOf(document.activeElement) && !editor; // a card that is drawn anew loses the focus
  showArrays(root, tinted, editor && placeOf(editor.cell).card);
  if (chosen && !(cellAt(chosen.key) && cellAt(chosen.to))) chosen = null;
  paint();
  if (held && chosen && !placeOf(document.activeElement)) cellAt(chosen.key).focus({preventScroll: true});
}

/** With the colours of locales, or without. */
export function tint(on) { tinted = on; showGrid(); }

/** How many cells are marked. */
export const marksOfCells = () => marks.size;

// --- what is chosen

/** The rectangle that is chosen: its plane and its rows and columns. */
function area() {
  const {plane, ...a} = placeOf(cellAt(chosen.key)), b = placeOf(cellAt(chosen.to));
  const corners = chosen.all ? [[0, plane.rows.length - 1], [0, plane.columns.length - 1]] : [[a.r, b.r], [a.c, b.c]];
  const [[top, bottom], [left, right]] = corners.map(ends => ends.sort((x, y) => x - y));
  const cells = plane.cells.slice(top, bottom + 1).map(row => row.slice(left, right + 1));
  return {plane, name: chosen.name, top, bottom, left, right, cells};
}

/** Chooses a cell; with `wider` all up to it, from the one that was chosen. */
function choose(cell, wider = false) {
  const {card, plane, key} = placeOf(cell);
  const stays = wider && chosen && placeOf(cellAt(chosen.key)).plane === plane;
  chosen = {name: card.name, key: stays ? chosen.key : key, to: key};
  getSelection().removeAllRanges(); // what Ctrl-C copies now is the cells
  marks.delete(key);
  light(cell);
  paint();
  cellAt(chosen.key).focus({preventScroll: stays});
  if (stays) cell.scrollIntoView({block: "nearest", inline: "nearest"});
  document.dispatchEvent(new Event("marked"));
}

function paint() {
  for (const cell of root.querySelectorAll(".chosen, .at-chosen")) {
    cell.classList.remove("chosen", "at-chosen");
    cell.removeAttribute("aria-selected");
  }
  $("picked").hidden = true;
  if (!chosen) return;
  const many = area().cells.flat().filter(Boolean);
  for (const cell of many) { cell.classList.add("chosen"); cell.setAttribute("aria-selected", "true"); }
  cellAt(chosen.key).classList.add("at-chosen");
  if (many.length > 1) picked(many);
}

/** Tells of the cells that are chosen: how many, what they sum up to, and what is done with them. */
function picked(many) {
  const sum = many.reduce((all, cell) => all + BigInt(cell.dataset.value), 0n);
  const words = where(area()) + " · " + many.length + " cells · sum " + pointed(String(sum), cardOf(chosen.name).decimals);
  $("picked").replaceChildren(words, button("", "fill", () => edit(cellAt(chosen.key), "", true)),
    "or type a number and press Ctrl-Enter");
  $("picked").hidden = false;
}

/** "A[1..2, 3..4]", or "4 cells of A" where no ranges say which. */
function where(on) {
  return spelled(on) || on.cells.flat().filter(Boolean).length + " cells of " + on.name;
}

// --- moving

/** The next cell so many rows down and columns across; holes are passed over. */
function step(cell, down, across) {
  const {plane, r, c} = placeOf(cell);
  if (plane.line && down) return beside(cell, down);
  for (let n = r + down, m = c + across; plane.cells[n] && m >= 0 && m < plane.columns.length; n += down, m += across) {
    if (plane.cells[n][m]) return plane.cells[n][m];
  }
  return null;
}

/** In a row of boxes that goes on below: the nearest box above or below. */
function beside(cell, down) {
  const from = cell.getBoundingClientRect(), {plane} = placeOf(cell);
  let best = null, least = Infinity;
  for (const other of plane.cells[0]) {
    const at = other.getBoundingClientRect(), far = (at.top - from.top) * down;
    const cost = far * 1e4 + Math.abs(at.left + at.width / 2 - from.left - from.width / 2);
    if (far > 1 && cost < least) { best = other; least = cost; }
  }
  return best;
}

/** The next cell in the order of reading, or the one before. */
function next(cell, onward) {
  const all = placeOf(cell).plane.cells.flat().filter(Boolean);
  return all[all.indexOf(cell) + onward] || null;
}

/** Where Enter goes on: down, and in a row to the next. */
const below = (cell, onward) => (placeOf(cell).plane.line ? next(cell, onward) : step(cell, onward, 0));

const ARROWS = {ArrowUp: [-1, 0], ArrowDown: [1, 0], ArrowLeft: [0, -1], ArrowRight: [0, 1]};

function move(e, cell) {
  const [down, across] = ARROWS[e.key];
  const from = e.shiftKey ? cellAt(chosen.to) : cell;
  let to = step(from, down, across);
  while (to && e.ctrlKey && step(to, down, across)) to = step(to, down, across);
  if (to) choose(to, e.shiftKey);
}

function onKey(e) {
  const cell = e.target;
  if (!placeOf(cell) || e.isComposing) return;
  if (!chosen || chosen.key !== cell.dataset.key) choose(cell);
  const command = e.ctrlKey || e.metaKey;
  if (ARROWS[e.key] && !e.altKey) { e.preventDefault(); move(e, cell); }
  else if (e.key === "Enter" || e.key === "F2") { e.preventDefault(); edit(cell); }
  else if (e.key === "Tab" && !command) pass(e, cell);
  else if (e.key === "Escape") choose(cell);
  else if (e.key === "Delete" || e.key === "Backspace") { e.preventDefault(); fill("0"); }
  else if (command && e.key === "a") { e.preventDefault(); chooseAll(cell); }
  else if (e.key.length === 1 && !command && !e.altKey) edit(cell, ""); // the key itself comes into the input
}

/** Tab goes on within the plane, and then to what follows it on the page. */
function pass(e, cell) {
  const to = next(cell, e.shiftKey ? -1 : 1);
  if (to) { e.preventDefault(); choose(to); }
}

/** The whole plane of a cell is chosen. */
function chooseAll(cell) {
  chosen = {name: chosen.name, key: cell.dataset.key, to: cell.dataset.key, all: true};
  paint();
}

// --- the mouse

function onDown(e) {
  const cell = e.target.closest?.(".value[data-key]");
  if (!cell || e.button !== 0 || typing(e.target)) return;
  e.preventDefault();
  if (editor) editor.done(true, null);
  const again = chosen !== null && chosen.key === cell.dataset.key && chosen.to === chosen.key && !chosen.all;
  dragged = {plane: placeOf(cell).plane, again, cell};
  choose(cell, e.shiftKey);
}

function onOver(e) {
  const cell = e.target.closest?.(".value[data-key]");
  if (!dragged || !cell || cell === cellAt(chosen.to) || placeOf(cell).plane !== dragged.plane) return;
  dragged.again = false;
  choose(cell, true);
}

/** A click on the cell that is chosen already types in it. */
function onUp() {
  if (dragged?.again) edit(dragged.cell);
  dragged = null;
}

// --- typing in a cell

/** A number is typed in the cell's place. Enter sets it and goes down, Tab sets it and goes on, so does a click elsewhere; Escape
    leaves the cell as it was. With `filling`, or by Ctrl-Enter, all chosen cells get it. */
function edit(cell, begun = cell.dataset.value, filling = false) {
  if (editor) return;
  const input = document.createElement("input");
  input.value = begun;
  input.setAttribute("aria-label", placeOf(cell).title);
  cell.append(input); // over the number, so that the table keeps its place
  editor = {cell, input, filling, done};
  input.focus();
  input.select();
  input.onkeydown = onInputKey;
  input.onblur = () => { if (document.hasFocus()) done(true, null); };
}

function onInputKey(e) {
  e.stopPropagation();
  const {cell} = editor, back = e.shiftKey ? -1 : 1;
  if (e.key === "Enter" && (e.ctrlKey || e.metaKey)) editor.filling = true;
  if (e.key === "Enter") { e.preventDefault(); done(true, editor.filling ? cell : below(cell, back) || cell); }
  else if (e.key === "Tab") { e.preventDefault(); done(true, next(cell, back) || cell); }
  else if (e.key === "Escape") done(false, cell);
}

/** Ends the typing: sets what was typed, where it is something else, and chooses the cell where it goes on. */
function done(set, onward) {
  const {cell, input, filling} = editor, typed = input.value.trim().replace(/^=/, "");
  editor = null;
  input.onblur = null;
  input.remove();
  showNumber(cell);
  if (onward && filling) onward.focus();
  else if (onward) choose(onward);
  if (set && filling) fill(typed);
  else if (set && typed !== cell.dataset.value && typed) put(cell, typed);
  showGrid();
}

/** Sets one cell; until its reply comes it shows what was typed. */
async function put(cell, typed) {
  const {key, card} = placeOf(cell), line = key + " = " + typed, wrong = whole(typed, card.decimals);
  if (/^[+-]?[0-9]+\.[0-9]+$/.test(typed)) return tell(false, wrong);
  setting.add(key);
  if (wrong) cell.textContent = typed;
  else showNumber(cell, typed.replace("+", ""));
  await ask({line}, line);
  setting.delete(key);
  const now = cardOf(card.name)?.cells.get(key);
  if (now && now !== editor?.cell) showNumber(now);
}

// --- many cells at once

/** Sets all chosen cells to a number: by one fill where ranges say which they are. */
async function fill(typed) {
  const on = area(), many = on.cells.flat().filter(Boolean), wrong = whole(typed, placeOf(many[0]).card.decimals);
  if (many.length === 1) return put(many[0], typed);
  if (wrong) return tell(false, wrong);
  const keys = many.map(cell => cell.dataset.key);
  if (spelled(on)) return setMany(keys, {line: spelled(on) + " = " + typed}, spelled(on) + " = " + typed);
  return setMany(keys, {op: "paste", fills: true, a: on.name, cells: many.map(cell => [placeOf(cell).at, typed])}, where(on) + " = " + typed);
}

/** Asks for something that sets the cells of these keys, which aren't marked by that. */
async function setMany(keys, what, words) {
  keys.forEach(key => setting.add(key));
  await ask(what, words);
  keys.forEach(key => setting.delete(key));
}

/** The chosen cells as a spreadsheet takes them: tabs between columns, a line for each row. */
const copied = () => area().cells.map(row => row.map(cell => (cell ? cell.dataset.value : "")).join("\t")).join("\n");

function onCopy(e) {
  if (!chosen || typing(e.target) || String(getSelection())) return;
  e.preventDefault();
  e.clipboardData.setData("text/plain", copied());
  tell(true, where(area()) + " copied");
}

/** A table that was copied elsewhere, as one edit. Where no cell is chosen it may become a table of its own. */
function onPaste(e) {
  if (typing(e.target)) return;
  e.preventDefault();
  if (!chosen) return offerPasted(e.clipboardData.getData("text/plain"));
  const to = area(), {wrong, one, on, vs, set, keys, last} = placed(e.clipboardData.getData("text/plain"), to);
  if (wrong) return tell(false, wrong);
  if (one) return fill(one);
  const what = on ? {on, vs} : {cells: set.map(([cell, number]) => [placeOf(cell).at, number])};
  setMany(keys, {op: "paste", a: to.name, ...what}, keys.length + " cells of " + to.name);
  chooseFrom(to, ...last);
}

/** Chooses so many rows and columns from the first one of a rectangle on, as far as they are shown. */
function chooseFrom({plane, top, left}, rows, columns) {
  const these = plane.cells.slice(top, top + rows).flatMap(row => row.slice(left, left + columns)).filter(Boolean);
  choose(these[0]);
  choose(these[these.length - 1], true);
}

/** A cell that gets the focus otherwise is chosen too. */
function onFocus(e) {
  if (placeOf(e.target) && chosen?.key !== e.target.dataset.key) choose(e.target);
}

root.addEventListener("keydown", onKey);
root.addEventListener("focusin", onFocus);
root.addEventListener("mousedown", onDown);
root.addEventListener("mouseover", onOver);
document.addEventListener("mouseup", onUp);
document.addEventListener("copy", onCopy);
document.addEventListener("paste", onPaste);
