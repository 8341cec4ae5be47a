/* The page: its head, what is said when the workbook is away, the line below, and when it looks again. */

import {$, ask, away, button, harmless, listen, make, poll, quiet, state, tell} from "./talk.js";
import {light, marksOfEdits, settleEdits, showEdits} from "./edits.js";
import {marksOfCells, showGrid, tint} from "./grid.js";
import {settleCells} from "./tables.js";

// --- the head

function show() {
  const [name, where] = place();
  $("where").textContent = where;
  document.title = name + " · workbook";
  $("by").hidden = !state.arrays.some(a => a.locales);
  showGrid();
  showEdits();
  showMarks();
}

/** What the workbook is called, and where it lies and whether it is kept. */
function place() {
  if (state.kept) return [state.kept.split("/").pop(), "kept in " + state.kept + ": each change is on the disk before it is told"];
  if (state.alone) return ["kept nowhere", "kept nowhere: it is gone when its program ends (--journal FILE keeps one)"];
  return [state.where, "shared at " + state.where + (state.guests.length ? " with " + listed(state.guests) : ": other seats edit too")];
}

/** "Ben", "Ben and Eva", "Ben, Eva and Ida". */
const listed = names => [names.slice(0, -1).join(", "), names[names.length - 1]].filter(Boolean).join(" and ");

/** How much changed that wasn't looked at yet; a click takes the marks off. */
function showMarks() {
  const cells = marksOfCells(), edits = marksOfEdits(), words = [];
  if (cells) words.push(cells + (cells === 1 ? " cell" : " cells"));
  if (edits) words.push(edits + (edits === 1 ? " edit" : " edits"));
  $("marks").textContent = words.join(", ") + " changed ×";
  $("marks").hidden = !words.length;
}

function settle() {
  settleCells();
  settleEdits();
  showMarks();
}

const KEYS = `  arrow keys, Tab         move; with Ctrl to the edge, with Shift choose many, as the mouse does; Ctrl-A chooses all
  a digit, Enter, F2      type; Enter sets it and goes down, Tab goes on, Escape leaves it; A[1] + 3 makes a copy
  Ctrl-Enter, Delete      fill what is chosen with what was typed, or with 0
  Ctrl-C, Ctrl-V          copy and paste text with tabs, as spreadsheets do; where no cell is chosen, a new table
  why, below on the right a note that is kept with the next edit
  Ctrl-Z, Ctrl-Y          take back the latest edit of yours, and put it back
  Escape                  takes the marks off what changed`;
$("keys").onclick = () => tell(true, KEYS);
$("marks").onclick = settle;
document.addEventListener("marked", showMarks);
$("tints").onchange = () => tint($("tints").checked);

// --- a workbook that is away

let unanswered = []; // what the page's server sent and had no answer to
const unheard = []; // what this page sent its server, and had no answer to

/** Tells that the workbook isn't there: what is shown stays, and it is tried again. */
function showAway(told) {
  const since = told.heardAt ? "What you see is as it was at " + told.heardAt.toLocaleTimeString() + "."
    : state ? "What you see is as the page's server had it last." : "";
  if (told.kind === "server") unheard.push(...told.unanswered);
  else unanswered = told.unanswered ?? [];
  banner("gone", told.say[0].toUpperCase() + told.say.slice(1) + ".", since, told.tries ? "It is tried again." : told.tries === false ? "It isn't tried again." : "", ...lost());
  document.body.classList.add("lost");
}

/** Tells that it is there again, what was done meanwhile, and what was sent before and not answered. */
function showBack(news) {
  document.body.classList.remove("lost");
  const words = banner("back", news || "It is there again.", ...lost());
  words.append(button("", "read", () => { unanswered = []; unheard.length = 0; $("away").hidden = true; }));
}

function lost() {
  const all = [...unanswered, ...unheard];
  return all.length ? ["Sent and not answered, so perhaps done: " + all.join("; ") + "."] : [];
}

function banner(kind, ...words) {
  $("away").className = kind;
  $("away").replaceChildren(...words.filter(Boolean).map(one => make("span", "", harmless(one))));
  $("away").hidden = false;
  return $("away");
}

listen({state: show, away: showAway, back: showBack, light});

// --- the line below, and the keys of the whole page

const lines = [];
let at = 0;

$("line").onsubmit = async e => {
  e.preventDefault();
  const text = $("words").value.trim();
  if (!text) return;
  lines.push(text);
  at = lines.length;
  const told = await ask({line: text}, text);
  if (told.ok) $("words").value = "";
};

$("words").onkeydown = e => {
  if (e.key !== "ArrowUp" && e.key !== "ArrowDown") return;
  e.preventDefault();
  at = Math.max(0, Math.min(lines.length, at + (e.key === "ArrowUp" ? -1 : 1)));
  $("words").value = lines[at] ?? "";
};

/** Ctrl-Z takes back the latest edit of one's own, Ctrl-Y and Ctrl-Shift-Z put back what was taken back last. */
document.addEventListener("keydown", e => {
  const key = e.key.toLowerCase();
  if (e.target.tagName === "INPUT" || !(e.ctrlKey || e.metaKey) || (key !== "z" && key !== "y")) return;
  e.preventDefault();
  if (key === "z" && !e.shiftKey) ask({op: "undo_mine"}, "undo");
  else ask({op: "redo_mine"}, "redo");
});

document.addEventListener("keydown", e => { if (e.key === "Escape" && e.target.tagName !== "INPUT" && state) settle(); });

// --- looking again: each look at a shared workbook costs its desk some entries, so seldom where nothing moves, and not at all while
// nobody sees the page

let timer = 0, tries = 0;
async function again() {
  clearTimeout(timer);
  if (!document.hidden) await poll();
  clearTimeout(timer);
  tries = away ? tries + 1 : 0;
  timer = setTimeout(again, away ? Math.min(10000, 500 * 2 ** tries) : pause());
}

const pause = () => (!state || state.alone ? 1000 : quiet < 30 ? 2000 : 10000);

document.addEventListener("visibilitychange", () => { if (!document.hidden) again(); });
tell(true, "");
again();
