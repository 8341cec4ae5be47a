/* What the page asks its server, what it was told last, and what it says to whoever looks at it. */

export const $ = id => document.getElementById(id);

/** An element with a class, texts and children; texts are never read as HTML. */
export function make(tag, kind, ...inside) {
  const made = document.createElement(tag);
  if (kind) made.className = kind;
  made.append(...inside.filter(x => x !== null && x !== undefined));
  return made;
}

/** A button with a word, and what a click on it does. */
export function button(kind, word, act) {
  const made = make("button", kind, word);
  made.type = "button";
  made.onclick = act;
  return made;
}

/** Puts these below a root, in this order. What stands there already isn't moved: a focus in it, or half a click, would be lost. */
export function put(root, parts) {
  const all = new Set(parts);
  for (const old of [...root.children]) if (!all.has(old)) old.remove();
  parts.forEach((part, n) => { if (root.children[n] !== part) root.insertBefore(part, root.children[n] ?? null); });
}

/** "16 and 17", or of many the first few and how many there are. */
export function numbered(all) {
  if (all.length > 12) return all.slice(0, 8).join(", ") + ", .. and " + all[all.length - 1] + ", " + all.length + " edits";
  return all.length > 1 ? all.slice(0, -1).join(", ") + " and " + all[all.length - 1] : String(all[0]);
}

/** A text without marks that turn the direction of what is written: a key of a text that others made may have some. */
export const harmless = text => text.replace(/[\x80-\x9f\u061c\u200e\u200f\u202a-\u202e\u2066-\u2069]/g, "\ufffd");

/** What is said below, in the colour of what went well or of what didn't. */
export function tell(ok, words) {
  $("said").textContent = harmless(words);
  $("said").className = ok ? "" : "no";
}

/** The workbook as it was last heard; null before the first time. */
export let state = null;
/** What isn't there now: the "workbook", or the page's "server"; false where both are. */
export let away = false;
/** How many looks in a row found nothing new. */
export let quiet = 0;

const GONE = {say: "The page's server is gone", tries: true, unanswered: [], kind: "server"};
const listeners = {state: () => {}, away: () => {}, back: () => {}, light: () => {}};
let sight = () => "", looks = 0, latest = null, heardAt = null;

/** Whom to tell: of a new state, of a workbook that went away and is there again, of an edit in the way. */
export function listen(others) { Object.assign(listeners, others); }

/** What tells which edits are in sight. */
export function watch(inSight) { sight = inSight; }

/** Looks whether anything changed. A look that a later one has overtaken ends with that one. */
export function poll() {
  latest = look(++looks);
  return latest;
}

async function look(mine) {
  let status = 0, told = GONE;
  try {
    const answer = await fetch("state?seen=" + (state ? state.version : "") + "&sight=" + sight());
    status = answer.status;
    told = status === 204 ? null : await answer.json();
  } catch { /* the server is gone */ }
  if (mine !== looks) return latest;
  if (status === 200 || status === 204) here(told);
  else gone(told, status);
}

/** The workbook is there; `told` is its state, or null where that is as it was. */
function here(told) {
  quiet = told ? 0 : quiet + 1;
  heardAt = new Date();
  const back = away;
  away = false;
  if (told) { state = told; listeners.state(); }
  if (back) listeners.back(back === "server" ? "The page's server is there again." : state.news);
}

/** It isn't there: what is shown stays, and a page that shows nothing yet shows what its server had last. */
function gone(told, status) {
  if (told.state && state === null) { state = told.state; listeners.state(); }
  quiet = 0;
  away = told.kind ?? "workbook";
  const say = status === 403 ? "Another server of a page is there now: its terminal shows its address" : told.say;
  listeners.away({...told, say, heardAt});
}

let last = Promise.resolve();

/** Does something, after all that was asked before. `words` are what it is told by, where no answer comes. What was typed as its note
    goes with it, where it is an edit. */
export function ask(what, words) {
  const note = $("note").value.trim(), all = note ? {...what, note} : what;
  last = last.then(() => send(all, words));
  return last;
}

async function send(what, words) {
  const told = away ? {ok: false, sent: false, say: ""} : await answerTo(what, words);
  if (told.sent === false) told.say = "Not sent, since the workbook isn't there now: " + words;
  tell(Boolean(told.ok), told.say || "");
  if (told.noted && $("note").value.trim() === what.note) $("note").value = "";
  if (told.unanswered) { looks++; latest = null; gone(told, 0); }
  else if (!away) await poll();
  if (told.by) listeners.light(told.by);
  return told;
}

async function answerTo(what, words) {
  const slow = setTimeout(() => tell(true, "No answer yet, so it is waited for: " + words), 3000);
  try {
    const answer = await fetch("do", {
      method: "POST", headers: {"Content-Type": "application/json"}, body: JSON.stringify(what),
    });
    return {ok: false, ...await answer.json()};
  } catch {
    return {ok: false, ...GONE, unanswered: [words]}; // nobody knows whether it was done
  } finally {
    clearTimeout(slow);
  }
}

/** Who would go in a cascade of edit k, as the workbook says now. */
export const needs = k => of(k, "needs");

/** What each edit of transaction k does. */
export const parts = k => of(k, "parts");

async function of(k, place) {
  try {
    return await (await fetch(place + "?k=" + k)).json();
  } catch {
    return {ok: false, say: GONE.say};
  }
}
