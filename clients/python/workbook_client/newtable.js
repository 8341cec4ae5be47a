/* A new table: of what was pasted where no cell is chosen, or of a file that was chosen or let fall on the page. */

import {$, ask, button, harmless, make, state, tell} from "./talk.js";

const root = $("newtable");
let text = "", file = ""; // the table's text, as a spreadsheet copies or writes it, and the name of its file

/** A box with the table's name, which makes it. */
function offer(told, from, called = "") {
  [text, file] = [told, called];
  const rows = told.replace(/\r\n?/g, "\n").replace(/\n+$/, "").split("\n").length;
  const name = make("input");
  name.setAttribute("aria-label", "the name of the table");
  name.value = free();
  const words = harmless(rows + (rows === 1 ? " line " : " lines ") + from + ", as a table called");
  const box = make("form", "", make("span", "", words), name, make("button", "many", "make it"),
    button("", "leave", leave));
  box.onsubmit = e => { e.preventDefault(); makeTable(name.value.trim()); };
  box.onkeydown = e => { if (e.key === "Escape") { e.stopPropagation(); leave(); } };
  root.replaceChildren(box);
  root.hidden = false;
  name.focus();
  name.select();
}

function leave() {
  root.hidden = true;
  root.replaceChildren();
}

/** Makes the table, or fills one that is there; what is no table is told, and then the box stays. */
async function makeTable(name) {
  const told = await ask({op: "table", a: name, text, file}, "a table called " + name);
  if (told.ok) leave();
}

/** A name that nothing has. */
function free() {
  const taken = new Set([...(state?.arrays ?? []), ...(state?.domains ?? [])].map(x => x.name));
  for (let n = 1; ; n++) if (!taken.has("Table" + n) && !taken.has("Table" + n + "Domain")) return "Table" + n;
}

/** Offers what is pasted where no cell is chosen. */
export function offerPasted(told) {
  if (told.trim()) offer(told, "pasted");
}

/** Offers what a file has; spreadsheets write CSV and TSV. */
async function offerFile(file) {
  if (file.size > 1 << 20) return tell(false, file.name + " is larger than a megabyte: `import NAME FILE` in a session takes it");
  offer(await file.text(), "of " + file.name, file.name);
  const called = file.name.replace(/\.[^.]*$/, "").replace(/[^A-Za-z0-9_]/g, "").slice(0, 20);
  if (/^[A-Za-z]/.test(called)) root.querySelector("input").value = called;
  root.querySelector("input").select();
}

$("file").onchange = () => {
  const [file] = $("file").files;
  if (file) offerFile(file);
  $("file").value = "";
};

document.addEventListener("dragover", e => { if (e.dataTransfer.types.includes("Files")) e.preventDefault(); });
document.addEventListener("drop", e => {
  const [file] = e.dataTransfer.files;
  if (!file) return;
  e.preventDefault();
  offerFile(file);
});
