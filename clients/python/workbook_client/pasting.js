/* Tables of whole numbers as text: what a spreadsheet copies, and where it fits. Nothing here asks anybody. */

const NUMBER = /^[+-]?[0-9]+$/, LEAST = -(2n ** 63n), GREATEST = 2n ** 63n - 1n;

/** Why a text is no whole number of 64 bits; nothing where it is one. With decimals the table shows so many digits behind a point. */
export function whole(text, decimals = 0) {
  if (!NUMBER.test(text)) return "whole numbers only: " + (text || "an empty cell") + " isn't one" + meant(text, decimals);
  const value = BigInt(text.replace("+", ""));
  return value < LEAST || value > GREATEST ? "a number has 64 bits at most, and " + text + " has more" : "";
}

/** Which whole number is shown so, where the table shows numbers with a point. */
function meant(text, decimals) {
  const [, sign, before, behind] = text.match(/^([+-]?)([0-9]+)\.([0-9]+)$/) ?? [];
  if (!behind || behind.length > decimals) return "";
  const digits = behind.padEnd(decimals, "0");
  return "; here " + sign + BigInt(before + digits) + " is shown as " + sign + before + "." + digits;
}

/** The cells of a text, row by row. A spreadsheet ends its last line too. */
function rowsOf(text) {
  const lines = text.replace(/\r\n?/g, "\n").replace(/\n$/, "").split("\n");
  return lines.map(line => line.split("\t").map(cell => cell.trim()));
}

/** What a text sets, from the chosen cells' first one on: `one` number for all of them; or the ranges `on` with their numbers `vs`; or a
    `set` of cells, each with its number. With the keys of these cells, and how many rows and columns they are. Or what is `wrong`, and
    then nothing is set. */
export function placed(text, on) {
  const rows = rowsOf(text), wide = rows[0].length, decimals = on.plane.card.decimals;
  if (rows.length === 1 && wide === 1) {
    const wrong = whole(rows[0][0], decimals);
    return wrong ? {wrong} : {one: rows[0][0]};
  }
  const other = rows.findIndex(row => row.length !== wide);
  if (other > 0) return {wrong: "row " + (other + 1) + " of what is pasted has " + cellsOf(rows[other].length) + ", and row 1 has " + wide};
  return on.plane.ranged ? onRanges(rows, on, decimals) : onCells(rows, on, decimals);
}

/** Over a rectangle all indices are there, also those of parts that aren't shown now. */
function onRanges(rows, {plane, name, top, left}, decimals) {
  const down = plane.line ? [null] : axis(plane.axes[plane.top.length]), across = axis(plane.axes[plane.axes.length - 1]);
  const [r, c] = [plane.row + top, plane.column + left];
  const [high, wide] = extent(rows, plane), these = [down.slice(r, r + high), across.slice(c, c + wide)];
  if (these[0].length < high || these[1].length < wide) return unfit(rows, name, at(plane, down[r], across[c]));
  const wrong = firstWrong(rows, number => whole(number, decimals));
  if (wrong) return {wrong};
  const spelled = [...plane.top.map(one), ...(plane.line ? [] : [range(these[0])]), range(these[1])];
  const keys = these[0].flatMap(i => these[1].map(j => name + "[" + at(plane, i, j) + "]"));
  return {on: "{" + spelled.join(", ") + "}", vs: rows.flat(), keys, last: [high, wide]};
}

/** Of another domain those indices are there that are shown. */
function onCells(rows, {plane, name, top, left}, decimals) {
  const [high, wide] = extent(rows, plane);
  if (top + high > plane.cells.length || left + wide > plane.columns.length) {
    return unfit(rows, name, at(plane, plane.rows[top], plane.columns[left]));
  }
  const cells = plane.cells.slice(top, top + high).flatMap(row => row.slice(left, left + wide));
  const cellOf = (r, c) => cells[r * rows[0].length + c];
  const wrong = firstWrong(rows, (number, r, c) => (cellOf(r, c) ? whole(number, decimals) : number && "there is no element"));
  if (wrong) return {wrong};
  const set = rows.flat().map((number, n) => [cells[n], number]).filter(([cell]) => cell);
  if (!set.length) return {wrong: "there is no number in what is pasted"};
  return {set, keys: set.map(([cell]) => cell.dataset.key), last: [high, wide]};
}

/** How many rows and columns of a plane a text is laid on. A column is the elements of an array of one dimension, which stand in a row. */
const extent = (rows, plane) => (plane.line && rows[0].length === 1 ? [1, rows.length] : [rows.length, rows[0].length]);

/** The first cell of a text of which something is wrong, and what. */
function firstWrong(rows, judged) {
  for (const [r, row] of rows.entries()) {
    for (const [c, number] of row.entries()) {
      const wrong = judged(number, r, c);
      if (wrong) return "row " + (r + 1) + ", column " + (c + 1) + " of what is pasted: " + wrong;
    }
  }
  return "";
}

const unfit = (rows, name, from) => ({wrong: size(rows.length, rows[0].length) + " don't fit into " + name + " from [" + from + "] on"});

/** An index of a plane, as it stands in brackets. */
const at = (plane, row, column) => [...plane.top, ...(plane.line ? [] : [row]), column].join(", ");

/** All numbers of a range that is told by its first one, its stride and how many there are. */
const axis = ([first, step, length]) => Array.from({length}, (_, n) => String(BigInt(first) + BigInt(step) * BigInt(n)));

const size = (rows, columns) => rows + (rows === 1 ? " row" : " rows") + " and " + columns + (columns === 1 ? " column" : " columns");
const cellsOf = n => n + (n === 1 ? " cell" : " cells");

/** The chosen cells as an array with ranges, "A[1..2, 3..4]"; nothing where no ranges are just these: holes, or indices that are
    texts or no ranges of the array's. */
export function spelled(on) {
  const {plane, name} = on;
  if (!plane.ranged || on.cells.flat().some(cell => !cell)) return "";
  const ranges = [...plane.top.map(one), range(plane.columns.slice(on.left, on.right + 1))];
  if (!plane.line) ranges.splice(-1, 0, range(plane.rows.slice(on.top, on.bottom + 1)));
  return name + "[" + ranges.join(", ") + "]";
}

const one = number => number + ".." + number;

/** Numbers of a list as a range, in their order: its ends, and its stride. */
function range(numbers) {
  if (numbers.length === 1) return one(numbers[0]);
  const first = BigInt(numbers[0]), last = BigInt(numbers[numbers.length - 1]), by = BigInt(numbers[1]) - first;
  return (by > 0n ? first + ".." + last : last + ".." + first) + (by === 1n ? "" : " by " + by);
}
