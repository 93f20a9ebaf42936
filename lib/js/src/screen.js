// screen.js: the screen as an element with text for each row, of which only those that changed are written again.
import { covered, pattern } from "./finding.js";
import { Terminal, inStateOf } from "./vt220.js";

// Characters that many fonts lack. They are drawn: a mirrored question mark, the scan lines of special graphics, and the letters of control
// characters. A scan line has its number.
const SIGNS = { "\u2426": "?", "\u23ba": 1, "\u23bb": 3, "\u23bc": 7, "\u23bd": 9, "\u2409": "HT", "\u240c": "FF", "\u240d": "CR", "\u240a": "LF", "\u2424": "NL", "\u240b": "VT" };

/** Returns the classes of a cell. */
function look(cell, isCursor) {
  const names = [];
  if (cell.bold) names.push("b");
  if (cell.underline) names.push("u");
  if (cell.blink) names.push("k");
  if (cell.reverse) names.push("r");
  if (isCursor) names.push("c");
  return names.join(" ");
}

/** Cuts the cells of a row into runs of equal looks. `hits` are the columns, from 0, of what was found. */
function runs(cells, cursor, hits) {
  const made = [];
  cells.forEach((cell, i) => {
    const name = look(cell, i + 1 === cursor), isHit = hits.has(i), last = made.at(-1);
    const sign = SIGNS[cell.glyph];
    if (last && last.name === name && last.isHit === isHit && sign === undefined && last.sign === undefined) last.text += cell.glyph;
    else made.push({ text: cell.glyph, name, isHit, sign });
  });
  return made;
}

/** Draws a sign by its letters or its scan line. Its text stays what it is, for who selects it or reads it aloud. */
function draw(place, sign) {
  place.classList.add(typeof sign === "number" ? "scan" : sign === "?" ? "query" : "control", "sign");
  if (typeof sign === "number") place.style.setProperty("--scan", sign);
  else [place.dataset.first, place.dataset.second = ""] = sign;
}

function element({ text, name, isHit, sign }) {
  if (name === "" && !isHit && sign === undefined) return document.createTextNode(text);
  const made = document.createElement(isHit ? "mark" : "span");
  if (name !== "") made.className = name;
  made.textContent = text;
  if (sign !== undefined) draw(made, sign);
  return made;
}

/** Returns what is selected in the tree of a node. In some engines only the root of a shadow tree knows it. */
export function selectionIn(node) {
  return node.getRootNode().getSelection?.() ?? getSelection();
}

/** Copies what is selected, without the blanks at the ends of lines. */
function copy(event) {
  event.clipboardData.setData("text/plain", String(selectionIn(event.currentTarget)).replace(/ +$/gm, ""));
  event.preventDefault();
}

const NONE = new Set(), HIDDEN = { row: 0, column: 0 };

export class Screen {
  /** Shows the rows in `place`. The element `sized` gets the custom properties `--rows` and `--columns`. */
  constructor(core, place, sized = place) {
    Object.assign(this, { place, sized });
    this.drawn = new Terminal(core);
    this.rows = [];
    this.wanted = null;
    /** The columns of what is found in each row, from 0. */
    this.hits = [];
    this.cursor = HIDDEN;
    this.isStale = true;
    this.fit(this.drawn);
    place.oncopy = copy;
  }

  /** Frees its memory, and removes the rows. */
  close() {
    this.drawn.close();
    this.place.replaceChildren();
  }

  /** Marks a text, or what an expression finds, wherever it is on the screen, from the next draw on. */
  find(text, how) {
    this.wanted = text === "" ? null : pattern(text, how);
    this.isStale = true;
  }

  /** Marks rows, by their numbers from 1, and no others. */
  mark(numbers) {
    this.rows.forEach((row, i) => row.classList.toggle("d", numbers.includes(i + 1)));
  }

  /** Has as many rows as a terminal. All are drawn again if that is another number. */
  fit({ rows, width }) {
    this.sized.style.setProperty("--rows", rows);
    this.sized.style.setProperty("--columns", width);
    if (rows === this.rows.length) return;
    while (this.rows.length < rows) this.rows.push(this.place.appendChild(document.createElement("div")));
    for (const row of this.rows.splice(rows)) row.remove();
    this.hits = new Array(rows).fill(NONE);
    this.cursor = HIDDEN;
    this.isStale = true;
  }

  draw(terminal) {
    this.fit(terminal);
    const { dectcem, decscnm } = terminal.modes, before = this.cursor, cursor = dectcem ? terminal.cursor : HIDDEN;
    const changed = new Set(this.isStale ? this.rows.keys() : this.drawn.changedRows(terminal).map((row) => row - 1));
    if (cursor.row !== before.row || cursor.column !== before.column) for (const { row } of [before, cursor]) if (row > 0) changed.add(row - 1);
    for (const row of this.findAgain(terminal)) changed.add(row);
    for (const row of changed) this.drawRow(terminal, row, cursor.row === row + 1 ? cursor.column : 0);
    this.place.classList.toggle("reversed", decscnm);
    this.drawn = inStateOf(terminal, this.drawn);
    this.cursor = cursor;
    this.isStale = false;
  }

  /** Finds again what is marked. Returns the rows in which that changed, from 0. */
  findAgain(terminal) {
    const before = this.hits, rows = this.rows.map((_, i) => (this.wanted === null ? "" : terminal.rowText(i + 1)));
    this.hits = this.wanted === null ? before.map(() => NONE) : covered(this.wanted, rows, terminal.width, terminal.encoding === "utf-8" ? " " : "");
    return [...this.hits.keys()].filter((i) => String([...this.hits[i]]) !== String([...before[i]]));
  }

  drawRow(terminal, row, cursor) {
    this.rows[row].replaceChildren(...runs(terminal.cells(row + 1), cursor, this.hits[row]).map(element));
  }
}
