// vt220.js: a DEC VT220 terminal core. You feed it the bytes of a host, and read the screen, the replies and the repaint.
// Rows, columns and margins count from 1. vt220.d.ts documents each call.

export const ROWS = 24;
export const COLUMNS = 132;
export const MOST_ROWS = 255;
export const MOST_COLUMNS = 255;

const CODES = ["OK", "MEMORY", "IN_USE", "CLOSED", "PARTIAL", "ROOM", "UNSUPPORTED", "NO_ROW", "NO_KEY", "NO_CHARACTER", "LANGUAGE", "SIZE", "NO_LANGUAGE", "NO_SIZE"];
const MEMORY = 1, CLOSED = 3, NO_ROW = 7, SIZE = 11, NO_SIZE = 13, XTERM = 2;
export const LEAST_ROWS = 2; // the fewest of a screen
export const LEAST_COLUMNS = 2;
const NARROW = 80; // the columns of a VT220's screen at power-up
const HELD = ["nothing", "escape", "control", "string"];
const CURSOR = ["row", "column", "wrap"];
const MARGINS = ["top", "bottom"];
const MODES = ["kam", "irm", "srm", "lnm", "decckm", "decsclm", "decscnm", "decom", "decawm", "decarm", "dectcem", "keypadApplication", "reports8bit"];
const BRUSH = ["bold", "underline", "blink", "reverse", "isProtected"];
const SETS = ["g0", "g1", "g2", "g3", "gl", "gr", "singleShift"];
const SAVED = ["row", "column", "wrap", "origin", ...BRUSH, "g0", "g1", "g2", "g3", "gl", "gr"];
const FLAGS = new Set(["wrap", "origin", "alternate", "bracketedPaste", ...BRUSH, ...MODES]);
const SET_NAMES = new Set(["g0", "g1", "g2", "g3"]);
const OPTIONS = ["rows", "columns", "encoding", "terminal"];
const ENCODINGS = ["dec", "utf-8"];
const TERMINALS = ["vt220", "xterm"];
const LANGUAGE = ["alternate", "bracketedPaste", "length", "first", "second", "third"]; // the length and the bytes of what is pending
const CELL = 12; // bytes: the number of the glyph, five attributes and three reserved bytes

export class Vt220Error extends Error {
  constructor(code, message) {
    super(message);
    this.name = "Vt220Error";
    this.code = code;
  }
}

/** Returns the number of the language that options name. With the terminal "xterm" the encoding is always UTF-8. */
function languageOf({ encoding = "dec", terminal = "vt220" } = {}) {
  if (!ENCODINGS.includes(encoding)) throw new TypeError(`an encoding is one of ${ENCODINGS.join(", ")}`);
  if (!TERMINALS.includes(terminal)) throw new TypeError(`a terminal is one of ${TERMINALS.join(", ")}`);
  return 2 * TERMINALS.indexOf(terminal) || ENCODINGS.indexOf(encoding);
}

/** Returns whether a screen may have so many rows and columns. */
export function isSize(rows, columns) {
  const isOf = (value, least, most) => Number.isInteger(value) && least <= value && value <= most;
  return isOf(rows, LEAST_ROWS, MOST_ROWS) && isOf(columns, LEAST_COLUMNS, MOST_COLUMNS);
}

/** Throws NO_SIZE if no screen has so many rows and columns. */
export function checkSize(rows, columns) {
  if (isSize(rows, columns)) return;
  throw new Vt220Error(CODES[NO_SIZE], `a screen has ${LEAST_ROWS} to ${MOST_ROWS} rows of ${LEAST_COLUMNS} to ${MOST_COLUMNS} columns, not ${rows} of ${columns}`);
}

/** Compiles the module: bytes, a module, or a response. */
async function compiled(source) {
  source = await source;
  if (typeof source !== "object" || source === null) throw new TypeError("load() takes the bytes of vt220.wasm, its module, or a response with it");
  if (source instanceof WebAssembly.Module) return source;
  if (typeof source.arrayBuffer !== "function") return WebAssembly.compile(source);
  if (source.ok === false) throw new TypeError(`vt220.wasm could not be fetched: status ${source.status}`);
  return WebAssembly.compile(await source.arrayBuffer());
}

/** Returns the bytes of vt220.wasm next to this module, as a response. In node, node.js reads the file. */
async function nearby() {
  return fetch(new URL("../vt220.wasm", import.meta.url));
}

export async function load(source = nearby()) {
  const module = await compiled(source), { exports } = await WebAssembly.instantiate(module);
  if (typeof exports.start !== "function") throw new TypeError("load() takes vt220.wasm, and this is another module");
  return new Core(exports, module);
}

/** Returns the exports of the module, and whether one has trapped, which leaves the memory as it is. After that each of them throws. */
function guarded(exports) {
  let isInside = false;
  const calls = {};
  for (const [name, call] of Object.entries(exports)) {
    if (typeof call !== "function") continue;
    calls[name] = (a, b, c, d) => {
      if (isInside) throw new Vt220Error("BROKEN", "an earlier call ended in a fault of WebAssembly; load the module again");
      isInside = true;
      const result = call(a, b, c, d);
      isInside = false;
      return result;
    };
  }
  return { calls, isBroken: () => isInside };
}

function joined(parts) {
  if (parts.length === 1) return parts[0];
  const bytes = new Uint8Array(parts.reduce((sum, part) => sum + part.length, 0));
  let at = 0;
  for (const part of parts) {
    bytes.set(part, at);
    at += part.length;
  }
  return bytes;
}

/** Returns a field as the C library's: a flag, the character that names a set, or a number. */
function field(name, value) {
  if (FLAGS.has(name)) return value !== 0;
  return SET_NAMES.has(name) ? String.fromCharCode(value) : value;
}

const encoder = new TextEncoder();
const decoder = new TextDecoder();

class Core {
  #memory;
  #bytes;
  #left;
  #isBroken;

  constructor(exports, module) {
    const { calls, isBroken } = guarded(exports);
    this.module = module;
    this.#memory = exports.memory;
    this.calls = calls;
    this.#isBroken = isBroken;
    this.expect(this.calls.start());
    this.version = this.calls.version();
    this.inputSize = this.calls.input_size();
    this.#left = new FinalizationRegistry((at) => this.#free(at));
  }

  /** Closes a terminal. Nothing of a broken core is freed. */
  #free(at) {
    if (!this.#isBroken()) this.calls.close(at);
  }

  /** The memory, which has a new buffer after it has grown. */
  get bytes() {
    if (this.#bytes?.buffer !== this.#memory.buffer) this.#bytes = new Uint8Array(this.#memory.buffer);
    return this.#bytes;
  }

  expect(status) {
    if (status !== 0) throw new Vt220Error(CODES[status], this.statusText(status));
  }

  statusText(status) {
    const at = this.calls.status_text(status);
    return decoder.decode(this.bytes.subarray(at, this.bytes.indexOf(0, at)));
  }

  /** Returns a copy of bytes of a buffer. */
  copied(buffer, size) {
    const at = this.calls[buffer]();
    return this.bytes.slice(at, at + size);
  }

  /** Returns what the last call wrote. */
  out() {
    return this.copied("out", this.calls.written());
  }

  /** Copies as many bytes as fit to the input, and returns their number. */
  input(bytes) {
    const front = bytes.subarray(0, this.inputSize);
    this.bytes.set(front, this.calls.input());
    return front.length;
  }

  words(buffer, count) {
    return new Uint32Array(this.#memory.buffer, this.calls[buffer](), count);
  }

  /** Opens the handle of a terminal, and returns its address. A terminal that is left is closed. */
  open(terminal, language, rows, columns) {
    const at = this.calls.open(language, rows, columns);
    if (at === 0) this.expect(MEMORY);
    this.#left.register(terminal, at, terminal);
    return at;
  }

  close(terminal, at) {
    this.#left.unregister(terminal);
    this.#free(at);
  }

  key(key, modes = {}, options) {
    const language = languageOf(options), len = this.input(encoder.encode(key));
    const set = MODES.reduce((bits, name, i) => (modes[name] ? bits | (1 << i) : bits), 0);
    this.expect(this.calls.key(language, set, len));
    return this.out();
  }

  keyLength(typed) {
    return this.calls.key_length(this.input(typed));
  }

  #shownCharacter(character) {
    const glyph = this.calls.shown(character.codePointAt(0)), [cells] = this.words("part", 1);
    return cells === 0 ? "" : String.fromCodePoint(glyph).padEnd(cells);
  }

  shown(text) {
    return text.replace(/[^\0-\x7f]/gu, (character) => this.#shownCharacter(character));
  }
}

export class Terminal {
  #core;
  #at;
  #language; // its number

  constructor(core, options = {}) {
    if (!(core instanceof Core)) throw new TypeError("a terminal needs the core that load() returns");
    const { rows = ROWS, columns = NARROW } = options, other = Object.keys(options).find((name) => !OPTIONS.includes(name));
    if (other !== undefined) throw new TypeError(`a terminal has no option ${other}; its options are ${OPTIONS.join(", ")}`);
    this.#language = languageOf(options);
    checkSize(rows, columns);
    this.#core = core;
    this.#at = core.open(this, this.#language, rows, columns);
  }

  get encoding() {
    return ENCODINGS[Number(this.#language > 0)];
  }

  get terminal() {
    return TERMINALS[Number(this.#language === XTERM)];
  }

  close() {
    if (this.#at !== 0) this.#core.close(this, this.#at);
    this.#at = 0;
  }

  get isOpen() {
    return this.#at !== 0;
  }

  /** The address of the handle. */
  get #handle() {
    if (this.#at === 0) this.#core.expect(CLOSED);
    return this.#at;
  }

  #other(terminal) {
    if (!(terminal instanceof Terminal)) throw new TypeError("this call takes another terminal");
    if (terminal.#core !== this.#core) throw new TypeError("the two terminals belong to different cores");
    return terminal.#handle;
  }

  /** Feeds bytes by a call of the module, and passes the replies and the lines of each to `take`. */
  #feed(name, bytes, take) {
    if (!(bytes instanceof Uint8Array)) throw new TypeError("a terminal is fed a Uint8Array");
    const core = this.#core, play = core.calls[name], handle = this.#handle;
    for (let at = 0; at < bytes.length; ) {
      const size = core.input(bytes.subarray(at));
      for (let fed = 0; fed < size; ) {
        fed += play(handle, fed, size);
        take(core.calls.written());
      }
      at += size;
    }
  }

  feed(bytes) {
    const replies = [];
    this.#feed("feed", bytes, (size) => {
      if (size > 0) replies.push(this.#core.copied("reports", size));
    });
    return joined(replies);
  }

  feedLog(bytes) {
    const core = this.#core, replies = [], texts = [];
    this.#feed("feed_log", bytes, (size) => {
      if (size > 0) replies.push(core.copied("reports", size));
      const written = core.calls.lines_written();
      if (written > 0) texts.push(core.copied("lines", written));
    });
    return { replies: joined(replies), lines: decoder.decode(joined(texts)).split("\n").slice(0, -1) };
  }

  #written(call, argument) {
    this.#core.expect(this.#core.calls[call](this.#handle, argument));
    return this.#core.out();
  }

  /** Returns a number of a row as the module takes it, which knows how many there are. */
  #row(row) {
    if (!Number.isInteger(row) || row < 1 || row > MOST_ROWS) this.#core.expect(NO_ROW);
    return row;
  }

  text() {
    return decoder.decode(this.#written("text"));
  }

  rowText(row) {
    return decoder.decode(this.#written("row_text", this.#row(row))).slice(0, -1);
  }

  show() {
    return decoder.decode(this.#written("show"));
  }

  picture() {
    return decoder.decode(this.#written("picture"));
  }

  repaint(terminal = this.terminal) {
    return this.#written("repaint", languageOf({ encoding: this.encoding, terminal }));
  }

  update(to) {
    return this.#written("update", this.#other(to));
  }

  draw(shown = null) {
    const core = this.#core, handle = this.#handle;
    core.expect(core.calls.draw(shown === null ? 0 : this.#other(shown), handle));
    return core.out();
  }

  copyFrom(from) {
    const other = this.#other(from);
    this.#core.expect(this.#core.calls.copy(this.#handle, other));
  }

  copy() {
    const { encoding, terminal, rows, width } = this, copied = new Terminal(this.#core, { encoding, terminal });
    try {
      // A VT220's screen may be 132 columns wide, and one that was resized to 24 by 80 isn't a VT220's.
      if (this.#core.calls.copy(copied.#at, this.#at) === SIZE) {
        copied.resize(rows, width);
        copied.copyFrom(this);
      }
    } catch (error) {
      copied.close();
      throw error;
    }
    return copied;
  }

  resize(rows, columns) {
    const handle = this.#handle;
    checkSize(rows, columns);
    this.#core.expect(this.#core.calls.resize(handle, rows, columns));
  }

  reset() {
    this.#core.expect(this.#core.calls.reset(this.#handle));
  }

  get alternate() {
    return this.#part("language", LANGUAGE).alternate;
  }

  get bracketedPaste() {
    return this.#part("language", LANGUAGE).bracketedPaste;
  }

  get pending() {
    const { length, first, second, third } = this.#part("language", LANGUAGE);
    return Uint8Array.of(first, second, third).subarray(0, length);
  }

  sameState(other) {
    return this.#core.calls.same_state(this.#handle, this.#other(other)) !== 0;
  }

  changedRows(to) {
    const count = this.#core.calls.changed_rows(this.#handle, this.#other(to));
    return Array.from(this.#core.words("part", count));
  }

  rowChanges(to, row) {
    this.#core.expect(this.#core.calls.row_changes(this.#handle, this.#other(to), this.#row(row)));
    return Array.from(this.#core.words("part", to.width), (changed) => changed !== 0);
  }

  cells(row) {
    const core = this.#core, count = core.calls.row(this.#handle, this.#row(row)), at = core.calls.cells();
    if (count === 0) core.expect(NO_ROW);
    const glyphs = core.words("cells", (count * CELL) / 4), bytes = core.bytes, cells = new Array(count);
    for (let i = 0; i < count; i++) {
      const flags = at + i * CELL + 4;
      cells[i] = {
        glyph: String.fromCodePoint(glyphs[(i * CELL) / 4]),
        bold: bytes[flags] !== 0,
        underline: bytes[flags + 1] !== 0,
        blink: bytes[flags + 2] !== 0,
        reverse: bytes[flags + 3] !== 0,
        isProtected: bytes[flags + 4] !== 0,
      };
    }
    return cells;
  }

  /** Returns the fields of a part of the state. */
  #part(call, names) {
    this.#core.calls[call](this.#handle);
    const words = this.#core.words("part", names.length);
    return Object.fromEntries(names.map((name, i) => [name, field(name, words[i])]));
  }

  get cursor() {
    return this.#part("cursor", CURSOR);
  }

  get margins() {
    return this.#part("margins", MARGINS);
  }

  get modes() {
    return this.#part("modes", MODES);
  }

  get brush() {
    return this.#part("brush", BRUSH);
  }

  get sets() {
    return this.#part("sets", SETS);
  }

  get saved() {
    return this.#part("saved", SAVED);
  }

  get stops() {
    const count = this.#core.calls.stops(this.#handle);
    return Array.from(this.#core.words("part", count));
  }

  get rows() {
    return this.#core.calls.rows(this.#handle);
  }

  get width() {
    return this.#core.calls.width(this.#handle);
  }

  get bells() {
    return this.#core.calls.bells(this.#handle);
  }

  get isBetween() {
    return this.#core.calls.is_between(this.#handle) !== 0;
  }

  get held() {
    return HELD[this.#core.calls.held_kind(this.#handle)];
  }
}

/** Returns a terminal in the state of another one: `kept` if that can have it, otherwise a copy, and `kept` is closed. */
export function inStateOf(terminal, kept) {
  try {
    kept.copyFrom(terminal);
    return kept;
  } catch (error) {
    if (!["SIZE", "LANGUAGE"].includes(error.code)) throw error;
  }
  const copied = terminal.copy();
  kept.close();
  return copied;
}

// `using t = new Terminal(core)` closes the terminal at the end of its block, in engines that have it.
if (Symbol.dispose) Terminal.prototype[Symbol.dispose] = Terminal.prototype.close;
