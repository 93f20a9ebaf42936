// Tests each call of the package, its errors, and what the module has.
import assert from "node:assert/strict";
import { test } from "node:test";
import { vt220, wasm } from "./package.mjs";

const { load, Terminal, Timeline, Vt220Error, ROWS, COLUMNS, MOST_ROWS, MOST_COLUMNS } = vt220;
const core = await load(wasm), other = await load(wasm), sized = await load(wasm);
const bytes = (text) => Uint8Array.from(text, (c) => c.charCodeAt(0));
const text = (data) => String.fromCharCode(...data);
const json = JSON.stringify;

function thrown(call) {
  try {
    call();
  } catch (error) {
    return error.code ?? error.name;
  }
  return null;
}

/** The calls and properties that a closed terminal refuses, with their arguments. */
const OPEN = [
  ["feed", [bytes("x")]], ["feedLog", [bytes("x")]], ["reset", []], ["text", []], ["rowText", [1]], ["show", []], ["picture", []], ["repaint", []],
  ["cells", [1]], ["copyFrom", ["other"]], ["update", ["other"]], ["draw", ["other"]], ["draw", []], ["sameState", ["other"]], ["changedRows", ["other"]], ["rowChanges", ["other", 1]],
  ["copy", []], ["resize", [24, 80]],
];
const PROPERTIES = ["cursor", "margins", "modes", "brush", "sets", "saved", "stops", "rows", "width", "bells", "isBetween", "held", "pending", "alternate"];

test("what is read of a terminal", () => {
  const t = new Terminal(core);
  assert.deepEqual(t.stops, Array.from({ length: 16 }, (_, i) => 9 + 8 * i), "the stops at power-up");
  assert.deepEqual(t.sets, { g0: "B", g1: "B", g2: "<", g3: "<", gl: 0, gr: 2, singleShift: 0 }, "the sets at power-up");
  t.feed(bytes("\x1b[3;7H\x1b(A\x1b)0\x0e\x1b[1m\x1b7\x1b[m\x1b[4m\x1bO\x07\x07"));
  assert.deepEqual(t.sets, { g0: "A", g1: "0", g2: "<", g3: "<", gl: 1, gr: 2, singleShift: 3 }, "the sets");
  assert.deepEqual(t.brush, { bold: false, underline: true, blink: false, reverse: false, isProtected: false }, "the brush");
  const { saved } = t;
  assert(saved.row === 3 && saved.column === 7 && saved.bold && !saved.wrap && !saved.origin && saved.g0 === "A" && saved.gl === 1, "what is saved");
  assert.equal(t.bells, 2, "the bells");
  t.reset();
  t.feed(bytes("\x1b[2;3H\x1b[1;4mx\x1b[5;9r\x1b[4h"));
  assert.deepEqual(t.cells(2)[2], { glyph: "x", bold: true, underline: true, blink: false, reverse: false, isProtected: false }, "a cell");
  assert(t.cells(24).length === 80 && t.width === 80, "the width");
  assert.deepEqual(t.margins, { top: 5, bottom: 9 }, "the margins");
  assert.deepEqual(t.cursor, { row: 1, column: 1, wrap: false }, "the cursor");
  assert(t.modes.irm && !t.modes.lnm && t.modes.dectcem && Object.keys(t.modes).length === 13, "the modes");
  assert.equal(text(t.feed(bytes("\x1b[6n\x1b[c"))), "\x1b[1;1R\x1b[?62;1;6c", "replies");
  const many = t.feed(bytes("\x1b[c".repeat(40000)));
  assert(many.length === 400000 && text(many.subarray(-10)) === "\x1b[?62;1;6c", "many replies");
  t.close();
});

test("the lines that scroll off", () => {
  const t = new Terminal(core), lines = Array.from({ length: 5000 }, (_, i) => `line ${i} ${"x".repeat(i % 70)}`.trimEnd());
  const logged = t.feedLog(bytes(lines.join("\r\n") + "\x1b[6n"));
  assert(json(logged.lines) === json(lines.slice(0, 4976)) && logged.replies.length > 0, "the lines that scroll off");
  assert.equal(t.feedLog(new Uint8Array(0)).lines.length, 0, "no lines");
  const blank = t.feedLog(bytes("\x1bc\n".padEnd(40, "\n")));
  assert(blank.lines.length === 15 && blank.lines.every((line) => line === ""), "blank lines");
  t.close();
});

test("two terminals", () => {
  const a = new Terminal(core), b = new Terminal(core);
  a.feed(bytes("\x1b[3;2Hhello"));
  assert(json(b.changedRows(a)) === "[3]" && json(a.changedRows(b)) === "[3]", "changed rows");
  assert.deepEqual(b.rowChanges(a, 3).flatMap((is, i) => (is ? [i + 1] : [])), [2,3,4,5,6], "changed cells");
  a.feed(bytes("\x1b[?3h"));
  assert(b.changedRows(a).length === 24 && b.rowChanges(a, 1).length === 132, "changed rows of another width");
  b.copyFrom(a);
  assert(a.sameState(b) && a.sameState(a) && a.update(a).length === 0, "the same state");
  a.feed(bytes("\x1b["));
  assert(a.held === "control" && !a.isBetween && thrown(() => a.repaint()) === "PARTIAL", "inside a sequence");
  b.copyFrom(a);
  assert(b.held === "control" && a.sameState(b), "a copy inside a sequence");
  a.close();
  b.close();
});

// The bytes are those of the C library's tests (lib/c/tests/calls.c) and of the other bindings'.
test("drawings on another terminal", () => {
  const t = new Terminal(core), fresh = new Terminal(core), session = new Terminal(core, { terminal: "xterm" });
  t.feed(bytes("\x1b[1mab"));
  assert.equal(text(t.draw(fresh)), "\x1b[0;1mab\x1b[0m", "a drawing");
  assert.equal(t.draw(t).length, 0, "no drawing");
  for (const words of [[], [null], [undefined]]) assert.equal(text(t.draw(...words)), "\x1b[0m\x1b[1;1H\x1b[J\x1b[?25h\x1b[0;1mab\x1b[0m", "a drawing for any terminal");
  assert(thrown(() => t.draw({})) === "TypeError" && thrown(() => t.draw("")) === "TypeError", "an argument that isn't a terminal");
  session.feed(bytes("\x1b[?3h\x1b[2;3Hx\x1b[?1049h\x1b[5;5Hother\x1b["));
  for (const shown of [null, t, fresh]) {
    const screen = new Terminal(core, { terminal: "xterm" });
    screen.feed(bytes("\x1b[3;3H\x1b[7mjunk"));
    screen.feed(t.draw());
    if (shown !== null) screen.feed(shown.draw(t));
    screen.feed(session.draw(shown));
    assert(screen.text() === session.text() && json(screen.cursor) === json(session.cursor), "a session is drawn, also inside a sequence");
    screen.close();
  }
  for (const each of [t, fresh, session]) each.close();
});

/** The sizes that no screen has, as rows and columns. */
const NO_SIZES = [[1, 80], [256, 80], [24, 1], [24, 256], [0, 0], [24.5, 80], [24, NaN], ["24", 80], [24, null], [24, 2 ** 32 + 80], [2 ** 32 + 24, 80]];

test("errors", () => {
  const t = new Terminal(core), closed = new Terminal(core);
  for (const row of [0, -1, 25, 1.5, NaN, "3", undefined, 2 ** 32 + 1])
    for (const call of ["rowText", "cells"]) assert.throws(() => t[call](row), { code: "NO_ROW" }, `${call} of row ${row}`);
  assert((() => { try { t.cells(25); } catch (error) { return error instanceof Vt220Error && error instanceof Error && error.message === "there is no such row"; } })(), "a message");
  const texts = Array.from({ length: 15 }, (_, status) => core.statusText(status));
  assert(new Set(texts).size === 15 && texts[0] === "success" && texts[14] === "unknown status", "a text for each status");
  for (const data of ["text", [1, 2], null, new Uint16Array(2)]) assert.throws(() => t.feed(data), { name: "TypeError" }, `fed ${data}`);
  assert(thrown(() => t.copyFrom(new Terminal(other))) === "TypeError" && thrown(() => t.update({})) === "TypeError", "another core");
  assert(thrown(() => new Terminal()) === "TypeError" && thrown(() => new Terminal({})) === "TypeError", "no core");
  closed.close();
  closed.close();
  assert(!closed.isOpen && t.isOpen, "a closed terminal");
  for (const [call, given] of OPEN) {
    const words = given.map((word) => (word === "other" ? t : word));
    assert.throws(() => closed[call](...words), { code: "CLOSED" }, `closed: ${call}`);
    if (given.includes("other")) assert.throws(() => t[call](...given.map((word) => (word === "other" ? closed : word))), { code: "CLOSED" }, `closed: the argument of ${call}`);
  }
  for (const name of PROPERTIES) assert.throws(() => closed[name], { code: "CLOSED" }, `closed: ${name}`);
  for (const [rows, columns] of NO_SIZES) {
    const said = `a screen has 2 to 255 rows of 2 to 255 columns, not ${rows} of ${columns}`;
    for (const call of [() => new Terminal(core, { rows, columns }), () => t.resize(rows, columns)]) {
      assert(thrown(call) === "NO_SIZE" && (() => { try { call(); } catch (error) { return error.message === said; } })(), `the size of ${rows} rows and ${columns} columns`);
    }
  }
  assert(t.rows === 24 && t.width === 80, "no size changes nothing");
  const refused = (() => { try { new Terminal(core, { cols: 120 }); } catch (error) { return String(error); } })();
  assert.equal(refused, "TypeError: a terminal has no option cols; its options are rows, columns, encoding, terminal", `an option that there isn't: ${refused}`);
  assert(ROWS === 24 && COLUMNS === 132 && MOST_ROWS === 255 && MOST_COLUMNS === 255 && core.version >= 300, "constants");
  if (Symbol.dispose) closed[Symbol.dispose]();
  t.close();
});

test("keys", () => {
  const set = { decckm: true, reports8bit: true };
  const rows = [["a", {}, "a"], ["\u00e9", {}, "\xe9"], ["\u0153", {}, "\xf7"], ["Return", {}, "\r"], ["Return", { lnm: true }, "\r\n"], ["Up", {}, "\x1b[A"], ["Up", { decckm: true }, "\x1bOA"],
    ["Up", set, "\x8fA"], ["F20", set, "\x9b34~"], ["C-c", {}, "\x03"], ["KP5", { keypadApplication: true }, "\x1bOu"], ["\x1b[A", { decckm: true }, "\x1bOA"]];
  for (const [key, modes, sent] of rows) assert.equal(text(core.key(key, modes)), sent, `the key ${key}`);
  assert.equal(text(core.key("Up")), "\x1b[A", "a key without modes");
  assert(thrown(() => core.key("F5", {})) === "NO_KEY" && thrown(() => core.key("\u00f7", {})) === "NO_CHARACTER", "no such keys");
  assert.throws(() => core.key("x".repeat(100000), {}), { code: "NO_KEY" }, "a very long key");
  assert(core.keyLength(bytes("\x1b[A\x1b[B")) === 3 && core.keyLength(bytes("\x1b[")) === 0 && core.keyLength(bytes("ab")) === 1, "the length of keys");
});

test("the module", async () => {
  const module = await WebAssembly.compile(wasm);
  assert.equal(WebAssembly.Module.imports(module).length, 0, "no imports");
  const { exports } = await WebAssembly.instantiate(module);
  for (const size of [0, 1, 16, 1000, 100000, 3000000]) assert(exports.test_heap(size) === 1 && exports.test_heap(size) === 1, `the heap, ${size} bytes`);
  assert.equal(new Terminal(await load(module)).width, 80, "a load from a module");
  assert.equal(new Terminal(await load(Promise.resolve(wasm))).width, 80, "a load from a promise");
  if (typeof Response !== "undefined") assert.equal(new Terminal(await load(new Response(wasm))).width, 80, "a load from a response");
  const refused = (source) => load(source).then(() => "", String);
  assert((await refused(Uint8Array.of(1, 2, 3))) !== "", "a load of other bytes");
  const other = await refused(Uint8Array.of(0, 0x61, 0x73, 0x6d, 1, 0, 0, 0));
  assert.equal(other, "TypeError: load() takes vt220.wasm, and this is another module", `a load of another module: ${other}`);
  for (const source of ["vt220.wasm", 5, null]) assert((await refused(source)).startsWith("TypeError: load() takes the bytes of vt220.wasm"), `a load of ${source}`);
});

// Nothing is changed then, and the size that is needed is known.
test("buffers that are too small", () => {
  const t = new Terminal(core), shown = new Terminal(core), plain = new Terminal(core);
  t.feed(bytes("\x1b[?3h\x1b[3;7Htext\x1b(0\x1b[1mlqk\x1b[5;20r\x1b7"));
  const size = (out) => core.calls.test_sizes(5120, 400000, out);
  for (const [call, ...words] of [[() => t.text()], [() => t.show()], [() => t.picture()], [() => t.repaint()], [() => t.rowText(3)], [(from) => from.update(t)], [() => t.draw()], [(from) => t.draw(from)], [() => core.key("F20", {})]]) {
    const from = new Terminal(core), whole = json(call(from)), needed = core.calls.written();
    for (const out of [0, 1, needed - 1]) {
      size(out);
      assert(thrown(() => call(shown)) === "ROOM" && core.calls.written() === needed && shown.sameState(plain), `a buffer of ${out} bytes, and not ${needed}`);
    }
    size(needed);
    assert.equal(json(call(shown)), whole, `a buffer of ${needed} bytes`);
    size(2 ** 32 - 1);
    shown.copyFrom(plain);
    from.close();
  }
  for (const each of [t, shown, plain]) each.close();
});

/** Returns what a text with SGR sequences shows. */
const unattributed = (shown) => shown.replace(/\x1b\[[\d;]*m/g, "").replace(/ +$/gm, "");

/** Tests calls at a size: a full screen is read, and rebuilt by what is written of it. */
function atSize(options) {
  const { rows, columns, terminal } = options, t = new Terminal(sized, options), to = new Terminal(sized, options);
  const cells = Array.from({ length: rows * columns }, (_, i) => `\x1b[${1 + Math.floor(i / columns)};${1 + (i % columns)}H\x1b[0;${i % 2 ? "1;4;5;7" : "7"}m${String.fromCharCode(33 + (i % 90))}`);
  t.feed(bytes(cells.join("")));
  const lines = Array.from({ length: rows }, (_, row) => Array.from({ length: columns }, (_, i) => String.fromCharCode(33 + ((row * columns + i) % 90))).join(""));
  assert(t.rows === rows && t.width === columns && t.text() === lines.join("\n") + "\n" && unattributed(t.show()) === t.text(), "the size");
  assert(t.rowText(rows) === lines[rows - 1] && t.cells(rows).length === columns && t.cells(rows)[columns - 1].glyph === lines[rows - 1].at(-1), "the last row");
  for (const call of ["rowText", "cells"]) assert.throws(() => t[call](rows + 1), { code: "NO_ROW" }, `${call} of a row that isn't there`);
  assert(to.rowChanges(t, rows).length === columns && to.changedRows(t).length === rows && t.picture().endsWith("</svg>\n") && thrown(() => to.rowChanges(t, rows + 1)) === "NO_ROW", "marks");
  to.feed(bytes("\x1b[?7lother\x1b[5;7r\x1b[3g"));
  to.feed(t.repaint());
  assert(to.sameState(t) && t.draw(to).length === 0, "the repaint");
  to.feed(bytes("\x1b[H\x1b[2J"));
  if (terminal === "vt220") assert(to.update(t).length > rows * columns && to.sameState(t), "the update");
  const { lines: logged } = t.feedLog(bytes(`\x1b[${rows};1H` + "\r\n".repeat(rows + 600)));
  assert(json(logged.slice(0, rows)) === json(lines) && logged.length === rows + 600, "the log");
  assert(t.copy().sameState(t) && t.copy().terminal === terminal, "a copy");
  for (const each of [t, to]) each.close();
}

test("a change of the size", () => {
  const t = new Terminal(core), other = new Terminal(core);
  t.feed(bytes("\x07first\x1b[24;1Hlast"));
  t.resize(10, 100);
  assert(t.rows === 10 && t.width === 100 && t.rowText(10) === "last" && t.rowText(1) === "" && t.bells === 1 && json(t.margins) === json({ top: 1, bottom: 10 }), "a resize");
  assert(other.changedRows(t).length === 10 && t.changedRows(other).length === 24 && thrown(() => t.rowChanges(other, 1)) === "SIZE", "marks of two sizes");
  for (const call of [() => t.copyFrom(other), () => t.update(other), () => other.update(t)]) assert(thrown(call) === "SIZE" && t.rowText(10) === "last", "two sizes are refused");
  assert(text(t.draw(other)) === text(t.draw()) && text(other.draw(t)) === text(other.draw()), "a drawing on another size");
  t.resize(24, 80);
  assert(t.width === 80 && thrown(() => other.copyFrom(t)) === "SIZE" && t.copy().sameState(t), "a size of a VT220 that isn't one");
  t.feed(bytes("\x1b[?3h"));
  other.feed(bytes("\x1b[?3h"));
  assert(t.width === 80 && other.width === 132 && other.copy().sameState(other), "DECCOLM");
  for (const each of [t, other]) each.close();
});

for (const terminal of ["vt220", "xterm"])
  for (const [rows, columns] of [[2, 2], [30, 40], [2, 80], [24, 80], [24, 132], [40, 120], [255, 255]])
    test(`calls at ${rows} rows of ${columns} columns, ${terminal}`, () => atSize({ rows, columns, terminal }));

test("sizes that come and go take no more memory", () => {
  const t = new Terminal(sized), turn = () => {
    for (const [rows, columns] of [[60, 200], [24, 80], [80, 90], [61, 201], [30, 100]]) t.resize(rows, columns);
    return sized.bytes.length;
  };
  const size = turn();
  for (let i = 0; i < 20; i++) turn();
  assert.equal(turn(), size, "the memory of sizes that come and go");
  t.close();
});

/** Returns a number as an unsigned LEB128. */
const leb = (value) => (value < 128 ? [value] : [(value & 127) | 128, ...leb(value >> 7)]);

/** Returns the module with a limit for its memory, so many pages after those that it begins with. */
function limited(wasm, more) {
  const read = (at) => (wasm[at] < 128 ? [wasm[at], at + 1] : [(wasm[at] & 127) + 128 * read(at + 1)[0], read(at + 1)[1]]);
  let at = 8;
  while (wasm[at] !== 5) at = read(at + 1).reduce((size, start) => size + start);
  const [least, end] = read(at + 4), limits = [1, 1, ...leb(least), ...leb(least + more)];
  return Uint8Array.from([...wasm.subarray(0, at), 5, limits.length, ...limits, ...wasm.subarray(end)]);
}

/** Opens terminals until the memory of a core ends. Returns whether the call that fails then changes nothing, and whether a plain terminal can be opened still. */
function filled(core, options) {
  const made = [], open = () => thrown(() => made.push(new Terminal(core, options)));
  let fault = null;
  while (fault === null) fault = open();
  made.forEach((terminal, i) => terminal.feed(bytes(`terminal ${i}`)));
  const isWhole = fault === "MEMORY" && made.length > 0 && made.every((terminal, i) => terminal.text().trim() === `terminal ${i}`);
  const isLeft = options.terminal === "xterm" && thrown(() => new Terminal(core).close()) === null;
  made.shift().close();
  return { isWhole: isWhole && open() === null && open() === "MEMORY" && made.at(-1).text().trim() === "", isLeft };
}

// A call that allocates throws MEMORY and changes nothing, and a block that is freed is taken again.
test("the end of the memory", async () => {
  const code = await load(limited(wasm, 1)).catch((error) => error.code);
  assert.equal(code, "MEMORY", "no memory for a core");
  let left = 0;
  for (let more = 13; more < 25; more++) {
    for (const options of [{}, { terminal: "xterm" }]) {
      const { isWhole, isLeft } = filled(await load(limited(wasm, more)), options);
      assert(isWhole, `no memory after ${more} pages`);
      left += isLeft;
    }
  }
  assert(left > 0, "a terminal of which one part has no memory is closed");
});

/** Returns how many terminals can be opened until the memory of a core ends. They are closed again. */
function capacity(core) {
  const made = [];
  while (thrown(() => made.push(new Terminal(core))) === null);
  made.forEach((terminal) => terminal.close());
  return made.length;
}

// Until the memory is enough nothing has changed, and what was taken has been given back.
test("resizes with little memory", async () => {
  const faults = [];
  for (let more = 14; more < 60; more++) {
    const core = await load(limited(wasm, more)), t = new Terminal(core, { terminal: "xterm" }), count = capacity(core);
    t.feed(bytes("kept\x1b[5"));
    faults.push(thrown(() => t.resize(40, 120)));
    const isKept = t.rows === 24 && t.width === 80 && t.text().startsWith("kept\n") && t.held === "control" && capacity(core) === count;
    const isResized = t.rows === 40 && t.width === 120 && t.text().startsWith("kept\n") && t.held === "control";
    assert(faults.at(-1) === null ? isResized : faults.at(-1) === "MEMORY" && isKept, `a resize with ${more} pages: ${faults.at(-1)}`);
    t.close();
    assert(capacity(core) > count, `what is left of a resize with ${more} pages`);
  }
  assert(faults[0] === "MEMORY" && faults.at(-1) === null, "resizes with little memory");
});

test("twice as many terminals need few growths of the memory", async () => {
  const core = await load(wasm), made = [];
  let { buffer } = core.bytes, count = 0;
  const open = (terminals) => {
    for (count = 0; made.length < terminals; ) {
      made.push(new Terminal(core));
      if (core.bytes.buffer !== buffer) count++, ({ buffer } = core.bytes);
    }
  };
  open(1000);
  // An eighth more, six times, is twice as much.
  open(2000);
  assert(count > 0 && count <= 7, `the growths of the memory for 1000 more terminals: ${count}`);
  made.forEach((terminal) => terminal.close());
});

test("closed terminals leave their memory to others", () => {
  const round = (options) => {
    const made = Array.from({ length: 200 }, () => new Terminal(core, options));
    made.forEach((terminal, i) => terminal.feed(bytes(`terminal ${i}`)));
    const isRight = made.every((terminal, i) => terminal.rowText(1) === `terminal ${i}`);
    made.forEach((terminal) => terminal.close());
    return isRight;
  };
  const recording = { bytes: bytes("x".repeat(20000)), times: [1], ends: [20000] };
  const checkpoints = () => {
    const line = new Timeline(core, recording, { every: 200, terminal: "xterm" });
    const count = line.seekTime(1).isOpen && line.checkpoints;
    line.close();
    return count === 101;
  };
  for (const [what, call] of [["200 terminals", () => round()], ["200 of TERM=xterm", () => round({ terminal: "xterm" })], ["100 checkpoints", checkpoints]]) {
    assert(call(), what);
    const size = core.bytes.length;
    assert(call() && core.bytes.length === size, `${what} again`);
  }
});

test("a fault of WebAssembly ends the use of a core", async () => {
  const core = await load(wasm), other = await load(wasm);
  const t = new Terminal(core);
  assert.throws(() => core.calls.text(0xfffffff0), { name: "RuntimeError" }, "a fault");
  assert(thrown(() => t.text()) === "BROKEN" && thrown(() => new Terminal(core)) === "BROKEN", "after a fault");
  assert(thrown(() => t.close()) === null && !t.isOpen && thrown(() => t.text()) === "BROKEN", "a terminal is closed after a fault");
  assert.equal(new Terminal(other).width, 80, "another core after a fault");
});
