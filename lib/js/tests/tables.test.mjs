// Each row of lib/rows/vectors.txt, sizes.txt and repaints.txt, whole, byte by byte and in chunks of five, and a vector also from a checkpoint at each byte.
// UTF-8 and TERM=xterm.
import assert from "node:assert/strict";
import { test } from "node:test";
import { rows, vt220 } from "./package.mjs";

const { load, Terminal, Timeline } = vt220, core = await load();
const bytes = (hex) => Uint8Array.from(hex.match(/[0-9A-Fa-f]{2}/g) ?? [], (digits) => parseInt(digits, 16));
const hex = (data) => Array.from(data, (byte) => byte.toString(16).padStart(2, "0")).join("");
const ascii = (text) => Uint8Array.from(text, (c) => c.charCodeAt(0));
const equal = (a, b) => a.length === b.length && a.every((byte, i) => byte === b[i]);

const LANGUAGES = [{}, { encoding: "utf-8" }, { terminal: "xterm" }];
const ANYTHING = ascii("\x1b[?3h\x1b[5mx\x1b[?6h\x1b(0\x1b[3;7r\x1b7");

/** Returns what a terminal has, and what it has returned, as the rows have it. */
function described(terminal, replies, lines) {
  const { cursor, brush, alternate, bracketedPaste, bells, pending } = terminal, utf8 = (text) => hex(new TextEncoder().encode(text));
  const look = ["bold", "underline", "blink", "reverse"].filter((name) => brush[name]).join(" ");
  return `text ${utf8(terminal.show().replace(/\n+$/, ""))} cursor ${cursor.row};${cursor.column} wrap ${Number(cursor.wrap)} brush ${look} alternate ${Number(alternate)}`
    + ` paste ${Number(bracketedPaste)} bells ${bells} pending ${hex(pending)} reports ${hex(replies)} lines ${utf8(lines.map((line) => line + "\n").join(""))}`;
}

/** Returns whether terminals have the same state, the same pending bytes and the same pages. Leaves another page shown. */
function same(a, ...others) {
  const isSame = others.every((b) => a.sameState(b) && equal(a.pending, b.pending) && a.alternate === b.alternate);
  for (const each of [a, ...others]) each.feed(ascii(each.alternate ? "\x18\x1b[?47l" : "\x18\x1b[?47h"));
  return isSame && others.every((b) => a.sameState(b));
}

/** Plays a row in chunks of a size, with the log or without one, and what comes after a change of the size on a copy, too. */
function plays({ options, input, size, more, wanted }, chunk, log) {
  const terminal = new Terminal(core, options), replies = [], lines = [];
  const play = (data) => {
    for (let at = 0; at < data.length; at += chunk) {
      const piece = data.subarray(at, at + chunk), got = log ? terminal.feedLog(piece) : { replies: terminal.feed(piece), lines: [] };
      replies.push(...got.replies);
      lines.push(...got.lines);
    }
  };
  play(input);
  const copied = terminal.copy(), { rows, columns } = size ?? options;
  if (size !== null) for (const each of [terminal, copied]) each.resize(rows, columns);
  play(more);
  copied.feed(more);
  if (wanted !== "-") assert.equal(described(terminal, replies, lines), log ? wanted : wanted.replace(/ lines .*/, " lines "));
  assert(terminal.rows === rows && terminal.width >= columns && terminal.text().split("\n").length === rows + 1, "the size");
  assert(same(terminal, copied), "a copy");
  for (const each of [terminal, copied]) each.close();
}

/** Returns whether a copy after so many bytes leads to the same end, and a repaint with what is pending. */
function resumes(options, input, at) {
  const [whole, first, second, copied] = Array.from({ length: 4 }, () => new Terminal(core, options));
  whole.feed(input);
  first.feed(input.subarray(0, at));
  copied.copyFrom(first);
  second.feed(ascii(second.terminal === "xterm" ? "other\x1b[?47hpage" : ""));
  if (first.isBetween) second.feed(first.repaint()), second.feed(first.pending);
  else second.copyFrom(first);
  for (const each of [copied, second]) each.feed(input.subarray(at));
  const isSame = same(whole, copied, second);
  for (const each of [whole, first, second, copied]) each.close();
  return isSame;
}

/** Returns the code of the error that a call throws. */
function thrown(call) {
  try {
    call();
  } catch (error) {
    return error.code ?? error.name;
  }
  return null;
}

/** Checks the text and the cells of a row, and its repaint and an update on other terminals. Inside a sequence there is neither. */
function leads({ options, input, repaint }) {
  const [terminal, painted, shown, told] = Array.from({ length: 4 }, () => new Terminal(core, options)), all = Array.from({ length: options.rows }, (_, i) => i + 1);
  terminal.feed(input);
  const lines = terminal.show().replace(/\x1b\[[\d;]*m/g, "").split("\n"), text = lines.map((line) => line.trimEnd()).join("\n");
  assert(terminal.text() === text && all.map((one) => terminal.rowText(one) + "\n").join("") === text, "the text");
  assert.equal(all.map((one) => terminal.cells(one).map((cell) => cell.glyph).join("").trimEnd() + "\n").join(""), text, "the cells");
  if (repaint === "partial") {
    assert(thrown(() => terminal.repaint()) === "PARTIAL" && thrown(() => painted.update(terminal)) === "PARTIAL", "no repaint");
    assert(!terminal.isBetween && terminal.held !== "nothing", "the held part");
  } else {
    for (const each of [painted, shown, told]) each.feed(ANYTHING);
    if (repaint !== "-") assert.equal(hex(terminal.repaint()), repaint, "the repaint");
    assert(painted.feed(terminal.repaint()).length === 0 && painted.sameState(terminal), "the repaint, played");
    assert(told.feed(shown.update(terminal)).length === 0 && told.sameState(terminal) && shown.sameState(terminal), "the update, played");
    assert(shown.update(terminal).length === 0 && shown.changedRows(terminal).length === 0, "an update of equal states");
  }
  for (const each of [terminal, painted, shown, told]) each.close();
}

const all = await rows("screens");
for (const [name, language, first, columns, input, second, wide, more, wanted, repaint] of all)
  test(name, () => {
    const size = second === "0" ? null : { rows: Number(second), columns: Number(wide) };
    const row = { options: { ...LANGUAGES[language], rows: Number(first), columns: Number(columns) }, input: bytes(input), size, more: bytes(more), wanted, repaint };
    if (language === "0" && size === null) leads(row);
    for (const chunk of [1 << 20, 1, 5]) for (const log of [false, true]) plays(row, chunk, log);
    if (first === "24" && size === null && wanted !== "-") for (let at = 0; at < row.input.length; at++) assert(resumes(row.options, row.input, at), `a checkpoint at ${at}`);
  });

test("the rows", () => assert(all.length > 800));

// By the tables of docs/SPECIFICATION.md, 'UTF-8'.
const SHOWN = [["Welt", "Welt"], ["\u201cWelt\u201d", '"Welt"'], ["\u2501\u251b", "\u2500\u2518"], ["\u4e16x", "\u2426 x"], ["e\u0301", "e"], ["\u00ad", "-"], ["\uff21", "A "],
  ["\u{1f600}", "\u2426 "], ["a\n\t\x7f", "a\n\t\x7f"], ["\u0085", ""], ["", ""]];

test("encodings", () => {
  const terminal = new Terminal(core, { encoding: "utf-8" }), other = new Terminal(core, {});
  assert(terminal.encoding === "utf-8" && other.encoding === "dec" && new Terminal(core).encoding === "dec", "the encodings");
  assert(["utf8", "UTF-8", "", null, 8].every((encoding) => thrown(() => new Terminal(core, { encoding })) === "TypeError"), "another encoding");
  terminal.feed(bytes("63 C3"));
  other.copyFrom(terminal);
  assert(other.sameState(terminal) && equal(terminal.pending, [0xc3]) && other.pending.length === 0, "what is pending is next to the state");
  terminal.pending[0] = 0x41;
  assert(equal(terminal.pending, [0xc3]), "what is pending is a copy");
  for (const [text, shown] of SHOWN) assert.equal(core.shown(text), shown, `how ${JSON.stringify(text)} is shown`);
  for (const each of [terminal, other]) each.close();
});

test("terminals", () => {
  const terminal = new Terminal(core, { terminal: "xterm" }), other = new Terminal(core, { encoding: "utf-8", terminal: "vt220" });
  assert(terminal.terminal === "xterm" && terminal.encoding === "utf-8" && other.terminal === "vt220" && new Terminal(core).terminal === "vt220", "the terminals");
  assert(["xterm-256color", "", null, 8].every((name) => thrown(() => new Terminal(core, { terminal: name })) === "TypeError"), "another terminal");
  terminal.feed(ascii("main\x1b[?1049h\xe2"));
  for (const call of [() => other.repaint("xterm"), () => terminal.copyFrom(other), () => terminal.update(other)]) assert.throws(call, { code: "LANGUAGE" }, "a VT220 has one page");
  other.copyFrom(terminal);
  assert(terminal.alternate && !other.alternate && other.sameState(terminal) && equal(other.pending, [0xe2]), "a VT220 copies the page that is shown");
  const viewer = new Terminal(core);
  viewer.feed(terminal.repaint("vt220"));
  assert(viewer.sameState(terminal), "a VT220 shows the page");
  const many = terminal.feed(ascii("\x1b[6n".repeat(40000) + "\x1b[?47l"));
  assert(many.length === 240000 && !terminal.alternate, "many replies under TERM=xterm");
  for (const each of [terminal, other, viewer]) each.close();
});

/** Returns whether a Timeline is exact at each byte, from all positions that a seek begins at. */
function exact(line, options, input) {
  for (const to of [input.length, ...input.keys(), ...[...input.keys()].reverse()]) {
    const plain = new Terminal(core, options);
    plain.feed(input.subarray(0, to));
    const copied = new Terminal(core, options);
    copied.copyFrom(line.seek(to));
    assert(line.position === to && same(plain, copied), `a seek to byte ${to} of ${options.terminal ?? options.encoding}`);
    for (const each of [plain, copied]) each.close();
  }
}

test("a Timeline is exact at each byte, and finds a text by what is shown for it", () => {
  const input = bytes("E2 80 E2 80 9C 57 E2 80 9D C3 0D 0A E4 B8 96 F0 9F 98 80 1B 5B 31 C3 A9 E2 80");
  const recording = { bytes: input, times: [1, 2, 3], ends: [2, 11, input.length] };
  const options = { encoding: "utf-8" };
  for (const every of [1, 2, 5]) {
    const line = new Timeline(core, recording, { every, ...options });
    exact(line, options, input);
    assert(line.search("\u201cW\u201d")[0]?.time === 2 && line.search("\u4e16\u{1f600}")[0]?.row === 2 && line.search("\u{1f600}\u00e9")[0]?.column === 3, "a search in UTF-8");
    line.close();
  }
});

test("so is one under TERM=xterm, with a text that is away while the alternate page is shown", () => {
  const parts = ["main \xe2\x80\x9cW\xe2\x80\x9d\x1b[3;3H\xe2", "\x1b[?1049h\x1b[2Jother\x1b[3b", "\x1b[?1049l\xc3\xa9\x1b[24H\x1b[2S\x1b[?47h", "\x1b[?47l"].map(ascii);
  let end = 0;
  const ends = parts.map((part) => (end += part.length)), input = ascii(parts.map((part) => String.fromCharCode(...part)).join(""));
  const options = { terminal: "xterm" }, recording = { bytes: input, times: [1, 2, 3, 4], ends };
  for (const every of [1, 3, 20]) {
    const line = new Timeline(core, recording, { every, ...options });
    exact(line, options, input);
    const [other] = line.search("other");
    assert(other?.time === 2 && other.until === 4 && other.row === 3, "a search on the alternate page");
    const [back] = line.search("\u00e9");
    assert(back?.time === 4 && back.row === 1 && back.column === 4, "a search after an SU on the main page");
    assert.equal(line.search("main \u201cW\u201d")[0]?.until, 2, "a search on the main page");
    assert(line.checkpoints > (every === 20 ? 1 : 5), "checkpoints of both pages");
    line.close();
  }
});
