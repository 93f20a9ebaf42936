// Tests the Timeline: seeks against all bytes before, and searches against a scan of each chunk.
import assert from "node:assert/strict";
import { test } from "node:test";
import { vt220 } from "./package.mjs";

const { load, Terminal, Timeline } = vt220, core = await load();

/** Returns numbers that look random, the same each time. */
function numbers(seed) {
  return (below) => {
    seed = (seed * 48271) % 2147483647;
    return seed % below;
  };
}

const bytes = (text) => Uint8Array.from(text, (c) => c.charCodeAt(0));

/** Returns a recording of many screens, with cut sequences at the ends of chunks, and both widths. */
function recording() {
  const next = numbers(7), parts = [];
  for (let i = 0; i < 4000; i++) {
    parts.push(`\x1b[${1 + next(24)};${1 + next(80)}H\x1b[${next(2) * 7}mword${next(50)} `);
    if (next(9) === 0) parts.push("\x1b[2J", "\r\n".repeat(next(30)), `\x1b[?3${next(4) ? "l" : "h"}`);
    if (next(5) === 0) parts.push("\x1bP a string that is long enough to be cut somewhere \x1b\\");
  }
  const data = bytes(parts.join("")), times = [], ends = [];
  for (let at = 0, time = 0; at < data.length; time += next(1000) / 1000) {
    at = Math.min(data.length, at + 1 + next(90));
    times.push(time);
    ends.push(at);
  }
  return { bytes: data, times, ends };
}

const made = recording();

/** Returns the text of rows, in which one with a character in its last column goes on in the next one. */
const joined = (rows, width) => rows.map((row) => (row.length === width ? row : row + "\n")).join("");

/** Returns the text of a screen from a row on. */
function unwrapped(t, from = 1) {
  return joined(t.text().split("\n").slice(from - 1, 24), t.width);
}

function scan({ bytes, times, ends }, needle, matchCase) {
  const t = new Terminal(core), fold = (text) => (matchCase ? text : text.toLowerCase()), spans = [];
  let at = 0, isOn = false;
  ends.forEach((end, i) => {
    const { lines } = t.feedLog(bytes.subarray(at, end));
    at = end;
    const is = fold(unwrapped(t)).includes(fold(needle)), isPast = fold(joined(lines, t.width)).includes(fold(needle));
    if ((is || isPast) && !isOn) spans.push({ time: times[i], position: end, until: Infinity });
    if (!is && (isOn || isPast)) spans[spans.length - 1].until = times[i];
    isOn = is;
  });
  t.close();
  return spans;
}

test("seeks", () => {
  const next = numbers(3);
  for (const every of [1000, 65536]) {
    const line = new Timeline(core, made, { every });
    for (let i = 0; i < 100; i++) {
      const position = next(made.bytes.length + 1), t = new Terminal(core);
      t.feed(made.bytes.subarray(0, position));
      assert(line.seek(position).sameState(t) && line.position === position, `the state at ${position}`);
      t.close();
    }
    assert(every > 1000 || line.checkpoints > 50, "checkpoints");
    assert(line.seek(-5).text().trim() === "" && line.seek(1e12).isOpen && line.position === line.length, "the ends");
    assert(made.times.every((time, i) => line.positionAt(time) >= made.ends[i] && line.timeOf(made.ends[i]) === time), "times");
    assert(line.positionAt(-1) === 0 && line.chunksAt(-1) === 0 && line.timeOf(0) === 0, "before the first chunk");
    assert(line.seek(NaN) === line.terminal && line.position === 0, "a time that is no number");
    line.close();
  }
});

test("searches", () => {
  const line = new Timeline(core, made);
  for (const [needle, matchCase] of [["word7 ", false], ["WORD12", false], ["WORD12", true], ["nowhere", false], ["word1", true]]) {
    const found = line.search(needle, { matchCase }), wanted = scan(made, needle, matchCase);
    const isSame = found.length === wanted.length && found.every((span, i) => ["time", "position", "until"].every((key) => span[key] === wanted[i][key]));
    assert(isSame && (needle === "nowhere" || matchCase || found.length > 3), `the spans of ${needle}: ${found.length}, not ${wanted.length}`);
    for (const { position, row, column } of found.filter(({ line }) => line === null).slice(0, 20)) {
      const at = unwrapped(line.seek(position), row).slice(column - 1).toLowerCase();
      assert(at.startsWith(needle.toLowerCase()), `the place of ${needle}`);
    }
  }
  assert(line.search("word1", { limit: 2 }).length === 2 && line.search("").length === 0, "a limit");
  line.close();
  const wide = { bytes: bytes("\x1b[?3h\x1b[5;100Hfar off\x1b[?3l"), times: [1, 2], ends: [19, 24] };
  wide.ends = [wide.bytes.length - 5, wide.bytes.length];
  const [span] = new Timeline(core, wide).search("far off");
  assert(span.time === 1 && span.until === 2 && span.row === 5 && span.column === 100, "a text right of column 80 goes with the width");
});

/** Returns a recording of texts, each a second after the one before. */
function spoken(...texts) {
  const parts = texts.map(bytes), whole = new Uint8Array(parts.reduce((sum, part) => sum + part.length, 0)), ends = [];
  let at = 0;
  for (const part of parts) {
    whole.set(part, at);
    ends.push((at += part.length));
  }
  return { bytes: whole, times: texts.map((_, i) => i + 1), ends };
}

test("searches for what scrolls off within a chunk", () => {
  const count = (from, to) => Array.from({ length: to - from }, (_, i) => `line ${from + i}\r\n`).join(""), full = "x".repeat(79);
  const log = spoken(count(1, 101), count(101, 103), `${count(103, 110)}\x1b[?1049hpage\r\n${"\n".repeat(30)}\x1b[?1049l`, `${full}AB\r\n${"\n".repeat(23)}C`, "\n".repeat(30));
  const found = (text, how, options = { terminal: "xterm" }) => new Timeline(core, log, options).search(text, how).map(({ time, until, row, column, line }) => [time, until, row, column, line].join());
  const wanted = [["line 42", "1,1,0,1,42"], ["LINE 42", "1,1,0,1,42"], ["line 101", "2,4,22,1,"], ["line 1", "1,4,23,1,"], ["page", ""], ["AB", "4,4,0,80,110"], ["C", "4,5,24,1,"]];
  for (const [text, span] of wanted) assert.equal(String(found(text)), span, `what scrolls past of ${text}: ${found(text)}`);
  assert.equal(String(found("^line 4$", { expression: true }, {})), "1,1,0,1,4", "an expression finds what scrolls past");
  const [{ position, end }] = new Timeline(core, log).search("line 42");
  assert(position === log.ends[0] && end === position, "the chunk in which it scrolls past");
  const spans = new Timeline(core, spoken(`${full}A`, `B\r\n${"\n".repeat(22)}`, "\n".repeat(9))).search("AB").map(({ time, line }) => [time, line].join());
  assert.equal(String(spans), "2,1", `a line that goes on in the screen: ${spans}`);
});

test("searches over the ends of rows, and by expressions", () => {
  const line = new Timeline(core, spoken("\x1b[5;78Hwrapped\r\n", "Size: 12 KB\r\nsize: 7\r\n", "\x1b[2J\x1b[3;77Hwra\r\npped"));
  const found = (text, how) => line.search(text, how).map(({ time, until, row, column }) => [time, until, row, column].join());
  const wanted = [
    ["wrapped", {}, ["1,3,5,78"]], ["ped", {}, ["1,Infinity,6,2"]], ["s\\w+: \\d+", { expression: true }, ["2,3,7,1"]], ["^size", { expression: true, matchCase: true }, ["2,3,8,1"]],
    ["Size: [0-9]+ KB$", { expression: true }, ["2,3,7,1"]], ["size: .", {}, []], ["x*", { expression: true }, []],
  ];
  for (const [text, how, spans] of wanted) assert.equal(String(found(text, how)), String(spans), `the spans of ${text}: ${found(text, how)}`);
  let refused = null;
  try { line.search("(", { expression: true }); } catch (error) { refused = error.name; }
  assert(refused === "SyntaxError" && line.search("(").length === 0, "an expression that can't be read");
});

test("the first difference", () => {
  const of = (...texts) => new Timeline(core, spoken(...texts)), first = of("one\r\n", "two", "\r\nfour");
  assert.equal(first.firstDifference(of("one\r\ntwo", "\r\n", "four")), null, "no difference");
  const found = first.firstDifference(of("one", "\r\n", "", "", "twx", "\r\nfour"));
  assert(found.time === 2 && found.otherTime === 5 && String(found.rows) === "2" && found.position === 8, `a difference: ${JSON.stringify(found)}`);
  const short = first.firstDifference(of("one\r\n"));
  assert(short.time === 2 && String(short.rows) === "2", "a recording that ends earlier");
});

test("a recording of which a part has come", () => {
  const line = new Timeline(core, spoken("one", "two"));
  line.available = 3;
  assert(line.seek(6).text().startsWith("one\n") && line.position === 3, "what has come");
  line.available = 6;
  assert(line.seek(6).text().startsWith("onetwo\n"), "what has come later");
});

test("recordings that are none", () => {
  const data = bytes("abc");
  const refused = [[{ bytes: "abc", times: [0], ends: [3] }, "TypeError"], [{ bytes: data, times: [0], ends: [2] }, "RangeError"], [{ bytes: data, times: [1, 0], ends: [1, 3] }, "RangeError"],
    ...[{ chunk: 1, rows: 24, columns: 80 }, { chunk: -1, rows: 24, columns: 80 }, { chunk: 0, rows: 1, columns: 80 }, { rows: 24, columns: 80 }].map((size) => [{ bytes: data, times: [0], ends: [3], sizes: [size] }, "RangeError"]),
    [{ bytes: data, times: [0, 1], ends: [1, 3], sizes: [{ chunk: 1, rows: 24, columns: 80 }, { chunk: 0, rows: 24, columns: 80 }] }, "RangeError"],
    [{ bytes: data, times: [0, 1], ends: [3, 2] }, "RangeError"], [{ bytes: data, times: [0], ends: [1, 3] }, "RangeError"], [{ bytes: data, times: [NaN], ends: [3] }, "RangeError"], [{ bytes: data, times: [], ends: [] }, "RangeError"]];
  refused.forEach(([made, name], i) => {
    let got = null;
    try { new Timeline(core, made); } catch (error) { got = error.name; }
    assert.equal(got, name, `a recording that isn't one, ${i}`);
  });
  const none = new Timeline(core, { bytes: new Uint8Array(0), times: [], ends: [] });
  assert(none.duration === 0 && none.seekTime(5).width === 80 && none.search("x").length === 0, "a recording of nothing");
});

/** Returns a recording whose screen changes its size after some chunks, of which some have no bytes. */
function resizing() {
  const next = numbers(11), made = recording(), times = [], ends = [], sizes = [];
  const push = (time, end) => {
    times.push(time);
    ends.push(end);
  };
  const change = () => sizes.push({ chunk: times.length - 1, rows: 2 + next(60), columns: 80 + next(80) });
  push(0, 0);
  change();
  made.times.forEach((time, i) => {
    push(time, made.ends[i]);
    if (next(40) === 0) change();
    if (next(60) > 0) return;
    push(time, made.ends[i]);
    change();
    if (next(3) === 0) change();
  });
  push(times.at(-1) + 1, made.bytes.length);
  change();
  return { ...made, times, ends, sizes };
}

/** Returns a terminal that got the bytes of so many chunks, with the changes of the size after each. */
function played({ bytes, ends, sizes }, chunks) {
  const t = new Terminal(core);
  for (let chunk = 0, at = 0; chunk < chunks; at = ends[chunk++]) {
    t.feed(bytes.subarray(at, ends[chunk]));
    for (const size of sizes.filter((each) => each.chunk === chunk)) t.resize(size.rows, size.columns);
  }
  return t;
}

/** Returns the text of a row of a terminal from a column on, with the rows after it. */
const textFrom = (t, { row, column }) => t.text().split("\n").slice(row - 1).map((each) => (each.length === t.width ? each : each + "\n")).join("").slice(column - 1);

test("a screen that changes its size", () => {
  const made = resizing(), next = numbers(13), { length: chunks } = made.ends;
  for (const every of [1000, 65536]) {
    const line = new Timeline(core, made, { every });
    for (const chunk of [0, chunks, ...Array.from({ length: 60 }, () => next(chunks + 1)), 0]) {
      const time = chunk === 0 ? -1 : made.times[chunk - 1], count = line.chunksAt(time), t = played(made, count);
      assert(line.seekTime(time).sameState(t) && line.terminal.rows === t.rows && line.terminal.width === t.width, `the size and the state at ${time}`);
      t.close();
    }
    const first = made.sizes.find(({ chunk }) => made.ends[chunk] > 0), place = made.ends[first.chunk];
    assert(line.seek(place).rows !== first.rows && line.seek(place + 1).rows === first.rows && line.seek(0).rows === 24, "a position has the changes of the bytes before it");
    line.close();
  }
  const line = new Timeline(core, made), found = line.search("word7 ");
  assert(found.length > 3 && found.filter((span) => span.line === null).every((span) => textFrom(line.seekTime(span.time), span).toLowerCase().startsWith("word7 ") || made.times.filter((time) => time === span.time).length > 1), `the spans at sizes: ${found.length}`);
  const shown = Array.from({ length: chunks }, (_, i) => i + 1).filter((count) => count % 97 === 0).every((count) => {
    const time = made.times[count - 1], t = line.seekTime(time), is = textFrom(t, { row: 1, column: 1 }).includes("word7 ");
    return is === found.some((span) => span.time <= time && time < span.until);
  });
  assert(shown, "the times of the spans at sizes");
  line.close();
});

test("the first difference of recordings whose sizes differ", () => {
  const one = spoken("one\r\n", "two"), of = (sizes, options) => new Timeline(core, { ...one, sizes }, options), plain = of([]);
  const changed = plain.firstDifference(of([{ chunk: 0, rows: 30, columns: 90 }]));
  assert(changed.time === 2 && changed.position === 8 && changed.rows.length === 30, `a change of the size: ${JSON.stringify(changed)}`);
  assert.equal(plain.firstDifference(of([{ chunk: 1, rows: 10, columns: 80 }])).time, 2, "a change at the end");
  assert.equal(plain.firstDifference(of([], { rows: 30, columns: 90 })).position, 0, "another first size");
  const sizes = [{ chunk: 0, rows: 30, columns: 90 }];
  assert.equal(of(sizes).firstDifference(of(sizes)), null, "the same changes");
});
