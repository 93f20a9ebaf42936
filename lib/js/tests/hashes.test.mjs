// Tests what a terminal shows after each of many inputs, as hashes: tests/beside.py makes the same with the library for C.
import assert from "node:assert/strict";
import { test } from "node:test";
import { inputs, vt220 } from "./package.mjs";

const CRC = Array.from({ length: 256 }, (_, byte) => Array.from({ length: 8 }).reduce((crc) => (crc >>> 1) ^ (crc & 1 ? 0xedb88320 : 0), byte));

/** Returns the CRC-32 and the Adler-32 of parts of bytes, with the byte FF between two. */
function hash(parts) {
  let crc = -1, a = 1, b = 0;
  const add = (byte) => {
    crc = CRC[(crc ^ byte) & 255] ^ (crc >>> 8);
    a = (a + byte) % 65521;
    b = (b + a) % 65521;
  };
  parts.forEach((part, i) => {
    if (i > 0) add(255);
    for (let at = 0; at < part.length; at++) add(part[at]);
  });
  return `${~crc >>> 0}.${b * 65536 + a}`;
}

const MODES = Object.keys(new vt220.Terminal(await vt220.load()).modes);
const encoder = new TextEncoder(), decoder = new TextDecoder("utf-8", { ignoreBOM: true });
const words = (object) => Object.values(object).map((value) => (typeof value === "string" ? value.charCodeAt(0) : Number(value)));

/** Returns everything that is read of a terminal, as text. `last` is an earlier one. */
function described(terminal, last) {
  const { cursor, margins, modes, brush, sets, saved, stops, bells, held, width } = terminal;
  const parts = [cursor, margins, modes, brush, sets, saved].map(words).concat([stops, [bells, width]]);
  const marks = [1, 12, 24].map((row) => last.rowChanges(terminal, row).map(Number).join(""));
  const cells = terminal.cells(3).map((cell) => words(cell).join(".")).join(" ");
  return [terminal.text(), terminal.show(), terminal.picture(), parts.join(" "), held, last.changedRows(terminal).join(), ...marks, cells].join("\n");
}

/** Returns what a terminal makes of an input, the second half on a copy: replies, lines, all that is read, and what is written, of both pages. */
function made(core, input, options) {
  const terminal = new vt220.Terminal(core, options), half = input.length >> 1;
  const replies = terminal.feed(input.subarray(0, half)), copied = terminal.copy(), logged = copied.feedLog(input.subarray(half));
  const parts = [replies, logged.replies, encoder.encode(logged.lines.join("\n")), encoder.encode(described(copied, terminal)), copied.pending, [Number(copied.sameState(terminal))]];
  for (const each of [terminal, copied]) each.feed(Uint8Array.of(0x18));
  parts.push(copied.repaint(), copied.repaint("vt220"), copied.draw(), copied.draw(terminal));
  if (copied.terminal === "vt220") parts.push(terminal.update(copied));
  else {
    copied.feed(encoder.encode(copied.alternate ? "\x1b[?47l" : "\x1b[?47h"));
    parts.push(encoder.encode(copied.text()));
  }
  for (const each of [terminal, copied]) each.close();
  return parts;
}

/** Returns what is read of an input as keys: the lengths of the first key in its first bytes, and what its first characters send. */
function typed(core, input, modes) {
  const sent = Array.from(decoder.decode(input.subarray(0, 12)), (character) => {
    try {
      return Array.from(core.key(character, modes)).join();
    } catch (error) {
      return error.code;
    }
  });
  return encoder.encode([...Array.from({ length: 12 }, (_, i) => core.keyLength(input.subarray(0, i))), ...sent].join(" "));
}

/** Sets the sizes of the buffers for replies and lines: for each eighth input, little more than the least that a call needs. */
function resize(core, i) {
  const [reports, lines] = i % 8 === 0 ? [10 + (i % 13), 19056 + (i % 97)] : [5120, 400000];
  core.calls.test_sizes(reports, lines, 2 ** 32 - 1);
}

/** Returns the hash of an input. */
function hashOf(core, input) {
  const parts = [{}, { encoding: "utf-8" }, { terminal: "xterm" }].flatMap((options) => made(core, input, options));
  const modes = Object.fromEntries(MODES.map((name, bit) => [name, (input.length >> bit) % 2 === 1]));
  return hash([...parts, encoder.encode(core.shown(decoder.decode(input))), typed(core, input, modes)]);
}

test("inputs, beside the library for C", async () => {
  const core = await vt220.load();
  for (const [i, [input, theirs]] of (await inputs()).entries()) {
    resize(core, i);
    assert.equal(hashOf(core, Uint8Array.from(atob(input), (c) => c.charCodeAt(0))), theirs, input.slice(0, 200));
  }
  resize(core, 1);
});
