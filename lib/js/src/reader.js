// reader.js: the proved reader of recordings by asciinema, ttyrec and script. An instance of its module reads one recording.

const FORMATS = ["raw", "script", "ttyrec", "asciicast", "compressed"];
const TERMINALS_NAMED = [null, "vt220", "xterm"];
const PARTS = [null, "recording", "timing"];
const FOUND = 10; // numbers: the heading, the extent and two addresses
const EVENT = 6; // words: the time, the length, both of 64 bits, the kind, and a reserved one
const HIGH = 2 ** 32;

/** The kinds of events, by their numbers. Each has a line of its own, by which lib/js/bundle.py finds what a module exports. */
export const OUTPUT = 0;
export const INPUT = 1;
export const MARKER = 2;
export const SIZE_CHANGE = 3;

/** Copies a file to the memory of an instance, and returns its address. */
function given(calls, bytes) {
  const at = calls.take(bytes.length + 1);
  if (at === 0) throw new RangeError("the recording is too large");
  new Uint8Array(calls.memory.buffer).set(bytes, at);
  return at;
}

/** Returns the events that an instance read, as arrays: their times in seconds, lengths and kinds. */
function eventsIn(memory, at, count) {
  const words = new Uint32Array(memory.buffer, at, count * EVENT), times = new Float64Array(count), lengths = new Uint32Array(count), kinds = new Uint8Array(count);
  for (let i = 0, from = 0; i < count; i++, from += EVENT) {
    times[i] = (words[from] + words[from + 1] * HIGH) / 1e6;
    lengths[i] = words[from + 2];
    kinds[i] = words[from + 4];
  }
  return { times, lengths, kinds };
}

/**
 * Reads a file by a module of the reader, by script if there is its timing file. Returns a promise of its format, of what its first line
 * names, of its events, of their bytes in turn, and of the place at which it breaks its format.
 */
export async function readBy(module, file, timing) {
  const { exports: calls } = await WebAssembly.instantiate(module);
  if (typeof calls.read !== "function") throw new TypeError("the reader is another module than reader.wasm");
  const from = given(calls, file), fromTiming = timing === null ? 0 : given(calls, timing);
  if (calls.read(from, file.length, fromTiming, timing === null ? 0 : timing.length, Number(timing !== null)) !== 0) throw new RangeError("the recording is too large");
  const [format, terminal, columns, rows, count, size, part, at, events, text] = new Float64Array(calls.memory.buffer, calls.out(), FOUND);
  return {
    format: FORMATS[format],
    terminal: TERMINALS_NAMED[terminal],
    size: columns > 0 && rows > 0 ? [columns, rows] : null,
    events: eventsIn(calls.memory, events, count),
    text: new Uint8Array(calls.memory.buffer.slice(text, text + size)),
    broken: part === 0 ? null : { part: PARTS[part], at },
  };
}
