// packed.js: a recording as vt220-page writes it: JSON with the list of chunks and the bytes, both by gzip in base64. The bytes come last. In a page only
// their beginning is in it, and the rest is in an element that it names, after the script of the page.
import { fileOf, incoming } from "./incoming.js";
import { LF, arranged, at9600Baud, carriedOut, preceded, resized, valueIn } from "./reading.js";

// Characters of base64 that are unpacked at once: first a few, and then more. Each is a multiple of four.
const FIRST = 1 << 16, MOST = 1 << 20;
const SPACE = 32, QUOTE = 34, ZERO = 48;
const BEFORE_BYTES = '"bytes": "';

const text = (bytes) => new TextDecoder().decode(bytes);

function decoded(base64) {
  const text = atob(base64), bytes = new Uint8Array(text.length);
  for (let i = 0; i < text.length; i++) bytes[i] = text.charCodeAt(i);
  return bytes;
}

/** Yields the pieces of a text in base64. */
function* pieces(base64) {
  for (let at = 0, size = FIRST; at < base64.length; size = Math.min(2 * size, MOST)) {
    yield base64.slice(at, at + size);
    at += size;
  }
}

/** Yields the pieces of a text in base64 that begins at a place of a file, and ends at a quotation mark, as they come. */
async function* comingPieces(file, at) {
  for (let size = FIRST; ; size = Math.min(2 * size, MOST)) {
    const piece = (await file.first(at + size)).subarray(at), end = piece.indexOf(QUOTE);
    yield text(end < 0 ? piece : piece.subarray(0, end));
    if (end >= 0) return;
    if (piece.length < size) throw new RangeError("the bytes are cut short");
    at += size;
  }
}

/** Returns a promise that the document has been parsed. */
function parsedDocument() {
  if (document.readyState !== "loading") return Promise.resolve();
  return new Promise((resolve) => document.addEventListener("DOMContentLoaded", resolve, { once: true }));
}

/** Yields the pieces of a text in base64 whose rest is in an element of the document, which may still be parsed. */
async function* parsedPieces(beginning, id) {
  yield* pieces(beginning);
  await parsedDocument();
  const rest = document.getElementById(id);
  if (rest === null) throw new RangeError("the bytes are cut short");
  yield* pieces(rest.textContent);
}

/** Returns a stream of the bytes that are packed in pieces of base64. */
function unpacking(pieces) {
  const source = new ReadableStream({
    async pull(control) {
      const { done, value } = await pieces.next();
      if (done) control.close();
      else control.enqueue(decoded(value));
    },
  });
  return source.pipeThrough(new DecompressionStream("gzip"));
}

/** Returns a promise of the bytes that are packed. */
export async function unpacked(base64) {
  return new Uint8Array(await new Response(unpacking(pieces(base64))).arrayBuffer());
}

/** Returns the times and the ends of chunks, of their lines 'MICROS BYTES'. */
function listed(list) {
  const numbers = [];
  let value = 0, isNumber = false;
  for (const code of list) {
    if (code !== LF && code !== SPACE) {
      value = 10 * value + code - ZERO;
      isNumber = true;
    } else if (isNumber) {
      numbers.push(value);
      value = 0;
      isNumber = false;
    }
  }
  if (isNumber) numbers.push(value);
  const count = numbers.length / 2, times = new Float64Array(count), ends = new Float64Array(count);
  for (let i = 0, end = 0; i < count; i++) {
    times[i] = numbers[2 * i] / 1e6;
    ends[i] = end += numbers[2 * i + 1];
  }
  return { times, ends };
}

/** Returns how bytes of a program are played, of which nothing was read, as arranged() does. */
function plain(changes, { size }) {
  const [columns, rows] = size ?? [];
  return { options: size ? { rows, columns } : {}, front: new Uint8Array(0), changes: size ? [] : carriedOut(changes).made, notes: [] };
}

/**
 * Returns a promise of a recording whose bytes are all zero so far, of how it is played, and of the call that fills it. This tells `arrived` how
 * many bytes have come. `asked` is that of arranged().
 */
export async function opened({ bytes: packed, chunks, length, read, asked: wanted, changes = [], options, notes }, asked) {
  const how = read ? arranged(read, { ...wanted, ...asked }) : plain(changes, asked);
  const { times, ends } = chunks === null ? at9600Baud(length) : listed(await unpacked(chunks));
  const recording = preceded(how.front, resized({ bytes: new Uint8Array(ends[ends.length - 1] ?? 0), times, ends }, how.changes)), { bytes } = recording;
  const fill = async (arrived) => {
    const reader = unpacking(typeof packed === "string" ? pieces(packed) : packed).getReader();
    for (let at = how.front.length; ; ) {
      const { done, value } = await reader.read();
      if (done && at !== bytes.length) throw new RangeError("the bytes are cut short");
      if (done) return;
      bytes.set(value, at);
      at += value.length;
      await arrived(at);
    }
  };
  return { recording, fill, options: { ...options, ...how.options }, notes: [...how.notes, ...(notes ?? [])] };
}

const isPacked = (value) => typeof value?.bytes === "string" && value.chunks !== undefined;

/** Returns whether a text's first line is a value in JSON, such as the header of a recording by asciinema. */
function hasHeader(text) {
  const end = text.indexOf("\n");
  return end >= 0 && valueIn(text.slice(0, end)) !== null;
}

/**
 * Returns a promise of the recording that vt220-page wrote into a file, or of null if that has something else. What is before its bytes is read as
 * soon as it has come. The bytes are then pieces, which come later.
 */
async function packedIn(file) {
  for (let size = FIRST; ; size *= 2) {
    const bytes = await file.first(size), head = text(bytes), at = head.indexOf(BEFORE_BYTES), before = head.slice(0, at + BEFORE_BYTES.length);
    if (!/^\s*\{/.test(head) || (at < 0 && hasHeader(head))) return null;
    const packed = at < 0 ? null : valueIn(`${before}"}`);
    if (isPacked(packed)) return { ...packed, bytes: comingPieces(file, new TextEncoder().encode(before).length) };
    if (at >= 0 || bytes.length < size) break;
  }
  const whole = valueIn(text(await file.whole()));
  return isPacked(whole) ? whole : null;
}

/**
 * Returns a promise of what a source has: the `recording` that it is, `packed`, if vt220-page wrote it, or any other `file`. The latter may
 * have a timing file, of which there is a source.
 */
export async function source(wanted, timing) {
  if (wanted?.bytes instanceof Uint8Array) return { recording: wanted };
  const isText = typeof wanted === "string" && /^\s*\{/.test(wanted), inside = isText ? valueIn(wanted) : null;
  if (isPacked(inside)) return { packed: inside.rest === undefined ? inside : { ...inside, bytes: parsedPieces(inside.bytes, inside.rest) } };
  const file = isText ? fileOf(new TextEncoder().encode(wanted)) : await incoming(wanted), packed = await packedIn(file);
  return packed === null ? { file, timing: timing === null ? null : await (await incoming(timing)).whole() } : { packed };
}
