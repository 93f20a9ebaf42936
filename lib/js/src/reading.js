// reading.js: how a recording by asciinema, ttyrec or script, or the bytes of a program are played. A page of vt220-page has what was read of its
// recording. Otherwise the reader reads the file.
import { INPUT, MARKER, OUTPUT, SIZE_CHANGE } from "./reader.js";
import { LEAST_COLUMNS, LEAST_ROWS, MOST_COLUMNS, MOST_ROWS, isSize } from "./vt220.js";

/** LF, which ends a line. */
export const LF = 0x0a;
const AT_ONCE = 1 << 20; // bytes of content that are decoded at once
const CHUNK = 48, PACE = 0.05; // a line of 9600 baud carries 960 bytes a second: a chunk every 50 ms
const WIDE = 132, WIDTHS = [80, WIDE], HEIGHT = 24; // of a VT220's screen
const MOST_CHANGES = 1000; // of the size that are carried out
const TO_WIDE = { vt220: "\x1b[?3h", xterm: "\x1b[?40h\x1b[?3h\x1b[?40l" };

const utf8 = { from: (text) => new TextEncoder().encode(text), to: (bytes) => new TextDecoder().decode(bytes) };

/** Returns the value that a text in JSON is, or null. */
export function valueIn(text) {
  try {
    return JSON.parse(text);
  } catch {
    return null;
  }
}

const isObject = (value) => typeof value === "object" && value !== null && !Array.isArray(value);

/** Returns the object in JSON that a file's first line is, or the file as a whole, or null. */
export function objectIn(file) {
  if (!utf8.to(file.subarray(0, 1024)).trimStart().startsWith("{")) return null;
  const end = file.indexOf(LF), value = (end < 0 ? null : valueIn(utf8.to(file.subarray(0, end)))) ?? valueIn(utf8.to(file));
  return isObject(value) ? value : null;
}

/** Returns the times and the ends of chunks of so many bytes that have no times. */
export function at9600Baud(length) {
  const count = Math.ceil(length / CHUNK), times = new Float64Array(count), ends = new Float64Array(count);
  for (let i = 0; i < count; i++) {
    times[i] = PACE * (i + 1);
    ends[i] = Math.min(length, CHUNK * (i + 1));
  }
  return { times, ends };
}

/** Moves the bytes of the events that are output together, and returns these, with their times and ends. A time that is earlier than the one before it is that one. */
function outputOf({ events: { times, lengths, kinds }, text }) {
  const isHeard = (i) => kinds[i] === OUTPUT && lengths[i] > 0, heard = kinds.reduce((sum, _, i) => sum + isHeard(i), 0);
  const made = { bytes: text, times: new Float64Array(heard), ends: new Float64Array(heard) };
  let chunk = 0, from = 0, to = 0, time = 0;
  kinds.forEach((_, i) => {
    if (isHeard(i)) {
      text.copyWithin(to, from, from + lengths[i]);
      made.times[chunk] = time = Math.max(time, times[i]);
      made.ends[chunk++] = to += lengths[i];
    }
    from += lengths[i];
  });
  made.bytes = text.subarray(0, to);
  return made;
}

/** Returns the events of a kind: the time of each, its text, and how many bytes of output come before it. */
function eventsOf({ events: { times, lengths, kinds }, text }, wanted) {
  const made = [];
  let at = 0, place = 0;
  kinds.forEach((kind, i) => {
    if (kind === wanted) made.push([times[i], utf8.to(text.subarray(at, at + lengths[i])), place]);
    if (kind === OUTPUT) place += lengths[i];
    at += lengths[i];
  });
  return made;
}

/** Returns the times and the texts of the events of a kind. */
function textsOf(read, wanted) {
  return eventsOf(read, wanted).map(([time, text]) => [time, text]);
}

/** Returns the size to which a window changes, by the text of such an event, or null. (asciinema: COLUMNSxROWS; script: ROWS=.. COLS=..) */
export function windowIn(text) {
  const [, columns, rows] = /^(\d{1,9})x(\d{1,9})$/.exec(text) ?? [], [, high, wide] = /^ROWS=(\d{1,9}) COLS=(\d{1,9})$/.exec(text) ?? [];
  return rows || high ? { rows: Number(rows ?? high), columns: Number(columns ?? wide) } : null;
}

/** Returns the changes of the size that are carried out, each with its time and its place, and how many aren't. */
export function carriedOut(events) {
  const changes = events.map(([time, text, place]) => ({ time, place, size: windowIn(text) })).filter(({ size }) => size !== null);
  const made = changes.slice(0, MOST_CHANGES).filter(({ size: { rows, columns } }) => isSize(rows, columns));
  return { made, left: changes.length - made.length };
}

/** Returns a recording with changes of the size, each of which is a chunk without bytes. */
export function resized({ bytes, times, ends }, changes) {
  const made = { bytes, times: new Float64Array(times.length + changes.length), ends: new Float64Array(ends.length + changes.length), sizes: [] };
  let count = 0, last = 0, at = 0;
  const push = (time, end) => {
    made.times[count] = last = Math.max(last, time);
    made.ends[count++] = end;
  };
  for (const { time, place, size } of changes) {
    for (; at < ends.length && ends[at] <= place; at++) push(times[at], ends[at]);
    made.sizes.push({ chunk: count, ...size });
    push(time, place);
  }
  for (; at < ends.length; at++) push(times[at], ends[at]);
  return made;
}

/**
 * Returns the terminal and the encoding for which a recording is played: those that are asked for, or those that it shows. Its first line names the
 * terminal. An xterm's host and a recording by asciinema are in UTF-8, and so is any other whose content is UTF-8 with a character beyond ASCII.
 */
function language({ terminal: named, isCast, isUtf8 }, { terminal: asked, encoding }) {
  const terminal = asked ?? (encoding === "dec" ? "vt220" : named ?? "vt220");
  return { terminal, encoding: terminal === "xterm" || isCast ? "utf-8" : encoding ?? (isUtf8 ? "utf-8" : "dec") };
}

/** Returns the size that is asked for, otherwise that of the first line, as [columns, rows]. It is null if that isn't one of a screen. */
function sizeOf({ size }, asked) {
  if (asked.size) return asked.size;
  return size && isSize(size[1], size[0]) ? size : null;
}

const isVt220 = ([columns, rows]) => rows === HEIGHT && WIDTHS.includes(columns);

/** Puts bytes before a recording. */
export function preceded(front, { bytes, times, ends, sizes = [] }) {
  if (front.length === 0) return { bytes, times, ends, sizes };
  const all = new Uint8Array(front.length + bytes.length);
  all.set(front);
  all.set(bytes, front.length);
  const later = sizes.map((change) => ({ ...change, chunk: change.chunk + 1 }));
  const made = { bytes: all, times: new Float64Array(times.length + 1), ends: new Float64Array(ends.length + 1), sizes: later };
  made.times.set(times, 1);
  made.ends.set(ends, 1);
  made.ends.forEach((end, i) => (made.ends[i] = end + front.length));
  return made;
}

/** Returns whether content is UTF-8 with a character beyond ASCII. The last character may be cut. */
export function showsUtf8(content) {
  const decoder = new TextDecoder("utf-8", { fatal: true, ignoreBOM: true });
  let isBeyond = false;
  try {
    for (let at = 0; at < content.length; at += AT_ONCE) {
      if (/[^\0-\x7f]/.test(decoder.decode(content.subarray(at, at + AT_ONCE), { stream: true }))) isBeyond = true;
    }
  } catch {
    return false;
  }
  return isBeyond;
}

/** Returns a sentence on the bytes of a recording that is played in such an encoding, or "". */
export function noteOnBytes(bytes, encoding) {
  return encoding === "dec" && showsUtf8(bytes) ? "Its bytes look like UTF-8, which a VT220 doesn't read." : "";
}

/** Returns what a VT220 can't show of a recording, a sentence each. */
function notesOn({ size, terminal: named, isTimed, broken }, terminal, isOfItsSize, left) {
  const [columns, rows] = size ?? [WIDTHS[0], HEIGHT], notes = [], least = `A screen has ${LEAST_COLUMNS} to ${MOST_COLUMNS} columns and ${LEAST_ROWS} to ${MOST_ROWS} rows`;
  if (size && !isOfItsSize) notes.push(`It was recorded in a window of ${columns} columns and ${rows} rows. ${isSize(rows, columns) ? "It is played at another size" : least}, so lines may be in other places.`);
  if (left > 0) notes.push(`Its window changed its size ${left === 1 ? "once" : `${left} times`} to one at which it isn't played. ${least}, and at most ${MOST_CHANGES} changes are carried out.`);
  if (named === "xterm" && terminal === "vt220") notes.push("It was recorded for an xterm. A VT220 ignores what it doesn't know of it, such as colours.");
  if (terminal === "xterm") notes.push("Colours aren't shown.");
  if (!isTimed) notes.push("It has no times, and is played as over a line of 9600 baud.");
  if (broken) notes.push(`${broken.part === "timing" ? "Its timing file" : "It"} breaks its format at byte ${broken.at}. What follows isn't shown.`);
  return notes;
}

/**
 * Returns how a recording is played: options, the bytes before its own, the changes of its size, and notes. `read` has whether it is by asciinema
 * (`isCast`), whether it has times (`isTimed`), whether its content shows UTF-8 (`isUtf8`), the terminal and the size that its first line names, the
 * changes of its window's size (the time of each, its text and its place in the bytes), the place at which it breaks its format, and the longest pause
 * that it wants. `asked` has the terminal, the encoding, the size and the longest pause that are asked for, if any. With a size that is asked for, no
 * change is carried out.
 */
export function arranged(read, asked) {
  const chosen = language(read, asked), pause = asked.pause ?? read.pause, size = sizeOf(read, asked);
  const { made, left } = asked.size ? { made: [], left: 0 } : carriedOut(read.changes ?? []);
  const [columns, rows] = size ?? [], isPlain = size === null || isVt220(size);
  // A VT220's screen alone is made 132 columns wide.
  const isWide = (size ?? read.size)?.[0] === WIDE && isPlain;
  return {
    options: { ...chosen, ...(!isPlain && { rows, columns }), ...(typeof pause === "number" && pause >= 0 && { pause }) },
    front: utf8.from(isWide ? TO_WIDE[chosen.terminal] : ""),
    changes: made,
    notes: notesOn(read, chosen.terminal, String(read.size) === String(size), left),
  };
}

/**
 * Returns the part of a file's beginning that can be read by itself: of a recording by asciinema whole lines. Returns null if its format needs
 * the whole file.
 */
export function readable(beginning) {
  if (!utf8.to(beginning.subarray(0, 1024)).trimStart().startsWith("{")) return beginning;
  const { version } = objectIn(beginning) ?? {};
  return version === 2 || version === 3 ? beginning.subarray(0, beginning.lastIndexOf(LF) + 1) : null;
}

/** Returns a promise of what is played of a file: the recording, and how. `timing` is the timing file of script, or null. `asked` is that of arranged(). */
export async function played(reader, file, timing, asked) {
  const header = objectIn(file), read = await reader.read(file, timing), isCast = read.format === "asciicast";
  if (read.format === "compressed") throw new TypeError("it is compressed: decompress it first");
  if (!isCast && Number.isInteger(header?.version)) throw new TypeError(`it is by asciinema, of version ${header.version}, which isn't known`);
  const isTimed = isCast || read.format === "ttyrec" || timing !== null, changes = isTimed ? eventsOf(read, SIZE_CHANGE) : [];
  const markers = textsOf(read, MARKER), inputs = textsOf(read, INPUT), output = outputOf(read);
  const how = arranged({ ...read, isCast, isTimed, isUtf8: showsUtf8(output.bytes), changes, pause: header?.idle_time_limit }, asked);
  const timed = isTimed ? output : { bytes: output.bytes, ...at9600Baud(output.bytes.length) };
  return { recording: preceded(how.front, resized(timed, how.changes)), options: { ...how.options, markers, inputs }, notes: how.notes };
}
