// timeline.js: the terminal at each moment of a recording. A position is a number of bytes, and the state there is that of the bytes
// before it, and of the changes of the size that fewer bytes come before. So it doesn't depend on how a seek got there: from the beginning, or from
// a checkpoint. This is a repaint and the pending bytes of UTF-8.
import { hits, joinedRows, pattern, placeOf } from "./finding.js";
import { Terminal, inStateOf, isSize } from "./vt220.js";

/** How many bytes lie between two checkpoints. A seek plays at most about as many. */
const EVERY = 65536;

/** Returns the first index from 0 to `count` for which `holds` is true, if it stays true from there on. */
function firstIndex(count, holds) {
  let low = 0, high = count;
  while (low < high) {
    const middle = (low + high) >> 1;
    if (holds(middle)) high = middle;
    else low = middle + 1;
  }
  return low;
}

function checked({ bytes, times, ends, sizes = [] }) {
  if (!(bytes instanceof Uint8Array)) throw new TypeError("the bytes of a recording are a Uint8Array");
  if (times.length !== ends.length) throw new RangeError("a recording has a time and an end for each chunk");
  for (let i = 0; i < times.length; i++) {
    if (!(times[i] >= (i > 0 ? times[i - 1] : 0))) throw new RangeError(`the time of chunk ${i} is earlier than the one before it`);
    if (!(ends[i] >= (i > 0 ? ends[i - 1] : 0))) throw new RangeError(`the end of chunk ${i} is before its beginning`);
  }
  if ((ends[ends.length - 1] ?? 0) !== bytes.length) throw new RangeError("the last chunk doesn't end with the bytes");
  sizes.forEach(({ chunk, rows, columns }, i) => {
    if (!(chunk >= (i > 0 ? sizes[i - 1].chunk : 0) && chunk < ends.length)) throw new RangeError(`change ${i} of the size comes with no chunk, or before another one`);
    if (!isSize(rows, columns)) throw new RangeError(`change ${i} of the size is to one that no screen has`);
  });
}

export class Timeline {
  #core;
  #bytes;
  #times;
  #ends;
  #sizes; // each with its place: the number of bytes before it
  #every;
  #options;
  #first; // the rows and columns of the beginning
  #checkpoints;
  #changes = 0; // of the size that were carried out

  constructor(core, recording, { every = EVERY, ...options } = {}) {
    checked(recording);
    this.#core = core;
    this.#bytes = recording.bytes;
    this.#times = new Float64Array(recording.times);
    this.#ends = new Float64Array(recording.ends);
    this.#sizes = (recording.sizes ?? []).map((change) => ({ ...change, place: this.#ends[change.chunk] }));
    this.#every = Math.max(1, every);
    this.#options = options;
    this.terminal = new Terminal(core, options);
    this.#first = [this.terminal.rows, this.terminal.width].join();
    this.position = 0;
    this.available = recording.bytes.length;
    this.#checkpoints = [this.#checkpoint()];
  }

  close() {
    this.terminal.close();
  }

  get length() {
    return this.#bytes.length;
  }

  get duration() {
    return this.#times[this.#times.length - 1] ?? 0;
  }

  get chunks() {
    return this.#times.length;
  }

  get checkpoints() {
    return this.#checkpoints.length;
  }

  /** The time of a chunk, counted from 0. */
  time(chunk) {
    return this.#times[chunk];
  }

  end(chunk) {
    return this.#ends[chunk];
  }

  chunksAt(time) {
    return firstIndex(this.#times.length, (i) => this.#times[i] > time);
  }

  positionAt(time) {
    const count = this.chunksAt(time);
    return count === 0 ? 0 : this.#ends[count - 1];
  }

  timeOf(position) {
    const chunk = firstIndex(this.#ends.length, (i) => this.#ends[i] >= position);
    return position <= 0 ? 0 : this.#times[Math.min(chunk, this.#times.length - 1)] ?? 0;
  }

  /** Returns a checkpoint of this position, which is between sequences. */
  #checkpoint() {
    const { position, terminal } = this;
    const repaint = terminal.repaint();
    return { position, changes: this.#changes, repaint, pending: terminal.pending };
  }

  /** Gives the terminal the size after so many changes. One that was resized can't get a VT220's size back, so another one takes its place. */
  #fit(changes) {
    if (changes === this.#changes) return;
    if (changes > 0) {
      const { rows, columns } = this.#sizes[changes - 1];
      this.terminal.resize(rows, columns);
    } else {
      const { terminal } = this;
      this.terminal = new Terminal(this.#core, this.#options);
      terminal.close();
    }
    this.#changes = changes;
  }

  /** Brings the terminal to a checkpoint. */
  #restore({ position, changes, repaint, pending }) {
    this.#fit(changes);
    this.terminal.reset();
    this.terminal.feed(repaint);
    this.terminal.feed(pending);
    this.position = position;
  }

  /** Plays up to a position, and carries out so many changes of the size on the way. */
  #play(to, changes) {
    while (this.#changes < changes) {
      this.#feed(this.#sizes[this.#changes].place);
      this.#fit(this.#changes + 1);
    }
    this.#feed(to);
  }

  /** Plays bytes up to a position. Sets a checkpoint at the first place between sequences that is far enough from the last one. */
  #feed(to) {
    while (this.position < to) {
      const due = this.#checkpoints[this.#checkpoints.length - 1].position + this.#every;
      const next = Math.min(to, Math.max(due, this.position + 1));
      this.terminal.feed(this.#bytes.subarray(this.position, next));
      this.position = next;
      if (next >= due && this.terminal.isBetween) this.#checkpoints.push(this.#checkpoint());
    }
  }

  /** Brings the terminal to a position, after so many changes of the size, and returns it. */
  #go(to, changes) {
    const isAfter = ({ position, changes: earlier }) => position > to || earlier > changes;
    const from = this.#checkpoints[firstIndex(this.#checkpoints.length, (i) => isAfter(this.#checkpoints[i])) - 1];
    if (to < this.position || changes < this.#changes || from.position > this.position) this.#restore(from);
    this.#play(to, changes);
    return this.terminal;
  }

  seek(position) {
    const to = Math.max(0, Math.min(Math.trunc(position) || 0, this.available));
    return this.#go(to, firstIndex(this.#sizes.length, (i) => this.#sizes[i].place >= to));
  }

  seekTime(time) {
    const to = this.positionAt(time), count = this.chunksAt(time);
    return to > this.available ? this.seek(to) : this.#go(to, firstIndex(this.#sizes.length, (i) => this.#sizes[i].chunk >= count));
  }

  /** Returns the number of bytes with which both recordings begin, up to the first change of the size that only one has. */
  #common(other) {
    const a = this.#bytes, b = other.#bytes, one = this.#sizes, two = other.#sizes, facts = ["place", "rows", "columns"];
    let at = 0, i = 0;
    while (i < one.length && i < two.length && facts.every((name) => one[i][name] === two[i][name])) i++;
    const end = Math.min(a.length, b.length, one[i]?.place ?? Infinity, two[i]?.place ?? Infinity);
    while (at < end && a[at] === b[at]) at++;
    return at;
  }

  /** Returns the first end of a chunk after a position, or Infinity. */
  #endAfter(position) {
    return this.#ends[firstIndex(this.#ends.length, (i) => this.#ends[i] > position)] ?? Infinity;
  }

  firstDifference(other) {
    const end = Math.max(this.length, other.length), isOfOneSize = this.#first === other.#first;
    // All before the first byte or change that differs leads to equal states.
    for (let at = isOfOneSize ? this.#common(other) : 0; at <= end; at = Math.min(this.#endAfter(at), other.#endAfter(at))) {
      const rows = this.seek(at).changedRows(other.seek(at));
      if (rows.length > 0) return { position: at, rows, time: this.timeOf(at), otherTime: other.timeOf(at) };
    }
    const rows = this.seekTime(Infinity).changedRows(other.seekTime(Infinity));
    return rows.length > 0 ? { position: end, rows, time: this.duration, otherTime: other.duration } : null;
  }

  search(text, { limit = Infinity, ...how } = {}) {
    const wanted = wantedBy(this.#core, text, this.terminal.encoding, how), spans = [];
    if (wanted === null) return spans;
    const screens = new Screens(this.#core, this.#options);
    let open = null, at = 0, change = 0;
    for (let chunk = 0; chunk < this.#ends.length && spans.length < limit; chunk++) {
      const changes = change;
      while (this.#sizes[change]?.chunk === chunk) change++;
      screens.play(this.#bytes.subarray(at, this.#ends[chunk]), this.#sizes.slice(changes, change));
      at = this.#ends[chunk];
      const here = { time: this.#times[chunk], position: at }, gone = { until: here.time, end: at }, place = screens.first(wanted);
      if (place !== null) {
        open ??= { ...here, ...place, line: null };
      } else if (open !== null) {
        spans.push({ ...open, ...gone });
        open = null;
      } else {
        const passed = screens.passed(wanted);
        if (passed !== null) spans.push({ ...here, ...passed, ...gone });
      }
    }
    if (open !== null && spans.length < limit) spans.push({ ...open, until: Infinity, end: Infinity });
    screens.close();
    return spans;
  }
}

if (Symbol.dispose) Timeline.prototype[Symbol.dispose] = Timeline.prototype.close;

/** Returns the pattern of a search, or null if it is for nothing. In UTF-8 a character is found by what is shown for it. */
function wantedBy(core, text, encoding, how) {
  return text === "" ? null : pattern(encoding === "utf-8" ? core.shown(text) : text, how);
}

/** A terminal, the lines that scrolled off in the last chunk, and the texts of its rows, which are read again if they changed. */
class Screens {
  constructor(core, options) {
    this.terminal = new Terminal(core, options);
    this.seen = new Terminal(core);
    this.rows = new Array(this.terminal.rows).fill("");
    // A row's text has no spaces at its end, and the second cell of a character is one.
    this.end = this.terminal.encoding === "utf-8" ? " " : "";
    this.isStale = true;
    this.place = null;
    /** The lines that scrolled off in the last chunk, and how many did before. */
    this.lines = [];
    this.count = 0;
  }

  /** Plays a chunk, and then changes of the size. */
  play(bytes, sizes) {
    this.count += this.lines.length;
    this.lines = this.terminal.feedLog(bytes).lines;
    for (const { rows, columns } of sizes) this.terminal.resize(rows, columns);
    const changed = this.seen.changedRows(this.terminal);
    if (changed.length === 0) return;
    this.rows.length = this.terminal.rows;
    for (const row of changed) this.rows[row - 1] = this.terminal.rowText(row);
    this.seen = inStateOf(this.terminal, this.seen);
    this.isStale = true;
  }

  /** Returns the number and the first column, from 1, of the first line with a pattern that scrolled off in the last chunk, or null. */
  passed(wanted) {
    const { lines, rows, end } = this, { width } = this.terminal;
    if (lines.length === 0) return null;
    const all = lines[lines.length - 1].length < width ? lines : [...lines, ...rows], [hit] = hits(wanted, joinedRows(all, width, end));
    if (hit === undefined) return null;
    const { row, column } = placeOf(hit[0], all, width, end);
    return row < lines.length ? { row: 0, column: column + 1, line: this.count + row + 1 } : null;
  }

  /** Returns the first row and column of a pattern, from 1, or null. */
  first(wanted) {
    if (!this.isStale) return this.place;
    const { rows, end } = this, { width } = this.terminal, [hit] = hits(wanted, joinedRows(rows, width, end));
    this.isStale = false;
    this.place = null;
    if (hit !== undefined) {
      const { row, column } = placeOf(hit[0], rows, width, end);
      this.place = { row: row + 1, column: column + 1 };
    }
    return this.place;
  }

  close() {
    this.terminal.close();
    this.seen.close();
  }
}
