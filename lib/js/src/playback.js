// playback.js: a position in time that moves, and the spans of a search.

export class Playback {
  /** `find` returns the spans of a text, or a promise of them. */
  constructor(line, { changed = () => {}, told = () => {}, find = (text, how) => line.search(text, how) } = {}) {
    this.line = line;
    /** Whether `line` has the whole recording. Otherwise it waits at the end for more. */
    this.isWhole = true;
    this.find = find;
    this.changed = changed;
    this.told = told;
    this.now = 0;
    this.speed = 1;
    this.skips = true;
    /** In seconds: the longest pause that is played if pauses are skipped. */
    this.longestPause = 1;
    /** How many times it still plays again at its end. */
    this.loops = 0;
    /** The times of the markers, and whether it stops at each. */
    this.markers = [];
    this.stops = false;
    /** What was typed: the time and the text of each. */
    this.inputs = [];
    this.isPlaying = false;
    /** Where it begins to play, if that isn't the moment that is shown. */
    this.from = null;
    this.spans = [];
    this.needle = "";
    this.searches = 0;
  }

  tell(event) {
    this.told(event, this.now);
  }

  play() {
    if (this.isPlaying) return;
    this.now = this.from ?? this.now;
    this.from = null;
    if (this.isWhole && this.now >= this.line.duration) this.now = 0;
    this.isPlaying = true;
    this.tell("play");
    this.changed();
  }

  pause() {
    if (!this.isPlaying) return;
    this.isPlaying = false;
    this.tell("pause");
    this.changed();
  }

  /** Goes on by seconds of the clock on the wall, if it plays. */
  advance(seconds) {
    if (!this.isPlaying) return;
    const before = this.now, { shown } = this;
    this.now += seconds * this.speed;
    if (this.skips) this.skipPause();
    this.pass(before);
    if (this.isPlaying && this.now >= this.line.duration) this.isWhole ? this.finish() : (this.now = this.line.duration);
    if (!this.isPlaying || this.shown !== shown) this.changed();
  }

  /** What can be seen of the moment: how many chunks have come, and the tenth of a second. */
  get shown() {
    return `${this.line.chunksAt(this.now)} ${Math.floor(10 * this.now)}`;
  }

  /** Tells of what was typed and of the markers after a time up to now. If it stops at markers, it goes back to the first one. */
  pass(before) {
    const isPassed = (time) => before < time && time <= this.now, stop = this.stops ? this.markers.find(isPassed) : undefined;
    if (stop !== undefined) this.now = stop;
    for (const [time, data] of this.inputs) if (isPassed(time)) this.told("input", time, { data });
    for (const time of this.markers.filter(isPassed)) this.told("marker", time);
    if (stop !== undefined) this.pause();
  }

  /** Returns what was typed in so many seconds up to now. */
  typed(seconds) {
    return this.inputs.filter(([time]) => this.now - seconds < time && time <= this.now).map(([, data]) => data);
  }

  skipPause() {
    const next = this.line.chunksAt(this.now), last = next === 0 ? 0 : this.line.time(next - 1);
    if (next < this.line.chunks && this.now - last > this.longestPause) this.now = this.line.time(next);
  }

  /** Ends at the end, or goes on at the beginning. */
  finish() {
    const isAgain = this.loops > 0 && this.line.duration > 0;
    this.now = isAgain ? 0 : this.line.duration;
    this.isPlaying = isAgain;
    if (isAgain) this.loops -= 1;
    this.tell(isAgain ? "seek" : "ended");
  }

  show(time) {
    this.now = Math.max(0, Math.min(Number(time) || 0, this.line.duration));
    this.from = null;
    this.changed();
  }

  go(time) {
    this.show(time);
    this.tell("seek");
  }

  /** Shows a moment, and begins to play at another one, unless it goes somewhere before. */
  wait(shown, from) {
    this.show(shown);
    this.from = from;
  }

  /** Stops, and goes to the chunk after the one that is shown, or to the one before it. Chunks of one time are one. */
  step(by) {
    const { line } = this;
    this.pause();
    let count = line.chunksAt(this.now);
    if (by > 0) return this.go(count < line.chunks ? line.time(count) : line.duration);
    const shown = count === 0 ? 0 : line.time(count - 1);
    while (count > 0 && line.time(count - 1) >= shown) count--;
    this.go(count === 0 ? 0 : line.time(count - 1));
  }

  /**
   * Searches all time, and goes to the span at this time, or the last one before it, or the first one. Returns a promise of whether this was
   * the last search.
   */
  async search(needle, how = {}) {
    const turn = (this.searches += 1);
    this.needle = needle;
    this.spans = [];
    const spans = needle === "" ? [] : await this.find(needle, how);
    if (turn !== this.searches) return false;
    this.spans = spans;
    if (spans.length > 0) this.goToSpan(Math.max(0, spans.findLastIndex((span) => span.time <= this.now)));
    else this.changed();
    return true;
  }

  /** Returns the index of the span that is shown, or -1. One that scrolled past has a moment only. */
  get span() {
    return this.spans.findIndex((span) => span.time === this.now || (span.time < this.now && this.now < span.until));
  }

  goToSpan(index) {
    if (this.spans.length > 0) this.go(this.spans[(index + this.spans.length) % this.spans.length].time);
  }

  nextSpan() {
    const next = this.spans.findIndex((span) => span.time > this.now);
    this.goToSpan(next < 0 ? 0 : next);
  }

  previousSpan() {
    const at = this.spans.findLastIndex((span) => span.time < this.now);
    this.goToSpan(at < 0 ? this.spans.length - 1 : at);
  }
}
