import type { Core, Options, Terminal } from "./vt220.js";

/** A change of the size of the screen, after the bytes of a chunk. That chunk may have none. */
export interface SizeChange {
  /** The number of the chunk, counted from 0. */
  chunk: number;
  rows: number;
  columns: number;
}

/** A recording: what came at each time. */
export interface Recording {
  /** What the host sent. */
  bytes: Uint8Array;
  /** The time of each chunk, in seconds from the beginning. They never fall. */
  times: ArrayLike<number>;
  /** The position at which each chunk ends. The last one is the number of bytes. */
  ends: ArrayLike<number>;
  /** The changes of the size, in their order. */
  sizes?: readonly SizeChange[];
}

/**
 * A span of time in which a text was on the screen, as seen after each chunk. If it came and scrolled off within a chunk, and isn't there before and
 * after it, the span begins and ends with this chunk.
 */
export interface Span {
  /** When the chunk came after which the text was there, in seconds, and the position at its end. */
  time: number;
  position: number;
  /** When the chunk came after which it was gone, and the position at its end; Infinity if it stayed. */
  until: number;
  end: number;
  /** Where it first was: the uppermost row, or 0 if it only scrolled past, and the column of its first character. */
  row: number;
  column: number;
  /** If it only scrolled past: the number of the line among all that scrolled off the main page, counted from 1. Otherwise null. */
  line: number | null;
}

/** Where the screens of two recordings first differ. */
export interface Difference {
  position: number;
  /** When this is in the one recording, and in the other. */
  time: number;
  otherTime: number;
  /** The rows that differ, counted from 1. */
  rows: number[];
}

/**
 * The terminal at each moment of a recording. A position is a number of bytes; the state there is that of the bytes before it, and of the changes
 * of the size that fewer bytes come before, whichever way a seek got there. At a time all changes have been carried out that come up to then.
 */
export declare class Timeline {
  /**
   * `every` is how many bytes lie between two checkpoints. The other options are those of a Terminal: of the recording, and its first size.
   * Throws TypeError or RangeError if the recording isn't one, and what a Terminal throws.
   */
  constructor(core: Core, recording: Recording, options?: Options & { every?: number });
  /** Closes the terminal. */
  close(): void;
  /** The terminal at the position. Only look at it: seek() feeds it. After a seek to before a change of the size it may be another one. */
  readonly terminal: Terminal;
  readonly position: number;
  /** The number of bytes. */
  readonly length: number;
  /** The time of the last chunk, in seconds. */
  readonly duration: number;
  /** The number of chunks. */
  readonly chunks: number;
  /** The number of checkpoints so far. */
  readonly checkpoints: number;
  /** Returns the time of a chunk, counted from 0. */
  time(chunk: number): number;
  /** Returns the position at the end of a chunk. */
  end(chunk: number): number;
  /** Returns how many chunks have come at a time. */
  chunksAt(time: number): number;
  /** Returns the position at a time. */
  positionAt(time: number): number;
  /** Returns the time of the chunk that has the byte before a position. */
  timeOf(position: number): number;
  /** Brings the terminal to a position, and returns it. A position outside of the recording means its nearest end. */
  seek(position: number): Terminal;
  /** Brings the terminal to the position at a time, and returns it. */
  seekTime(time: number): Terminal;
  /**
   * Returns each span of time in which a text was on the screen, or scrolled past. A row whose last column has a character goes on in the next row,
   * and any other one ends with a line feed. With `expression` the text is a regular expression, in which ^ and $ are the ends of such lines. Without
   * `matchCase`, upper and lower case are equal. In a recording in UTF-8 a character is found by what is shown for it.
   * The result depends on the recording and the arguments alone. Throws SyntaxError if the expression can't be read.
   */
  search(text: string, options?: { matchCase?: boolean; expression?: boolean; limit?: number }): Span[];
  /**
   * Returns the first position at which the screens of this recording and of another one differ, and when that is in both, or null if they
   * never do. The other one has the same core. Both timelines are then at that position.
   */
  firstDifference(other: Timeline): Difference | null;
  /** How many of the bytes have come: a seek goes no further. It is the number of all bytes unless it is set. */
  available: number;
}
export interface Timeline extends Disposable {}
