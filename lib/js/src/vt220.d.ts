/** The number of rows of a VT220's screen. */
export declare const ROWS: 24;
/** The most columns of a VT220's screen. */
export declare const COLUMNS: 132;
/** The most rows of a screen of any size, and the most columns. */
export declare const MOST_ROWS: 255;
export declare const MOST_COLUMNS: 255;

/** What a call could not do. `BROKEN`: an earlier call ended in a fault of WebAssembly, and the core can't be used any more. */
export type Code = "MEMORY" | "CLOSED" | "PARTIAL" | "NO_ROW" | "NO_KEY" | "NO_CHARACTER" | "LANGUAGE" | "SIZE" | "NO_SIZE" | "BROKEN";

/** Reports a call that changed nothing. */
export declare class Vt220Error extends Error {
  readonly code: Code;
}

/** Holds a module with its memory. Its terminals belong together: a call that takes two needs both of one core. */
export interface Core {
  /** The version: 10000 * major + 100 * minor + patch. */
  readonly version: number;
  /**
   * Returns what a key sends under these modes, of which those that are left out aren't set. The key is one character, a name such as "Up" or
   * "C-c", or the sequence that a modern terminal sends for it. The options are those of the terminal: in UTF-8 each character beyond ASCII
   * but a C1 control sends itself, and with the terminal "xterm" a key sends what it does on an xterm, where a name may have modifiers, as
   * "C-Left". Throws NO_KEY or NO_CHARACTER.
   */
  key(key: string, modes?: Partial<Modes>, options?: Pick<Options, "encoding" | "terminal">): Uint8Array;
  /** Returns how many bytes the first key has of what was typed on a modern terminal, and 0 if its end is missing. */
  keyLength(typed: Uint8Array): number;
  /**
   * Returns how a text in UTF-8 is shown: each character beyond ASCII as its glyph, with a space after it if it has two cells. A
   * character that a VT220 lacks has a similar glyph, or U+2426. One that has no cell, such as a combining mark, is left out.
   */
  shown(text: string): string;
}

/** The encoding of what a host sends: the VT220's own bytes, or UTF-8. */
export type Encoding = "dec" | "utf-8";
/** The terminal that a host writes for: a VT220, or what programs send under TERM=xterm or xterm-256color. */
export type TerminalName = "vt220" | "xterm";

/** How a terminal is opened. */
export interface Options {
  /** What the host sends: without it the VT220's own bytes. With the terminal "xterm" it is always UTF-8. */
  encoding?: Encoding;
  terminal?: TerminalName;
  /** The size: without it a VT220's, 24 rows of 80 columns, which DECCOLM makes 132. Any other one has 2 to 255 rows of 2 to 255 columns. */
  rows?: number;
  columns?: number;
}

/** A Response of fetch, as far as load() needs it. */
export interface Fetched {
  readonly ok: boolean;
  readonly status: number;
  arrayBuffer(): Promise<ArrayBuffer>;
}
/** WebAssembly.Module, or nothing if no library of the project declares it. */
type Module = typeof globalThis extends { WebAssembly: { Module: { prototype: infer Declared } } } ? Declared & object : never;
/** What load() takes: the bytes of vt220.wasm, its module, or a response with it. */
export type Source = ArrayBuffer | ArrayBufferView | Fetched | Module;

/** Loads the core of a source, or of a promise of one. Without a source, it is the file of this package. */
export declare function load(source?: Source | Promise<Source>): Promise<Core>;

export interface Attributes {
  bold: boolean;
  underline: boolean;
  blink: boolean;
  reverse: boolean;
  /** Whether a selective erase leaves it. */
  isProtected: boolean;
}

export interface Cell extends Attributes {
  /** One character; a space if the cell is erased. */
  glyph: string;
}

export interface Cursor {
  row: number;
  column: number;
  /** Whether the last column was written, so that the next character begins a new line. */
  wrap: boolean;
}

/** The first and the last row of the scroll region. */
export interface Margins {
  top: number;
  bottom: number;
}

/** The modes: true if set. */
export interface Modes {
  kam: boolean;
  irm: boolean;
  srm: boolean;
  lnm: boolean;
  decckm: boolean;
  decsclm: boolean;
  decscnm: boolean;
  decom: boolean;
  decawm: boolean;
  decarm: boolean;
  dectcem: boolean;
  /** DECKPAM. */
  keypadApplication: boolean;
  /** S8C1T. */
  reports8bit: boolean;
}

/** The final byte of the sequence that designates a set, as docs/SPECIFICATION.md lists them. */
export type SetName = "B" | "A" | "K" | "0" | "<";

interface Designations {
  g0: SetName;
  g1: SetName;
  g2: SetName;
  g3: SetName;
  /** Which of these is in GL, 0 to 3. */
  gl: number;
  /** Which of these is in GR, 1 to 3. */
  gr: number;
}

export interface Sets extends Designations {
  /** 2 or 3 if a single shift to G2 or G3 is pending, otherwise 0. */
  singleShift: number;
}

/** The state that DECRC restores. */
export interface Saved extends Cursor, Attributes, Designations {
  /** DECOM. */
  origin: boolean;
}

/** The kind of an unfinished sequence. */
export type Held = "nothing" | "escape" | "control" | "string";

/**
 * A terminal, at first in its power-up state. It is closed by close(), by `using` at the end of a block, or when nothing refers to it any
 * more. A closed terminal throws CLOSED, except from close() and isOpen. On an error nothing has changed.
 */
export declare class Terminal {
  /** Throws NO_SIZE if no screen has this size. On a terminal of another size than a VT220's, DECCOLM leaves the width. */
  constructor(core: Core, options?: Options);
  readonly encoding: Encoding;
  readonly terminal: TerminalName;
  /** Whether the alternate page is shown. A VT220 has none. The page that isn't shown is no part of sameState and update. */
  readonly alternate: boolean;

  /** Whether the program wants pasted text between ESC [200~ and ESC [201~ (?2004). A VT220 has no such mode. */
  readonly bracketedPaste: boolean;
  /** Frees the terminal's memory. Does nothing if it is closed. */
  close(): void;
  readonly isOpen: boolean;

  /** Processes input from the host, in chunks of any size. Returns the replies to it. */
  feed(bytes: Uint8Array): Uint8Array;
  /**
   * Does the same, and also returns the lines that scroll off the top of the screen, each as rowText returns it. The alternate page has no
   * such lines.
   */
  feedLog(bytes: Uint8Array): { replies: Uint8Array; lines: string[] };
  /**
   * The bytes at the end of the input that begin a character of UTF-8, at most three. Nothing shows them yet. They aren't part of the
   * state: a checkpoint is repaint() and, after it, pending. Fed to a new terminal of the same encoding and terminal, the two lead on as here.
   */
  readonly pending: Uint8Array;
  /** Resets the terminal to its power-up state, as RIS does, also inside a sequence. Nothing is pending then. */
  reset(): void;
  /**
   * Brings this terminal into the state of `from`, also inside a sequence. If its encoding is UTF-8, `pending` is copied, too. A terminal of
   * TERM=xterm also gets both pages. Throws LANGUAGE if it is one and `from` isn't, and SIZE if the two have different sizes.
   */
  copyFrom(from: Terminal): void;
  /** Returns a new terminal of this encoding, terminal and size in the state of this one, also inside a sequence. Its `bells` counts from 0. */
  copy(): Terminal;
  /**
   * Changes the size, as xterm does if its window changes, also inside a sequence. If the cursor would be below the last row, so many rows leave
   * at the top that it is in the last one: read them before, with rowText. The rows and columns that both screens have stay, and the others are
   * blank. DECCOLM leaves the width then, also that of 24 by 80. Throws NO_SIZE if no screen has this size.
   */
  resize(rows: number, columns: number): void;

  /** Returns the screen as a line for each row, each without the spaces at its end, and LF. */
  text(): string;
  /** Returns the line of a row, without its LF. Throws NO_ROW. */
  rowText(row: number): string;
  /** Returns the screen as text with SGR sequences. */
  show(): string;
  /** Returns the screen as an SVG document. */
  picture(): string;
  /**
   * Returns bytes that leave any terminal of the same encoding, terminal and size exactly as this one is. What is pending of UTF-8 is left out. With
   * the terminal "vt220" they leave a VT220 in this state, with the page that is shown. Throws PARTIAL inside a sequence, and LANGUAGE if
   * they are for an xterm and this terminal is a VT220.
   */
  repaint(terminal?: TerminalName): Uint8Array;
  /**
   * Returns bytes that lead from this state to that of `to`, and brings this terminal there. They are empty exactly if the two are
   * equal. Throws PARTIAL if one of the two is inside a sequence, LANGUAGE if this terminal is of TERM=xterm, and SIZE if the two have
   * different sizes.
   */
  update(to: Terminal): Uint8Array;
  /**
   * Returns bytes that make a terminal of today, such as xterm, show this screen, given that it shows that of `shown`. null stands for
   * anything else. The bytes are characters in UTF-8 and CUP, ED, SGR and DECTCEM, and there are none if both show the same. That terminal
   * has at least the rows and the columns of this one. Afterwards it shows this terminal, so keep a copy (`copyFrom`).
   */
  draw(shown?: Terminal | null): Uint8Array;
  /** Returns whether two terminals are in the same state, hidden parts included. */
  sameState(other: Terminal): boolean;
  /** Returns the rows of `to` to be drawn again if the screen of this terminal is shown: all of them if the sizes or the widths differ. */
  changedRows(to: Terminal): number[];
  /** Returns for each cell of a row of `to` whether this terminal has another cell there, or none. Throws NO_ROW, and SIZE if the two have different sizes. */
  rowChanges(to: Terminal, row: number): boolean[];

  /** Returns the cells of a row. Throws NO_ROW. */
  cells(row: number): Cell[];
  readonly cursor: Cursor;
  readonly margins: Margins;
  readonly modes: Modes;
  /** The attributes with which the next character is written. */
  readonly brush: Attributes;
  readonly sets: Sets;
  readonly saved: Saved;
  /** The columns of the tab stops: of a VT220 of the columns 1 to 132, whatever the width. */
  readonly stops: number[];
  readonly rows: number;
  /** The number of columns, of a VT220 80 or 132. */
  readonly width: number;
  /** How often BEL was carried out since the terminal was made. */
  readonly bells: number;
  /** Whether the terminal is between sequences. */
  readonly isBetween: boolean;
  readonly held: Held;
}
export interface Terminal extends Disposable {}

// What TypeScript's own library declares from version 5.2 on.
declare global {
  interface SymbolConstructor {
    readonly dispose: unique symbol;
  }
  interface Disposable {
    [Symbol.dispose](): void;
  }
}
