import type { Recording, Span } from "./timeline.js";
import type { Core, Encoding, Source, Terminal, TerminalName } from "./vt220.js";

/** A marker: its time in seconds, perhaps with its label. */
export type Marker = number | [time: number, label: string];

/** How a recording plays, as vt220-page writes it. */
export interface Options {
  start: number;
  poster: number | null;
  speed: number;
  pause: number;
  autoplay: boolean;
  loop: boolean | number;
  stops: boolean;
  controls: boolean;
  encoding: Encoding;
  terminal: TerminalName;
  rows: number;
  columns: number;
  markers: [time: number, label: string][];
  /** What was typed: the time and the text of each input. */
  inputs: [time: number, data: string][];
  keystrokes: boolean;
}

/** The moment of an event, in seconds. */
export interface Moment {
  time: number;
}

/** The events of a player. */
export interface PlayerEvents {
  /** The first frame is shown. */
  ready: CustomEvent<Moment>;
  play: CustomEvent<Moment>;
  pause: CustomEvent<Moment>;
  /** The end, after the last turn of a loop. */
  ended: CustomEvent<Moment>;
  /** It went to another moment, as at each turn of a loop. */
  seeked: CustomEvent<Moment>;
  /** A marker was passed. */
  marker: CustomEvent<Moment & { index: number; label: string }>;
  /** `data` was typed then. */
  input: CustomEvent<Moment & { data: string }>;
  /** A live one lost its connection, and connects again. */
  offline: CustomEvent<Moment>;
  error: CustomEvent<{ reason: string; error: Error }>;
}

type OtherEvents = Exclude<keyof HTMLElementEventMap, keyof PlayerEvents>;

/**
 * The element `<vt220-player>`. It plays a recording by asciinema, ttyrec or script, the bytes of a program, or what `vt220-page --data` wrote:
 * at the address `src`, given as the property `src`, or inside of the element, in a `<script type="application/x-asciicast">` or, if
 * vt220-page wrote it, `<script type="application/json">`. With the attribute `live` it shows what comes from a WebSocket or an EventSource.
 *
 * All players of a page share one core. Each property of an attribute is null if the attribute isn't there or is wrong. If it isn't there, the
 * recording's own value counts. If it is wrong, nothing is played, and an event `error` names it.
 *
 * An attribute may change later. If `encoding`, `terminal`, `rows`, `cols`, `links` or `audio-url` does, the recording is read again, and goes on at
 * its moment. So does an element that is moved in its document. `autoplay` counts at the beginning alone.
 *
 * It dispatches the events of PlayerEvents.
 */
export declare class Vt220Player extends HTMLElement {
  addEventListener<K extends keyof PlayerEvents>(type: K, listener: (this: Vt220Player, event: PlayerEvents[K]) => unknown, options?: boolean | AddEventListenerOptions): void;
  addEventListener<K extends OtherEvents>(type: K, listener: (this: Vt220Player, event: HTMLElementEventMap[K]) => unknown, options?: boolean | AddEventListenerOptions): void;
  addEventListener(type: string, listener: EventListenerOrEventListenerObject, options?: boolean | AddEventListenerOptions): void;
  removeEventListener<K extends keyof PlayerEvents>(type: K, listener: (this: Vt220Player, event: PlayerEvents[K]) => unknown, options?: boolean | EventListenerOptions): void;
  removeEventListener<K extends OtherEvents>(type: K, listener: (this: Vt220Player, event: HTMLElementEventMap[K]) => unknown, options?: boolean | EventListenerOptions): void;
  removeEventListener(type: string, listener: EventListenerOrEventListenerObject, options?: boolean | EventListenerOptions): void;
  /** What load() takes for the shared core; set it before the first player is made. */
  static wasm: Source | Promise<Source> | undefined;
  /** reader.wasm in the same way. It is loaded when a player gets a recording that vt220-page didn't write. */
  static reader: Source | Promise<Source> | undefined;
  /** A promise of the shared core. */
  static readonly core: Promise<Core>;
  /** A promise that the whole recording has come and has been read, or can't. */
  readonly loaded: Promise<void>;
  /** The address of the recording, or the recording: a file, its bytes, or the bytes of a program with their times. */
  src: string | Blob | ArrayBuffer | Uint8Array | Recording | null;
  /** The address of the timing file of script, or the file: `src` is then the typescript. */
  timing: string | Blob | ArrayBuffer | Uint8Array | null;
  /** `start`: where it begins to play, in seconds. */
  startAt: number | null;
  /** `poster`: the moment that is shown before it plays. */
  poster: number | null;
  speed: number | null;
  /** `idle-limit`: the longest pause that is played while pauses are skipped, in seconds. */
  idleTimeLimit: number | null;
  /** `autoplay` */
  autoPlay: boolean | null;
  /** `loop`: plays again at its end, without end or so many times. */
  loop: boolean | number | null;
  markers: Marker[] | null;
  /** `pause-on-markers` */
  pauseOnMarkers: boolean | null;
  encoding: Encoding | null;
  terminal: TerminalName | null;
  /**
   * `rows`, `cols`: the size of the screen. Without both it is that of the recording, which then follows the changes of its window, and of a live
   * one a VT220's.
   */
  rows: number | null;
  cols: number | null;
  /** `links`: follows #t=SECONDS and #q=TEXT of the page's address, and has a button that copies such a link. */
  links: boolean | null;
  /** `fit`: what the size of the text is taken from: the width of the element (otherwise), its height, or the smaller of both. */
  fit: "width" | "height" | "both" | null;
  /** `keystrokes`: shows the keys that were typed. */
  keystrokes: boolean | null;
  /** `audio-url`: the address of the sound, which is played in step. Pauses aren't skipped then, unless that is chosen. */
  audioUrl: string | null;
  /** Plays, as soon as it is ready. */
  play(): Promise<void>;
  pause(): Promise<void>;
  /** Goes, once the whole recording has been read, to a moment in seconds, as "M:SS", as "50%", or to a marker by its index or a direction. */
  seek(where: number | string | { marker: number | "prev" | "next" }): Promise<void>;
  /** Searches all time, as the controls for case and expressions say, and returns what was found. Throws TypeError if it is live. */
  search(text: string): Promise<Span[]>;
  /** Returns the moment that is shown, in seconds. */
  getCurrentTime(): number;
  /** Returns how long the recording is, in seconds. Returns null until that is known: of a large file, until all has been read. */
  getDuration(): number | null;
  /** Plays bytes on a player with the attribute `live`. Throws Vt220Error if it isn't ready. */
  feed(bytes: Uint8Array): void;
  /** Shows the state of a terminal of the shared core, which has any size, on a player with the attribute `live`. */
  show(terminal: Terminal): void;
  /** Changes the size of a player with the attribute `live`, as `resize` of a Terminal. Throws Vt220Error. */
  resize(rows: number, columns: number): void;
}

declare global {
  interface HTMLElementTagNameMap {
    "vt220-player": Vt220Player;
  }
}
