// player.js: the element <vt220-player>. player.d.ts describes it.
import { AGAIN, AT_FIRST, ATTRIBUTES, faultOf } from "./attributes.js";
import { Live, connected } from "./live.js";
import { MARKUP, STYLE } from "./look.js";
import { lacking } from "./notes.js";
import { opened, source } from "./packed.js";
import { noteOnBytes, played, readable, showsUtf8 } from "./reading.js";
import { Reader } from "./recordings.js";
import { Searcher } from "./searcher.js";
import { Timeline } from "./timeline.js";
import { View, seconds } from "./view.js";
import { Vt220Error, checkSize, load } from "./vt220.js";

// How a recording plays, if neither it nor an attribute says so.
const DEFAULTS = { start: 0, poster: null, speed: 1, pause: 1, autoplay: false, loop: false, stops: false, controls: true, encoding: "dec", terminal: "vt220", rows: 24, columns: 80,
  markers: [], inputs: [], keystrokes: false, audio: null };
// What is read and shown of a larger file before the rest has come, in bytes.
const BEGINNING = 1 << 18;
const LONGEST_TURN = 30; // milliseconds without a turn of the page
const EVENTS = { seek: "seeked" };
// In node, in which nothing can be shown, the module can be imported.
const Base = globalThis.HTMLElement ?? class {};

/** The styles of all players. */
let sheet = null;

/** Returns whether an element may begin: all has been parsed, or it is an early one and its own end has been. Something comes after it then. */
function mayBegin(element) {
  if (document.readyState !== "loading") return true;
  if (element.hasAttribute("early")) for (let at = element; at !== null; at = at.parentNode) if (at.nextSibling !== null) return true;
  return false;
}

/** Returns a promise of the next turn of the page. */
const turn = () => new Promise((resolve) => setTimeout(resolve));

export class Vt220Player extends Base {
  /** What load() takes for the core that all players share; set it before the first one. */
  static wasm = undefined;
  /** What reads recordings that vt220-page didn't write: reader.wasm, as `wasm`; set it before the first one. */
  static reader = undefined;
  static #core = null;
  static #reader = null;
  #given = { src: null, timing: null };
  #openings = 0;
  #isBegun = false;
  #hasFailed = false;
  #parts = [];
  #view = null;
  #recorded = {}; // the options of the recording
  #left = null; // the moment at which it goes on, if it was moved or is read again

  static get observedAttributes() {
    return ["src", "timing", "live", "label", ...Object.keys(ATTRIBUTES).filter((name) => !AT_FIRST.includes(name))];
  }

  /** A promise of the core that all players share. */
  static get core() {
    return (Vt220Player.#core ??= load(Vt220Player.wasm));
  }

  /** The reader that all players share, which is loaded when it is needed. */
  static get #recordings() {
    return (Vt220Player.#reader ??= new Reader(Vt220Player.reader));
  }

  constructor() {
    super();
    if (sheet === null) {
      sheet = new CSSStyleSheet();
      sheet.replaceSync(STYLE);
    }
    const root = this.attachShadow({ mode: "open", delegatesFocus: false });
    root.innerHTML = MARKUP;
    root.adoptedStyleSheets = [sheet];
    // An event `input` of the element is what was typed in the recording.
    root.addEventListener("input", (event) => event.stopPropagation());
    /** A promise that the whole recording has come, or can't. */
    this.loaded = Promise.resolve();
    /** A promise of the end of the notes, once the recording has come. */
    this.noted = Promise.resolve();
  }

  connectedCallback() {
    const begin = () => this.isConnected && !this.#isBegun && this.#open();
    if (mayBegin(this)) begin();
    else document.addEventListener("DOMContentLoaded", begin, { once: true });
  }

  disconnectedCallback() {
    this.#isBegun = false;
    this.#leave();
    this.#close();
  }

  /** Keeps the moment that is shown, at which it then goes on. One that wasn't touched begins as before. */
  #leave() {
    if (this.#view === null || this.#view.options.isLive) return;
    const { now, from, isPlaying } = this.#view.player;
    this.#left = from === null ? { now, isPlaying } : null;
  }

  attributeChangedCallback(name, before, now) {
    if (name === "label") return this.shadowRoot.getElementById("screen").setAttribute("aria-label", now ?? "Terminal screen");
    if (before === now) return;
    if (name in ATTRIBUTES) return this.#change(name);
    if (name in this.#given) this.#given[name] = null;
    this.#left = null;
    if (this.#isBegun) this.#open();
  }

  /** Carries out an attribute that has changed: while it plays, or by reading the recording again. */
  #change(name) {
    const fault = faultOf(this, name), [, option] = ATTRIBUTES[name];
    if (this.#view !== null && fault !== null) return this.#view.say(fault);
    if (!this.#hasFailed && !AGAIN.includes(name)) return this.#view?.change(option, this.#options(this.#recorded)[option]);
    this.#leave();
    if (this.#isBegun) this.#open();
  }

  /** Throws if an attribute is wrong. */
  #check() {
    const { size: [columns, rows] = [] } = this.#asked(), fault = Object.keys(ATTRIBUTES).map((name) => faultOf(this, name)).find(Boolean);
    if (fault) throw new TypeError(fault);
    if (rows !== undefined) checkSize(rows, columns);
    if (this.src === "") throw new TypeError('src="" names no recording');
  }

  /** The address of the recording, or the recording that was given. */
  get src() {
    return this.#source("src");
  }

  set src(value) {
    this.#give("src", value);
  }

  /** The address of the timing file of script, or the file that was given. */
  get timing() {
    return this.#source("timing");
  }

  set timing(value) {
    this.#give("timing", value);
  }

  #source(name) {
    return this.#given[name] ?? this.getAttribute(name);
  }

  #give(name, value) {
    if (typeof value === "string") return this.setAttribute(name, value);
    this.#given[name] = value;
    this.#left = null;
    if (this.isConnected) this.#open();
  }

  /** Moves the focus to the screen. */
  focus(options) {
    this.shadowRoot.getElementById("screen").focus(options);
  }

  /** What is inside, once it is ready, or null. */
  get view() {
    return this.#view;
  }

  #close() {
    this.#openings += 1;
    this.#view = null;
    for (const part of this.#parts.splice(0)) part.close();
    this.shadowRoot.getElementById("controls").disabled = true;
  }

  /** Returns what is to be played: what was given, at the address, or inside of the element; or null. */
  #wanted() {
    return this.src ?? this.querySelector(':scope > script:is([type="application/json"], [type="application/x-asciicast"])')?.textContent ?? null;
  }

  #open() {
    this.#close();
    this.#isBegun = true;
    this.#hasFailed = false;
    const opening = this.#openings, isOver = () => opening !== this.#openings, wanted = this.#wanted(), live = this.getAttribute("live");
    if (live !== null || (typeof wanted === "string" && /^wss?:/.test(wanted))) this.loaded = this.#attempt(isOver, (core) => this.#follow(live ?? wanted, core, isOver));
    else if (wanted !== null) this.loaded = this.#attempt(isOver, (core, because) => this.#load(wanted, core, because, isOver));
  }

  /** Does a step after the core has been loaded. If that fails, it says why. */
  async #attempt(isOver, step) {
    let reason = "This needs a browser of 2023 or later with WebAssembly.";
    try {
      const core = await Vt220Player.core;
      if (isOver()) return;
      reason = "An attribute is wrong.";
      this.#check();
      await step(core, (text) => (reason = text));
    } catch (error) {
      if (isOver()) return;
      this.#close();
      this.#hasFailed = true;
      this.shadowRoot.getElementById("said").textContent = `${reason} (${error.message})`;
      this.dispatchEvent(new CustomEvent("error", { detail: { reason, error } }));
    }
  }

  /** The options of a recording, and those that attributes name. */
  #options(recorded) {
    const options = { links: false, isLive: false, ...DEFAULTS, ...recorded };
    this.#recorded = recorded;
    for (const [attribute, [, option, form]] of Object.entries(ATTRIBUTES)) {
      if (option !== null && this.hasAttribute(attribute)) options[option] = form.read(this.getAttribute(attribute));
    }
    if (!options.controls) this.toggleAttribute("no-controls", true);
    return this.#left === null ? options : { ...options, start: this.#left.now, poster: null, autoplay: this.#left.isPlaying, isLeft: true };
  }

  /** Returns the terminal, the encoding and the size that attributes ask for. A number that isn't there is a VT220's. */
  #asked() {
    const { rows, cols } = this, asked = ["terminal", "encoding"].filter((name) => this.hasAttribute(name));
    const size = rows === null && cols === null ? {} : { size: [cols ?? DEFAULTS.columns, rows ?? DEFAULTS.rows] };
    return { ...Object.fromEntries(asked.map((name) => [name, this.getAttribute(name)])), ...size };
  }

  /** Returns the size that attributes ask for, as options. */
  #size() {
    const { size: [columns, rows] = [] } = this.#asked();
    return rows === undefined ? {} : { rows, columns };
  }

  /** Returns how bytes of a program with their times are played, of which nothing else is known. */
  #plain({ bytes }) {
    return { ...this.#size(), encoding: showsUtf8(bytes) ? "utf-8" : "dec" };
  }

  async #load(wanted, core, because, isOver) {
    because("The recording can't be fetched.");
    const { packed, recording, file, timing } = await source(wanted, this.timing);
    because(file ? "The recording can't be read." : "The recording is damaged.");
    const made = packed ? await opened(packed, this.#asked()) : file ? await this.#read(file, timing, core, because, isOver) : { recording, options: this.#plain(recording) };
    if (isOver()) return;
    const options = this.#options(made.options), notes = made.notes ?? [];
    const { encoding, terminal, rows, columns } = options, line = new Timeline(core, made.recording, { encoding, terminal, rows, columns });
    const searcher = new Searcher(core, line, made.recording, { encoding, terminal, rows, columns });
    this.#parts.push(searcher, line);
    if (made.fill) await this.#fill(made.fill, line, () => this.#begin(core, line, searcher, options, notes), options, isOver);
    else if (this.#view === null) this.#begin(core, line, searcher, options, notes);
    else {
      this.#view.line.close();
      this.#view.complete(line, searcher, options);
      this.#view.addNotes(notes);
    }
    if (isOver()) return;
    this.#left = null;
    this.noted = this.#note(core, line, made.recording.bytes, isOver);
  }

  /** Returns a promise of what is played of a file. The beginning of a large one is shown first. */
  async #read(file, timing, core, because, isOver) {
    const first = await file.first(BEGINNING), beginning = first.length < BEGINNING ? null : readable(first);
    const read = (bytes) => played(Vt220Player.#recordings, bytes, timing, this.#asked());
    if (beginning !== null) {
      const { recording, options } = await read(beginning);
      if (!isOver()) this.#preview(recording, this.#options(options), core);
      await turn();
    }
    because("The recording can't be fetched.");
    const whole = await file.whole();
    because("The recording can't be read.");
    return read(whole);
  }

  /** Shows the beginning of a recording, and plays it, until the whole is there. If it lacks the first frame, it does nothing. */
  #preview(recording, options, core) {
    const { encoding, terminal, rows, columns, poster, start } = options, line = new Timeline(core, recording, { encoding, terminal, rows, columns });
    if (Math.max(poster ?? start, start) >= line.duration || this.#follows(options)) return line.close();
    this.#parts.push(line);
    this.#begin(core, line, null, options, []);
  }

  /** Adds a note on the characters of the bytes, after the first frame. */
  async #note(core, line, bytes, isOver) {
    const { encoding } = line.terminal;
    await turn();
    const note = encoding === "utf-8" ? await lacking(core, bytes) : noteOnBytes(bytes, encoding);
    if (!isOver()) this.#view.addNotes([note]);
  }

  /** Fills a timeline. It begins as soon as the first frame's bytes have come. */
  async #fill(fill, line, begin, options, isOver) {
    const first = line.positionAt(options.poster ?? options.start);
    let last = performance.now();
    line.available = 0;
    await fill(async (count) => {
      if (isOver()) throw new Vt220Error("CLOSED", "another recording was opened");
      line.available = count;
      if (this.#view === null && count >= first) begin();
      else if (performance.now() - last < LONGEST_TURN) return;
      await turn();
      last = performance.now();
    });
    if (this.#view === null) begin();
    else this.#view.draw();
  }

  #begin(core, line, searcher, options, notes) {
    this.#show(core, line, searcher, options);
    this.#view.addNotes(notes);
    this.tell("ready", this.getCurrentTime());
    if (this.#follows(options)) this.#view.follow();
    if (options.autoplay) this.#view.toggle();
  }

  /** Returns whether it begins at the moment or with the search of the page's address. */
  #follows({ links, isLeft }) {
    return links && !isLeft && location.hash !== "";
  }

  #show(core, line, searcher, options) {
    this.#view = new View(this, core, line, searcher, options);
    this.#parts.push(this.#view);
    this.#view.start();
  }

  /** Shows a terminal that plays what comes from an address, or what feed() gets. */
  #follow(address, core, isOver) {
    const options = this.#options({ isLive: true, ...this.#size() }), live = new Live(core, options);
    this.#show(core, live, null, options);
    this.#parts.push(live);
    if (address === "") return this.tell("ready", 0);
    let isReady = false;
    const came = (bytes) => {
      if (isOver()) return;
      this.feed(bytes);
      if (!isReady) this.tell("ready", 0);
      isReady = true;
    };
    const acts = { came, resized: ({ rows, columns }) => isOver() || this.resize(rows, columns), lost: () => this.tell("offline", 0) };
    this.#parts.push({ close: connected(new URL(address, document.baseURI).href, acts) });
  }

  /** Returns what is inside of a live player that is ready. */
  #live() {
    if (!this.#view?.options.isLive) throw new Vt220Error("CLOSED", "only a live player that is ready shows what comes");
    return this.#view;
  }

  /** Plays bytes on a live player: one that has the attribute `live`. */
  feed(bytes) {
    const view = this.#live();
    view.line.feed(bytes);
    view.draw();
  }

  /** Shows the state of a terminal of the shared core on a live player. */
  show(terminal) {
    const view = this.#live();
    view.line.show(terminal);
    view.draw();
  }

  /** Changes the size of a live player. */
  resize(rows, columns) {
    const view = this.#live();
    view.line.terminal.resize(rows, columns);
    view.draw();
  }

  /** Tells of an event, as a DOM event. */
  tell(event, time, more = {}) {
    const markers = this.#view?.options.markers ?? [], index = event === "marker" ? markers.findIndex(([each]) => each === time) : -1;
    const detail = index < 0 ? { time, ...more } : { index, time, label: markers[index][1] };
    this.dispatchEvent(new CustomEvent(EVENTS[event] ?? event, { detail }));
  }

  /** Returns what is inside as soon as it is ready. */
  #ready() {
    if (this.#view !== null) return Promise.resolve(this.#view);
    return new Promise((resolve) => this.addEventListener("ready", () => resolve(this.#view), { once: true }));
  }

  async play() {
    const view = await this.#ready();
    if (!view.player.isPlaying) view.toggle();
  }

  async pause() {
    (await this.#ready()).player.pause();
  }

  async seek(where) {
    const view = await this.#ready(), { player } = view;
    if (!player.isWhole) await this.loaded;
    if (typeof where !== "object") return player.go(/%$/.test(where) ? (view.line.duration * parseFloat(where)) / 100 : seconds(where));
    if (where.marker === "next" || where.marker === "prev") return view.marker(where.marker === "next" ? 1 : -1);
    if (where.marker in player.markers) player.go(player.markers[where.marker]);
  }

  async search(text) {
    const view = await this.#ready();
    if (view.options.isLive) throw new TypeError("a live player shows only the present, and searches nothing");
    await view.search(text);
    return this.#view.player.spans;
  }

  getCurrentTime() {
    return this.#view?.player.now ?? 0;
  }

  getDuration() {
    return this.#view?.player.isWhole ? this.#view.line.duration : null;
  }
}

// Each attribute as a property.
for (const [attribute, [property, , form]] of Object.entries(ATTRIBUTES)) {
  Object.defineProperty(Vt220Player.prototype, property, {
    get() {
      return this.hasAttribute(attribute) ? form.read(this.getAttribute(attribute)) ?? null : null;
    },
    set(value) {
      const text = value === null ? null : form.write(value);
      if (text === null) this.removeAttribute(attribute);
      else this.setAttribute(attribute, text);
    },
    configurable: true,
    enumerable: true,
  });
}

/** Defines the element, if there are elements. */
if (globalThis.customElements && !customElements.get("vt220-player")) customElements.define("vt220-player", Vt220Player);
