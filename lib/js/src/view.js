// view.js: what is inside of a <vt220-player>. It wires the controls, the keys and the links to the playback of a recording.
import { pattern } from "./finding.js";
import { Playback } from "./playback.js";
import { Screen, selectionIn } from "./screen.js";
import { Sound } from "./sound.js";
import { keyNames } from "./typed.js";

const SPEEDS = [0.25, 0.5, 1, 2, 4, 8, 16];
const SCALES = [0.5, 0.75, 1, 1.25, 1.5, 2, 3, 4];
const FAR = 5; // seconds of the arrow keys; with Shift they go a tenth
// In a hidden page no frame comes. What is played between two frames is at most this long, in seconds.
const LONGEST_STEP = 0.5;
const TYPED_FOR = 1.5; // seconds for which a key is shown
const MOST_TYPED = 12; // keys that are shown at once
// A character that a Mac may type with Option. With Alt, letters, digits and blanks are for the browser.
const SIGN = /^[^\w\s]$/;

/** Returns a time as hours, minutes and seconds with a tenth. */
export function clock(time) {
  const tenths = Math.floor(time * 10 + 1e-6), hours = Math.floor(tenths / 36000), minutes = Math.floor(tenths / 600) % 60;
  const seconds = ((tenths % 600) / 10).toFixed(1).padStart(4, "0");
  return hours > 0 ? `${hours}:${String(minutes).padStart(2, "0")}:${seconds}` : `${minutes}:${seconds}`;
}

/** Reads a time in seconds, or in minutes or hours with colons. Returns NaN if it isn't one. */
export function seconds(text) {
  return String(text).replace(/^npt:/, "").split(":").reduce((sum, part) => 60 * sum + Number(part), 0);
}

/** Reads a part of a link. Returns null if it isn't well-formed. */
function unescaped(text) {
  try {
    return decodeURIComponent(text);
  } catch {
    return null;
  }
}

const rounded = (time) => String(Math.round(time * 1e6) / 1e6);

/** Writes a text to the clipboard. Returns whether the browser allows that. */
async function copied(text) {
  try {
    await navigator.clipboard.writeText(text);
    return true;
  } catch {
    return false;
  }
}

function save(name, type, text) {
  const link = document.createElement("a");
  link.href = URL.createObjectURL(new Blob([text], { type }));
  link.download = name;
  link.click();
  setTimeout(() => URL.revokeObjectURL(link.href), 60000);
}

export class View {
  /** `line` is a Timeline, or a Live with the option `isLive`. `searcher` is null if it is live, and while `line` has only the beginning of a recording. */
  constructor(host, core, line, searcher, options) {
    Object.assign(this, { host, options, root: host.shadowRoot, scale: 1 });
    this.abort = new AbortController();
    /** Is called after each draw. */
    this.drawn = () => {};
    this.screen = new Screen(core, this.$("screen"), host);
    // Whether the focus was last moved by a pointer, what was selected then, and whether the last click on the screen plays or pauses.
    Object.assign(this, { isPointed: false, hadSelection: false, isClick: false });
    const find = (text, how) => this.searcher.search(text, how);
    this.player = new Playback(line, { changed: () => this.draw(), told: (event, time, more) => this.told(event, time, more), find });
    for (const option of ["loop", "pause", "stops", "speed"]) this.change(option, options[option]);
    // What is heard would be out of step if pauses were skipped.
    this.sound = options.audio === null ? null : new Sound(options.audio);
    this.$("skip").checked = this.player.skips = this.sound === null;
    this.$("controls").disabled = false;
    this.$("full").hidden = !document.fullscreenEnabled;
    this.$("link").hidden = !options.links;
    for (const part of ["controls", "keys"]) this.$(part).classList.toggle("live", options.isLive);
    this.$("keys").hidden = options.isLive;
    this.take(line, searcher, options);
    this.listen();
  }

  /** Takes a recording, or its beginning, with its markers and what was typed. */
  take(line, searcher, { markers, inputs, isLive }) {
    Object.assign(this, { line, searcher });
    this.options.inputs = inputs;
    Object.assign(this.player, { line, inputs, isWhole: isLive || searcher !== null });
    this.$("time").max = line.duration;
    this.$("time").disabled = !this.player.isWhole;
    this.setMarkers(markers);
  }

  setMarkers(markers) {
    this.options.markers = markers;
    this.player.markers = markers.map(([time]) => time);
    this.listMarkers();
  }

  /** Changes an option, while it plays or before. */
  change(option, value) {
    const { player } = this, wait = () => player.from !== null && this.wait();
    const acts = {
      speed: () => this.setSpeed(value), keystrokes: () => this.showKeystrokes(value), stops: () => (player.stops = value), pause: () => (player.longestPause = value),
      loop: () => (player.loops = value === true ? Infinity : Number(value)), markers: () => (this.setMarkers(value), this.drawMarks()), start: wait, poster: wait,
    };
    this.options[option] = value;
    acts[option]();
  }

  /** Goes on with the whole of a recording, of which it had the beginning. */
  complete(line, searcher, options) {
    this.take(line, searcher, options);
    this.say("");
    this.drawMarks();
    this.draw();
  }

  $(id) {
    return this.root.getElementById(id);
  }

  /** Takes its listeners away, and frees the memory of its screen. */
  close() {
    this.player.isPlaying = false;
    this.abort.abort();
    this.sound?.close();
    this.screen.close();
    this.$("typed").replaceChildren();
    this.$("markers").replaceChildren();
    this.$("notes").querySelector("ul").replaceChildren();
  }

  on(target, event, act) {
    target.addEventListener(event, act, { signal: this.abort.signal });
  }

  listen() {
    const { player, host } = this;
    const clicks = {
      play: () => this.toggle(), back: () => player.step(-1), forth: () => player.step(1), previous: () => this.hit(-1), next: () => this.hit(1),
      picture: () => this.savePicture(), copy: () => this.copyText(), link: () => this.copyLink(), full: () => this.fill(), larger: () => this.zoom(1), smaller: () => this.zoom(-1),
    };
    for (const [id, act] of Object.entries(clicks)) this.on(this.$(id), "click", act);
    this.on(this.$("time"), "input", (event) => player.go(event.target.value));
    this.on(this.$("speed"), "change", (event) => this.setSpeed(event.target.value));
    this.on(this.$("skip"), "change", (event) => (player.skips = event.target.checked));
    this.on(this.$("needle"), "input", (event) => event.target.value === "" && this.search(""));
    this.on(this.$("search"), "submit", (event) => (event.preventDefault(), this.submit()));
    for (const id of ["case", "expression"]) this.on(this.$(id), "change", () => this.search(this.$("needle").value));
    this.on(this.$("screen"), "click", (event) => this.click(event));
    this.on(host, "pointerdown", () => Object.assign(this, { isPointed: true, hadSelection: !selectionIn(this.$("screen")).isCollapsed }));
    this.on(host, "keydown", (event) => this.key(event));
    this.on(globalThis, "resize", () => this.drawMarks());
    if (this.options.links && !this.options.isLive) this.on(globalThis, "hashchange", () => this.follow());
  }

  /** Shows the poster. */
  start() {
    this.say(this.player.isWhole ? "" : "Loading");
    this.wait();
    this.drawMarks();
  }

  wait() {
    const { poster, start, isLive, isLeft } = this.options;
    if (isLeft) return this.player.show(start);
    this.player.wait(poster ?? start, start);
    this.$("stage").classList.toggle("waiting", !isLive);
  }

  /** Tells the element's page of an event. The sign that it waits goes with the first one. */
  told(event, time, more) {
    this.$("stage").classList.remove("waiting");
    this.host.tell(event, time, more);
  }

  /** Goes to the moment or the search of the link. */
  async follow() {
    const { player } = this, [, name, value] = /^#([tq])=(.*)$/.exec(location.hash) ?? [];
    if (name === undefined) return;
    const place = name === "t" ? seconds(value) : unescaped(value);
    if (place === null || Number.isNaN(place)) {
      this.say(`The end of the link can't be read: ${location.hash}. It may be #t=SECONDS or #q=TEXT, in which % is %25.`);
    } else if (name === "t") player.go(place);
    else await this.search(place);
  }

  link() {
    const { needle, now } = this.player;
    return location.href.replace(/#.*/, "") + (needle === "" ? `#t=${rounded(now)}` : `#q=${encodeURIComponent(needle)}`);
  }

  toggle() {
    const { player } = this;
    if (this.options.isLive) return;
    if (player.isPlaying) return player.pause();
    player.play();
    let before = performance.now();
    const frame = (now) => {
      player.advance(Math.min(LONGEST_STEP, Math.max(0, now - before) / 1000));
      before = now;
      if (player.isPlaying) requestAnimationFrame(frame);
    };
    requestAnimationFrame(frame);
  }

  setSpeed(speed) {
    const known = Number(speed) > 0 && Number.isFinite(Number(speed)) ? Number(speed) : 1, select = this.$("speed");
    const speeds = [...new Set([...SPEEDS, known])].sort((a, b) => a - b);
    select.replaceChildren(...speeds.map((each) => new Option(`${each}×`, each)));
    select.value = known;
    this.player.speed = known;
  }

  /** How it searches, as the controls say. */
  get how() {
    return { matchCase: this.$("case").checked, expression: this.$("expression").checked };
  }

  /** Searches all time, and says what was found. Returns a promise of that. */
  async search(needle) {
    const { how } = this;
    this.$("needle").value = needle;
    try {
      if (needle !== "") pattern(needle, how);
    } catch (error) {
      return this.say(`This expression can't be read: ${error.message}`);
    }
    this.screen.find(needle, how);
    this.say(needle === "" ? "" : "Searching");
    await this.host.loaded;
    const isLast = await this.player.search(needle, how);
    if (!isLast) return;
    this.say(needle === "" ? "" : this.found());
    this.reveal();
    this.drawMarks();
  }

  /** Searches for what was typed, or goes to the next span of it. */
  submit() {
    const needle = this.$("needle").value;
    if (needle === this.player.needle) this.hit(1);
    else this.search(needle);
  }

  /** Scrolls to a hit, which may be at the side of a screen that doesn't fit. */
  reveal() {
    this.$("screen").querySelector("mark")?.scrollIntoView({ block: "nearest", inline: "nearest" });
  }

  found() {
    const { spans, span } = this.player;
    if (spans.length === 0) return "This text is never on the screen.";
    const { row, line, time } = spans[Math.max(0, span)], place = line === null ? `in row ${row}` : `in line ${line}, which scrolled past at ${clock(time)}`;
    return `${spans.length === 1 ? "Once" : `${spans.length} times`} on the screen; this is number ${span + 1}, ${place}.`;
  }

  hit(by) {
    if (by > 0) this.player.nextSpan();
    else this.player.previousSpan();
    this.reveal();
    if (this.player.needle !== "") this.say(this.found());
  }

  marker(by) {
    const { markers: times, now } = this.player;
    const to = by > 0 ? times.find((time) => time > now) : times.findLast((time) => time < now);
    if (to !== undefined) this.player.go(to);
  }

  /** Plays or pauses by a click on the screen. One that selects text does neither, and the second one of a double click takes back the first. */
  click(event) {
    if (event.detail < 2) this.isClick = !this.hadSelection && selectionIn(this.$("screen")).isCollapsed;
    if (event.detail <= 2 && this.isClick) this.toggle();
  }

  key(event) {
    if (event.key === "Tab") this.isPointed = false;
    if (event.defaultPrevented || event.ctrlKey || event.metaKey || (event.altKey && !SIGN.test(event.key))) return;
    const [target] = event.composedPath();
    if (target.matches?.("input[type=search], select") && event.key !== "Escape") return;
    // Space presses a control that Tab reached. A control that was clicked has the focus, too, and Space plays.
    if (event.key === " " && !this.isPointed && target.matches?.("button, summary, input[type=checkbox]")) return;
    const { player } = this, act = /^[0-9]$/.test(event.key) ? () => this.goTo(Number(event.key) / 10) : this.acts(event)[event.key];
    if (act === undefined) return;
    event.preventDefault();
    act();
  }

  /** What the keys do, by their names. */
  acts(event) {
    const { player } = this, far = event.shiftKey ? this.line.duration / 10 : FAR;
    const always = { "+": () => this.zoom(1), "-": () => this.zoom(-1), f: () => this.fill(), Escape: () => this.$("screen").focus() };
    if (this.options.isLive) return always;
    return {
      ...always, " ": () => this.toggle(), ArrowLeft: () => player.go(player.now - far), ArrowRight: () => player.go(player.now + far), ",": () => player.step(-1),
      ".": () => player.step(1), Home: () => player.go(0), End: () => this.goTo(1), "/": () => this.$("needle").focus(), n: () => this.hit(1),
      N: () => this.hit(-1), "[": () => this.marker(-1), "]": () => this.marker(1), "<": () => this.faster(-1), ">": () => this.faster(1), s: () => this.$("skip").click(),
      "?": () => this.$("keys").toggleAttribute("open"),
    };
  }

  /** Goes to a part of the whole time, as soon as that is known. */
  async goTo(part) {
    if (!this.player.isWhole) await this.host.loaded;
    this.player.go(this.line.duration * part);
  }

  /** Goes to the next speed, or to the one before. */
  faster(by) {
    const speeds = [...this.$("speed").options].map((option) => Number(option.value)), at = speeds.indexOf(this.player.speed) + by;
    this.setSpeed(speeds[Math.max(0, Math.min(speeds.length - 1, at))]);
    this.say(`Speed ${this.player.speed}`);
  }

  /** Makes the text larger or smaller. */
  zoom(by) {
    const at = SCALES.indexOf(this.scale) + by;
    this.scale = SCALES[Math.max(0, Math.min(SCALES.length - 1, at))];
    this.$("screen").style.setProperty("--scale", this.scale);
    this.say(`Text ${this.scale * 100} %`);
  }

  /** Fills the display, or stops that. */
  async fill() {
    try {
      await (document.fullscreenElement ? document.exitFullscreen() : this.host.requestFullscreen());
    } catch {
      this.say("The browser allows no full screen here.");
    }
  }

  text() {
    return this.line.terminal.text().trimEnd() + "\n";
  }

  /** Copies the text of the screen. If the browser doesn't allow that, it selects the text. */
  async copyText() {
    if (await copied(this.text())) return this.say("The text is copied");
    selectionIn(this.$("screen")).selectAllChildren(this.$("screen"));
    this.say("The browser allows no copying here. The text is selected.");
  }

  /** Copies a link to this moment or search. If the browser doesn't allow that, it shows the link. */
  async copyLink() {
    const link = this.link();
    this.say((await copied(link)) ? "The link is copied" : link);
  }

  savePicture() {
    save(`vt220-${rounded(this.player.now)}.svg`, "image/svg+xml", this.line.terminal.picture());
  }

  /** Adds notes, each of which isn't "". */
  addNotes(texts) {
    const list = this.$("notes").querySelector("ul");
    for (const text of texts.filter(Boolean)) list.append(Object.assign(document.createElement("li"), { textContent: text }));
    this.$("notes").hidden = list.children.length === 0;
  }

  say(text) {
    this.$("said").textContent = text;
  }

  listMarkers() {
    this.$("markers").replaceChildren();
    for (const [time, label] of this.options.markers) {
      const button = document.createElement("button");
      button.textContent = `${clock(time)} ${label}`.trim();
      this.on(button, "click", () => this.player.go(time));
      this.$("markers").append(button);
    }
    this.$("markers").hidden = this.options.markers.length === 0;
  }

  draw() {
    const { player, line } = this, time = clock(player.now), whole = player.isWhole ? clock(line.duration) : "…";
    this.screen.draw(line.seekTime(player.now));
    this.$("time").value = player.now;
    this.$("time").setAttribute("aria-valuetext", `${time} of ${whole}`);
    this.$("clock").textContent = `${time} / ${whole}`;
    this.$("play").textContent = player.isPlaying ? "Pause" : "Play";
    this.$("stage").classList.toggle("playing", player.isPlaying || this.options.isLive);
    this.drawTyped();
    this.sound?.follow(player);
    this.drawn();
  }

  /** Shows the keys that were typed last, if that is wanted. */
  drawTyped() {
    const names = this.options.keystrokes ? this.player.typed(TYPED_FOR).flatMap(keyNames) : [], place = this.$("typed");
    place.replaceChildren(...names.slice(-MOST_TYPED).map((name) => Object.assign(document.createElement("kbd"), { textContent: name })));
    place.hidden = names.length === 0;
  }

  /** Shows what was typed, or no longer does. */
  showKeystrokes(isShown) {
    this.options.keystrokes = isShown;
    this.drawTyped();
  }

  /** Draws the spans of the search, and the markers, under the bar. */
  drawMarks() {
    const canvas = this.$("marks"), context = canvas.getContext("2d"), { duration } = this.line;
    const place = (time) => (Math.min(time, duration) / (duration || 1)) * canvas.width;
    canvas.width = canvas.clientWidth;
    canvas.height = canvas.clientHeight;
    context.fillStyle = getComputedStyle(canvas).color;
    for (const span of this.player.spans) context.fillRect(place(span.time), 0, Math.max(2, place(span.until) - place(span.time)), canvas.height / 2);
    for (const [time] of this.options.markers) context.fillRect(place(time) - 1, canvas.height / 2, 2, canvas.height / 2);
  }
}
