// attributes.js: the attributes of <vt220-player>.
import { valueIn } from "./reading.js";
import { seconds } from "./view.js";

const isCount = (value) => Number.isInteger(value) && value >= 0;
const isMarker = (value) => Array.isArray(value) && value.length === 2 && Number.isFinite(value[0]) && typeof value[1] === "string";

/** Returns the markers of a text in JSON, or undefined. */
function markersIn(text) {
  const value = valueIn(text), made = Array.isArray(value) ? value.map((marker) => (typeof marker === "number" ? [marker, ""] : marker)) : [null];
  return made.every(isMarker) ? made : undefined;
}

// The forms of attributes: what is read of one, or undefined, what it has to be, and how it is written.
const FLAG = { read: () => true, write: (value) => (value ? "" : null) }, TEXT = { read: String, write: String };
const number = (holds, what, of = Number) => ({ read: (text) => (text !== "" && holds(of(text)) ? of(text) : undefined), what, write: String });
const choice = (...words) => ({ read: (text) => words.find((word) => word === text), what: `one of ${words.join(", ")}`, write: String });
const TIME = number((value) => value >= 0 && value < Infinity, "a time, as 12.5 or 1:30", seconds), SPEED = number((value) => value > 0 && value < Infinity, "a number above 0");
const PAUSE = number((value) => value >= 0, "a number of seconds"), COUNT = number(isCount, "a whole number of 0 or more");
const LOOP = { read: (text) => text === "" || COUNT.read(text), what: "empty or a number of times", write: (value) => (value === true ? "" : value === false ? null : String(value)) };
const MARKERS = { read: markersIn, what: 'a list in JSON, as [5, [25, "label"]]', write: JSON.stringify };

// The attributes: the property and the option of each, and its form. The two of the size make no option by themselves.
export const ATTRIBUTES = {
  start: ["startAt", "start", TIME], poster: ["poster", "poster", TIME], speed: ["speed", "speed", SPEED], "idle-limit": ["idleTimeLimit", "pause", PAUSE],
  autoplay: ["autoPlay", "autoplay", FLAG], loop: ["loop", "loop", LOOP], markers: ["markers", "markers", MARKERS], "pause-on-markers": ["pauseOnMarkers", "stops", FLAG],
  encoding: ["encoding", "encoding", choice("dec", "utf-8")], terminal: ["terminal", "terminal", choice("vt220", "xterm")], rows: ["rows", null, COUNT], cols: ["cols", null, COUNT],
  links: ["links", "links", FLAG], fit: ["fit", "fit", choice("width", "height", "both")], keystrokes: ["keystrokes", "keystrokes", FLAG], "audio-url": ["audioUrl", "audio", TEXT],
};
// The attributes of which nothing is done if they change, and those by which the recording is then read again.
export const AT_FIRST = ["autoplay", "fit"];
export const AGAIN = ["encoding", "terminal", "rows", "cols", "links", "audio-url"];

/** Returns what is wrong with the value of an element's attribute, or null. */
export function faultOf(element, name) {
  const text = element.getAttribute(name), [, , { read, what }] = ATTRIBUTES[name];
  return text === null || read(text) !== undefined ? null : `${name}="${text}" isn't ${what}`;
}
