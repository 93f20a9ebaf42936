// typed.js: the names of the keys that were typed.

const NAMES = {
  "\r": "Enter", "\n": "Enter", "\t": "Tab", "\x1b": "Esc", "\x7f": "Backspace", "\b": "Backspace", " ": "Space", "\x1b[A": "↑", "\x1b[B": "↓", "\x1b[C": "→", "\x1b[D": "←",
  "\x1bOA": "↑", "\x1bOB": "↓", "\x1bOC": "→", "\x1bOD": "←", "\x1b[H": "Home", "\x1b[F": "End", "\x1b[1~": "Home", "\x1b[2~": "Insert", "\x1b[3~": "Delete", "\x1b[4~": "End",
  "\x1b[5~": "Page Up", "\x1b[6~": "Page Down",
};

/** Returns the name of what a key sent: a character, a control character, or a sequence. */
function nameOf(key) {
  if (key in NAMES) return NAMES[key];
  if (key.startsWith("\x1b")) return `Esc ${key.slice(1)}`;
  return key < " " ? `Ctrl+${String.fromCharCode(key.charCodeAt(0) + 0x40)}` : key;
}

/** Returns the names of the keys that a text was typed by. A sequence of a key begins with CSI or SS3. */
export function keyNames(text) {
  return [...text.matchAll(/\x1b(?:\[[0-?]*[ -/]*|O)[@-~]|./gsu)].map(([key]) => nameOf(key));
}
