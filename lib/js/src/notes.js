// notes.js: sentences on what a VT220 can't show of a recording.

const BYTES = 1 << 20; // that are counted at once
const WAYS = ["as a similar one", "as a mirrored question mark", "not at all"];

/** Counts the characters beyond ASCII of bytes in UTF-8, a slice at a time, so that the page can be used meanwhile. */
async function counted(bytes) {
  const counts = new Map(), decoder = new TextDecoder();
  for (let at = 0; at < bytes.length; at += BYTES) {
    const text = decoder.decode(bytes.subarray(at, at + BYTES), { stream: true });
    for (const [character] of text.matchAll(/[^\0-\x9f]/gu)) counts.set(character, (counts.get(character) ?? 0) + 1);
    await new Promise((resolve) => setTimeout(resolve));
  }
  return counts;
}

/** Returns a promise of a sentence on the characters of bytes in UTF-8 that a VT220 lacks, or of "". */
export async function lacking(core, bytes) {
  const counts = [0, 0, 0];
  for (const [character, count] of await counted(bytes)) {
    const [shown = ""] = core.shown(character);
    if (shown !== character) counts[shown === "\u2426" ? 1 : shown === "" ? 2 : 0] += count;
  }
  const parts = WAYS.map((way, i) => `${counts[i]} ${way}`).filter((_, i) => counts[i] > 0);
  return parts.length === 0 ? "" : `Characters that a VT220 lacks are shown otherwise: ${parts.join(", ")}.`;
}
