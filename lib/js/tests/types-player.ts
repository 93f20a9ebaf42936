// Uses the types of the element; tsc --strict has to accept it, and to refuse the line after @ts-expect-error.
import { Vt220Player } from "vt220/player";

export async function use(bytes: Uint8Array): Promise<number | null> {
  const player: Vt220Player = document.createElement("vt220-player");
  for (const source of ["x.json", new Blob([]), bytes, { bytes, times: [0], ends: [bytes.length] }, null]) player.src = source;
  Object.assign(player, { startAt: 3, poster: null, autoPlay: true });
  player.loop = 3;
  for (const timing of ["x.timing", new Blob([]), bytes, null]) player.timing = timing;
  Object.assign(player, { fit: "both", keystrokes: true, audioUrl: "x.opus" });
  Vt220Player.reader = fetch("reader.wasm");
  player.markers = [1, [2, "two"]];
  Object.assign(player, { rows: 40, cols: null });
  player.rows = 30;
  player.resize(30, 100);
  Vt220Player.wasm = fetch("vt220.wasm");
  await player.loaded;
  await player.seek({ marker: "next" });
  await player.seek("50%");
  // @ts-expect-error: no such direction
  await player.seek({ marker: "last" });
  player.addEventListener("marker", ({ detail }) => `${detail.index} ${detail.label.length} ${detail.time}`);
  player.addEventListener("error", function ({ detail }) { this.getDuration(); return detail.reason.length; });
  player.addEventListener("keydown", ({ key }) => key.length);
  // @ts-expect-error: a seek has no label
  player.addEventListener("seeked", ({ detail }) => detail.label);
  player.feed(bytes);
  const [span] = await player.search("x");
  return player.getDuration() ?? span?.time ?? null;
}
