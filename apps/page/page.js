// page.js: the page of a recording, or of two side by side. The players are elements, and each has its recording inside.
import "../../lib/js/src/player.js";
import { clock } from "../../lib/js/src/view.js";

const players = [...document.querySelectorAll("vt220-player")];
const $ = (id) => document.getElementById(id);

/** Returns a promise of the view of a player, or of null if it can't begin. */
function ready(player) {
  return new Promise((resolve) => {
    player.addEventListener("ready", () => resolve(player.view));
    player.addEventListener("error", () => resolve(null));
  });
}

/** Passes the keys that no element takes to the player. */
function share([player]) {
  document.addEventListener("keydown", (event) => event.target === document.body && player.view?.key(event));
}

const TOLD = { ready: "ready", play: "play", pause: "pause", ended: "ended", seeked: "seek", marker: "marker" };

/** Tells the page that embeds this one of events, and does what it asks for. */
function embed(player) {
  const tell = (event, time) => parent.postMessage({ vt220: event, time, duration: player.getDuration() }, "*");
  for (const [event, name] of Object.entries(TOLD)) player.addEventListener(event, ({ detail }) => tell(name, detail.time));
  const acts = {
    play: () => player.play(), pause: () => player.pause(), seek: ({ time }) => player.seek(time), search: ({ text }) => player.search(String(text)),
    marker: ({ by }) => player.view?.marker(by), time: () => tell("time", player.getCurrentTime()),
  };
  addEventListener("message", ({ source, data }) => source === parent && Object.hasOwn(acts, data?.vt220) && acts[data.vt220](data));
}

/** Lets two players go together: the times of both count from the first difference of their screens. */
function couple(players, from) {
  let isFollowing = false;
  const follow = (act) => (event) => {
    if (isFollowing) return;
    isFollowing = true;
    act(event);
    isFollowing = false;
  };
  players.forEach((player, i) => {
    const other = players[1 - i].view.player;
    player.addEventListener("seeked", follow(({ detail }) => other.go(detail.time - from[i] + from[1 - i])));
    player.addEventListener("play", follow(() => other.isPlaying || players[1 - i].view.toggle()));
    player.addEventListener("pause", follow(() => other.pause()));
  });
}

/** Marks the rows in which two players differ, and shows where they first do. */
async function compare(players) {
  await Promise.all(players.map((player) => player.loaded));
  const [a, b] = players.map((player) => player.view), found = a.line.firstDifference(b.line);
  const mark = () => {
    const rows = a.line.terminal.changedRows(b.line.terminal);
    for (const view of [a, b]) view.screen.mark(rows);
  };
  a.drawn = b.drawn = mark;
  couple(players, found === null ? [0, 0] : [found.time, found.otherTime]);
  a.player.go(found?.time ?? 0);
  $("difference").textContent = found === null ? "The screens never differ." : `The screens first differ at ${clock(found.time)} of the first recording, in ${found.rows.length === 1 ? "row" : "the rows"} ${found.rows.join(", ")}.`;
  $("difference").hidden = false;
}

/** Lets the page be as wide as the screen needs, whose size may change. A template for the first size does it before. */
function fit(view) {
  const { style } = document.documentElement;
  let known = "";
  view.drawn = () => {
    const { rows, width } = view.line.terminal;
    if (known === `${rows} ${width}`) return;
    known = `${rows} ${width}`;
    style.setProperty("--rows", rows);
    style.setProperty("--columns", width);
  };
  view.drawn();
}

/** Begins the page. Its state is that of its players. */
async function begin() {
  const views = players.map(ready);
  document.documentElement.classList.toggle("two", players.length > 1);
  if (parent !== window) embed(players[0]);
  share(players);
  const opened = await Promise.all(views);
  if (opened.length === 1 && opened[0] !== null) fit(opened[0]);
  document.documentElement.classList.toggle("bare", players.every((player) => player.hasAttribute("no-controls")));
  document.documentElement.dataset.state = opened.includes(null) ? "failed" : "ready";
  if (players.length === 2 && !opened.includes(null)) await compare(players);
}

begin();
