"use strict";
// Each session has a terminal on this page, which plays what the server sends of it. All text of sessions goes into text nodes: never into
// markup. `vt220` is the script before this one.
const sessions = new Map();
const $ = (id) => document.getElementById(id);
let core = null, chosen = null, order = [], socket = null, mayType = false, isTyping = false, wait = 500;

// The keys that go to a session, by their names in vt220-keys.h. On a PC's keyboard, Delete is at the place of the key Remove.
const NAMED = { ArrowUp: "Up", ArrowDown: "Down", ArrowRight: "Right", ArrowLeft: "Left", Delete: "Remove" };
for (const name of ["Enter", "Backspace", "Tab", "Escape", "Home", "End", "Insert", "PageUp", "PageDown"]) NAMED[name] = name;
for (const number of [1, 2, 3, 4, 6, 7, 8, 9, 10, 11, 12]) NAMED["F" + number] = "F" + number;

function made(tag, name, ...inside) {
  const element = document.createElement(tag);
  if (name) element.className = name;
  element.append(...inside);
  return element;
}

// Returns a terminal of a size. One whose size was changed isn't a VT220's, also if it has that one's size.
function terminalOf(screen, resized) {
  const [columns, rows] = screen.split("x").map(Number), terminal = new vt220.Terminal(core, { rows, columns });
  if (resized) terminal.resize(rows, columns);
  return terminal;
}

// Its facts come with the first news of a session.
function newSession(id, { screen }) {
  const name = made("span", "name"), how = made("span", "how"), small = made("span", "small");
  small.setAttribute("aria-hidden", "true");
  const button = made("button", "", name, how, small), item = made("li", "", button);
  button.type = "button";
  button.addEventListener("click", () => choose(id));
  const session = { id, name, how, button, item, screen, resized: "", terminal: terminalOf(screen, ""), small: new vt220.Screen(core, small), facts: {} };
  sessions.set(id, session);
  return session;
}

function forget(id) {
  const session = sessions.get(id);
  sessions.delete(id);
  session.terminal.close();
  session.small.close();
}

function take(news) {
  const session = sessions.get(news.session) || newSession(news.session, news.facts);
  if (news.facts) learn(session, news.facts);
  if (news.screen) fit(session, news);
  if (news.bytes) play(session, Uint8Array.from(atob(news.bytes), (byte) => byte.charCodeAt(0)));
  if (news.facts && session.id === chosen) describe(session);
}

// Bytes that lead to a screen from any other one come with its size.
function fit(session, { screen, resized }) {
  if (screen === session.screen && resized === session.resized) return;
  session.terminal.close();
  Object.assign(session, { screen, resized, terminal: terminalOf(screen, resized) });
}

function play(session, bytes) {
  session.terminal.feed(bytes);
  session.small.draw(session.terminal);
  if (session.id !== chosen) return;
  const screen = $("screen");
  if ($("announce").checked) announce(session.terminal, screen.view.line.terminal.changedRows(session.terminal));
  screen.show(session.terminal);
}

function learn(session, facts) {
  session.facts = facts;
  session.name.textContent = facts.name;
  session.how.textContent = facts.fault ? "fault: " + facts.fault : facts.state;
  session.item.className = facts.state.split(" ")[0];
  session.button.setAttribute("aria-label", `${facts.name}, ${facts.fault ? "fault" : facts.state}`);
}

function describe(session) {
  const facts = session.facts;
  $("title").textContent = facts.name;
  $("screen").setAttribute("label", "Screen of " + facts.name);
  $("state").textContent = facts.fault || `${facts.state}, host ${facts.host}`;
  $("type").hidden = !(mayType && facts.input && facts.state === "running");
  $("announcing").hidden = false;
  if ($("type").hidden) setTyping(false);
}

let saying = null;
function announce(terminal, rows) {
  const words = rows.map((row) => terminal.rowText(row).trim()).filter(Boolean);
  if (!words.length) return;
  clearTimeout(saying);
  saying = setTimeout(() => { $("said").textContent = words.join("\n").slice(-600); }, 300);
}

function choose(id) {
  chosen = id;
  setTyping(false);
  for (const session of sessions.values()) {
    if (session.id === id) session.button.setAttribute("aria-current", "true"); else session.button.removeAttribute("aria-current");
  }
  const session = sessions.get(id);
  $("screen").show(session.terminal);
  describe(session);
}

function arrange() {
  const wanted = $("filter").value.toLowerCase();
  const shown = order.map((id) => sessions.get(id)).filter((session) => session && (session.facts.name || "").toLowerCase().includes(wanted));
  const items = shown.map((session) => session.item), list = $("sessions");
  if (items.length !== list.children.length || items.some((item, number) => list.children[number] !== item)) {
    const focused = document.activeElement;
    list.replaceChildren(...items);
    if (focused && focused !== document.activeElement && list.contains(focused)) focused.focus();
  }
  for (const id of sessions.keys()) if (!order.includes(id) && id !== chosen) forget(id);
  const count = `${shown.length} session${shown.length === 1 ? "" : "s"}`;
  if ($("summary").textContent !== count) $("summary").textContent = count;
  if (!chosen && shown.length) choose(shown[0].id);
}

function setTyping(on) {
  if (isTyping === on) return;
  isTyping = on;
  $("type").setAttribute("aria-pressed", String(on));
  $("hint").hidden = !on;
  if (on) $("screen").focus();
}

function send(what) {
  if (!socket || socket.readyState !== 1) return;
  $("problem").textContent = "";
  socket.send(JSON.stringify({ session: chosen, ...what }));
}

function pressed(event) {
  // A Mac may type a sign such as @ with Option. With Alt, letters, digits and blanks are for the browser.
  if (!isTyping || event.isComposing || event.metaKey || (event.altKey && !/^[^\w\s]$/.test(event.key))) return;
  if (event.ctrlKey && event.key === "]") {
    setTyping(false);
    $("type").focus();
  } else if (NAMED[event.key]) send({ key: NAMED[event.key] });
  else if (event.ctrlKey && event.key.length === 1 && /[a-z@\[\\\]^_ ]/i.test(event.key)) send({ key: "C-" + event.key });
  else if (!event.ctrlKey && event.key.length === 1) send({ text: event.key });
  else return;
  event.preventDefault();
}

// An address that `fleet web` prints has the token after the sign #, which no browser sends. It is this tab's from then on, and leaves the address.
// Without it the page asks for it.
function enter() {
  const found = /^#token=(.+)$/.exec(location.hash);
  if (found) {
    sessionStorage.setItem("token", decodeURIComponent(found[1]));
    history.replaceState(null, "", location.pathname);
  }
  const token = sessionStorage.getItem("token");
  $("enter").hidden = token !== null;
  if (token === null) $("token").focus();
  else connect(token);
}

function connect(token) {
  const address = new URL("live", location.href);
  address.protocol = location.protocol === "https:" ? "wss:" : "ws:";
  socket = new WebSocket(address);
  socket.addEventListener("open", () => { wait = 500; $("problem").textContent = ""; socket.send(JSON.stringify({ token })); });
  socket.addEventListener("message", (event) => {
    const said = JSON.parse(event.data);
    if ("typing" in said) mayType = said.typing;
    if (said.error) $("problem").textContent = said.error;
    (said.news || []).forEach(take);
    if (said.order) order = said.order;
    arrange();
  });
  socket.addEventListener("close", ({ code }) => {
    if (code === 4403) sessionStorage.removeItem("token");
    $("problem").textContent = code === 4403 ? "This is not the token of this page." : "No connection to fleet web; trying again.";
    setTimeout(enter, code === 4403 ? 0 : (wait = Math.min(5000, wait * 1.5)));
  });
}

$("enter").addEventListener("submit", (event) => {
  event.preventDefault();
  sessionStorage.setItem("token", $("token").value);
  $("token").value = "";
  enter();
});

$("filter").addEventListener("input", arrange);
$("type").addEventListener("click", () => setTyping(!isTyping));
// Before the player takes a key.
$("screen").addEventListener("keydown", pressed, { capture: true });
$("screen").addEventListener("paste", (event) => {
  if (isTyping) send({ text: event.clipboardData.getData("text").replace(/\r?\n/g, "\r") });
});
$("announce").addEventListener("change", () => { $("said").textContent = ""; });
$("screen").addEventListener("error", ({ detail }) => { $("problem").textContent = `No terminal can run in this browser: ${detail.error.message}`; });
$("screen").addEventListener("ready", () => vt220.Vt220Player.core.then((shared) => {
  core = shared;
  enter();
}), { once: true });
