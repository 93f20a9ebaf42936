// look.js: what the element <vt220-player> consists of, and its style. A page sets the custom properties that begin with --vt220-.

const HTML = `
<div id="stage"><div id="screen" role="group" tabindex="0" aria-label="Terminal screen"></div><div id="typed" hidden></div></div>
<fieldset id="controls" role="none" disabled>
<div class="bar timed">
<button id="play" aria-keyshortcuts="Space">Play</button>
<div class="wide"><input id="time" type="range" min="0" step="any" value="0" aria-label="Time"><canvas id="marks" aria-hidden="true"></canvas></div>
<span id="clock"></span>
</div>
<div class="bar">
<button id="back" class="timed" aria-label="One chunk back" aria-keyshortcuts=",">◂</button>
<button id="forth" class="timed" aria-label="One chunk forth" aria-keyshortcuts=".">▸</button>
<label class="timed">Speed <select id="speed"></select></label>
<label class="timed"><input id="skip" type="checkbox" checked> Skip pauses</label>
<button id="smaller" aria-label="Smaller text" aria-keyshortcuts="-">A−</button>
<button id="larger" aria-label="Larger text" aria-keyshortcuts="+">A+</button>
<button id="copy">Copy text</button>
<button id="picture">Save picture</button>
<button id="link">Copy link</button>
<button id="full" aria-keyshortcuts="F">Full screen</button>
</div>
<form id="search" class="bar timed" role="search">
<div class="wide"><input id="needle" type="search" placeholder="When was this on the screen?" aria-label="Search all time" aria-keyshortcuts="/" autocomplete="off"></div>
<button id="find">Search</button>
<button id="previous" type="button" aria-label="Previous time on the screen" aria-keyshortcuts="Shift+N">↑</button>
<button id="next" type="button" aria-label="Next time on the screen" aria-keyshortcuts="N">↓</button>
<label><input id="case" type="checkbox"> Match case</label>
<label><input id="expression" type="checkbox"> Expression</label>
</form>
</fieldset>
<p id="said" role="status">Loading</p>
<div id="markers" role="group" aria-label="Markers" hidden></div>
<div id="notes" role="note" aria-label="What a VT220 can't show" hidden>What isn't shown:<ul></ul></div>
<details id="keys" class="timed"><summary>Keys</summary><p><kbd>Space</kbd>, or a click on the screen, plays and pauses. <kbd>←</kbd> <kbd>→</kbd> go 5 seconds, and with <kbd>Shift</kbd> a tenth, <kbd>,</kbd> <kbd>.</kbd> a chunk, <kbd>Home</kbd> <kbd>End</kbd> to the ends,
<kbd>0</kbd> to <kbd>9</kbd> to a tenth, <kbd>[</kbd> <kbd>]</kbd> to a marker. <kbd>&lt;</kbd> <kbd>&gt;</kbd> change the speed, <kbd>s</kbd> skips pauses, <kbd>+</kbd> <kbd>-</kbd> change the size of the text, <kbd>f</kbd> fills the display. <kbd>/</kbd> searches,
<kbd>n</kbd> <kbd>N</kbd> go through what was found, <kbd>Esc</kbd> goes back to the screen, and <kbd>?</kbd> shows these keys.</p></details>
`;

// A page with the policy `require-trusted-types-for 'script'` takes markup from a policy of a name alone.
export const MARKUP = globalThis.trustedTypes?.createPolicy("vt220-player", { createHTML: () => HTML }).createHTML("") ?? HTML;

export const STYLE = `
:host { --columns: 80; --rows: 24; display: block; container-type: inline-size; color-scheme: light dark; --ink: var(--vt220-ink, #1a1a1a); --ground: var(--vt220-ground, #ffffff); --line: var(--vt220-line, #767676); --accent: var(--vt220-accent, #0b57d0);
  --spot: var(--vt220-spot, #b06000); color: var(--ink); font: 15px/1.45 system-ui, "DejaVu Sans", sans-serif; }
@media (prefers-color-scheme: dark) { :host { --ink: var(--vt220-ink, #e4e4e4); --ground: var(--vt220-ground, #16181b); --line: var(--vt220-line, #8a8f98); --accent: var(--vt220-accent, #8ab4f8); --spot: var(--vt220-spot, #ffc04d); } }
:host([hidden]) { display: none; }
* { box-sizing: border-box; }
#stage { position: relative; }
/* The text fills the width, but at the scale 1 it is never smaller than the least size: then the screen scrolls. */
#screen { --least: 12px; --wide: calc(100cqw / (var(--columns) * .602 + 1.4)); --high: calc((100cqh - 1px) / (var(--rows) * 1.17 + 1.2)); --size: var(--wide); --glass: var(--vt220-background, #10140f); --glow: var(--vt220-foreground, #b8e0b0); --bright: var(--vt220-bright, #f0fff0); background: var(--glass); color: var(--glow); padding: .6em; border-radius: 6px;
  overflow: auto hidden; outline-offset: 3px; font: calc(max(var(--vt220-least, var(--least)), var(--size)) * var(--scale, 1)) / 1.17 var(--vt220-font, "DejaVu Sans Mono", Menlo, Consolas, "Liberation Mono", monospace);
  font-variant-ligatures: none; cursor: text; scrollbar-color: var(--glow) var(--glass); min-height: calc(var(--rows) * 1.17em + 1.2em); }
#screen.reversed { --glass: var(--vt220-foreground, #b8e0b0); --glow: var(--vt220-background, #10140f); --bright: #000000; }
#screen div { white-space: pre; height: 1.17em; width: max-content; min-width: 100%; }
#screen .b { color: var(--bright); font-weight: bold; }
#screen .u { text-decoration: underline; }
#screen .r { background: var(--glow); color: var(--glass); }
#screen .b.r { background: var(--bright); }
#screen .k { animation: blink 1s steps(2, jump-none) infinite paused; }
.playing #screen .k { animation-play-state: running; }
#screen .c { background: var(--vt220-cursor, #5c8f55); color: #10140f; outline: 1px solid currentColor; outline-offset: -1px; }
#screen mark, #screen mark[class] { background: var(--vt220-mark, #ffd54a); color: #000000; }
/* A sign is drawn over its text, which isn't seen. Scan line 5 of 9 is in the middle. */
#screen .sign { display: inline-block; position: relative; width: 1ch; height: 1.17em; vertical-align: top; overflow: hidden; -webkit-text-fill-color: transparent; }
#screen .sign::before, #screen .sign::after { position: absolute; -webkit-text-fill-color: currentColor; line-height: 1; }
#screen .scan::before { content: ""; left: 0; right: 0; top: calc(1.17em * (var(--scan) - .5) / 9 - .035em); border-top: .07em solid currentColor; }
#screen .query::before { content: attr(data-first); inset: 0; line-height: 1.17; text-align: center; transform: scaleX(-1); }
#screen .control::before, #screen .control::after { font-size: .58em; font-weight: bold; }
#screen .control::before { content: attr(data-first); left: 0; top: .15em; }
#screen .control::after { content: attr(data-second); right: 0; bottom: .15em; }
#typed { position: absolute; left: 0; right: 0; bottom: .8em; text-align: center; pointer-events: none; }
#typed kbd { display: inline-block; margin: .1em; padding: .1em .5em; color: #ffffff; background: #000000d0; border-color: #ffffffa0; }
/* A row that differs from that of another recording. */
#screen .d { box-shadow: inset .25em 0 var(--vt220-mark, #ffd54a); background: color-mix(in srgb, var(--vt220-mark, #ffd54a) 25%, transparent); }
.waiting::after { content: ""; position: absolute; inset: 0; margin: auto; width: 4.5rem; height: 4.5rem; border-radius: 50%; background: #000000b0; pointer-events: none; }
.waiting::before { content: ""; position: absolute; inset: 0; margin: auto; z-index: 1; width: 1.6rem; height: 1.9rem; background: #ffffff; clip-path: polygon(15% 0, 100% 50%, 15% 100%); pointer-events: none; }
/* This terminal has no colours, so reverse video is what marks a selection. It stays in print and with the system's colours. */
#screen :is(.r, mark) { -webkit-print-color-adjust: exact; print-color-adjust: exact; }
@media (forced-colors: active) {
  #screen { --glass: Canvas; --glow: CanvasText; --bright: CanvasText; border: 1px solid CanvasText; forced-color-adjust: none; }
  #screen.reversed { --glass: CanvasText; --glow: Canvas; --bright: Canvas; }
  #screen .c { background: Highlight; color: HighlightText; }
  #screen mark, #screen mark[class] { background: Mark; color: MarkText; }
  #screen .d { outline: 1px dashed currentColor; outline-offset: -1px; }
  .waiting::before, .waiting::after { forced-color-adjust: none; }
}
@keyframes blink { to { opacity: .25; } }
@media (prefers-reduced-motion: reduce) { #screen .k { animation: none; opacity: .6; } }
fieldset { border: 0; margin: 0; padding: 0; min-width: 0; }
:is(button, select, input):disabled { opacity: .5; }
.bar { display: flex; flex-wrap: wrap; gap: .5rem .45rem; align-items: center; margin: .6rem 0 0; }
.wide { flex: 1 1 9rem; min-width: 0; }
.wide input { width: 100%; }
#time { accent-color: var(--accent); margin: 0; }
#marks { display: block; width: 100%; height: 10px; color: var(--spot); }
button, select, input[type=search] { font: inherit; color: inherit; background: transparent; border: 1px solid var(--line); border-radius: 5px; padding: .2rem .45rem; min-height: 2rem; }
option { color: #1a1a1a; background: #ffffff; }
:focus-visible { outline: 2px solid var(--accent); outline-offset: 2px; }
#clock { font-variant-numeric: tabular-nums; }
#said { min-height: 1.45em; margin: .5rem 0 0; overflow-wrap: anywhere; }
#markers { display: flex; flex-wrap: wrap; gap: .4rem; margin-top: .6rem; padding: 3px; max-height: 8rem; overflow: auto; }
[hidden], #markers[hidden], .live .timed, :host([no-controls]) :is(.bar, #markers, #said, #notes, details) { display: none; }
:host([no-controls]) #screen { --vt220-least: 0px; }
/* With the attribute fit the element has the height of its place, and its screen what the controls leave of that. What is larger scrolls inside. */
:host(:is([fit=height], [fit=both])) { display: flex; flex-direction: column; height: 100%; min-height: 0; overflow: auto; }
:host(:is([fit=height], [fit=both])) #stage { flex: 1 0 8rem; container-type: size; }
:host(:is([fit=height], [fit=both])) #screen { --least: 6px; min-height: 0; max-height: 100cqh; overflow: auto; outline-offset: -3px; }
:host([fit=height]) #screen { --size: calc((100cqh - 1rem) / (var(--rows) * 1.17 + 1.2)); } /* without what a scroll bar may take */
:host([fit=both]) #screen { --size: min(var(--wide), var(--high)); }
:host(:fullscreen) { overflow: auto; padding: 1rem max(1rem, (100vw - (100vh - 12rem) * 1.75 * var(--columns) / 80 * 24 / var(--rows)) / 2); background: var(--ground); container-type: normal; }
:host(:fullscreen) #stage { container-type: inline-size; }
:host(:fullscreen) :is(details, #notes) { display: none; }
details, #notes { margin: .5rem 0 0; }
kbd { border: 1px solid var(--line); border-radius: 3px; padding: 0 .3em; font: inherit; }
@media print {
  .bar, details, #markers, #said, #typed, .waiting::before, .waiting::after { display: none; }
  #screen, #screen.reversed { --glass: #ffffff; --glow: #000000; --bright: #000000; border: 1px solid #000000; }
}
`;
