/* The calls of vt220.h over the proved ones, core_*. This file checks the processor, makes the call that a handle's language needs, allows
 * null pointers of length 0 and the same terminal twice, doesn't write `const` handles, drops replies that nobody wants, sets reserved bytes
 * to zero, and counts the bells. */
#include "vt220.h"
#include <stdlib.h>
#include <string.h>
#if defined __x86_64__
#include <cpuid.h>
#endif

/* A handle in the form of the proved calls. They empty it while they work and then put a block back, so each works on a copy. A handle
 * that isn't `const` takes over what is in the copy then. For a `const` one it must be the block of before (lib/c/tests/stays). */
typedef struct handle {
    void *at;
    bool is_open;
} handle;

/* What is pending of UTF-8: the bytes of a character that isn't complete, and how many there are. */
typedef struct utf8 {
    uint8_t bytes[3], len;
} utf8;

uint32_t core_version(void);
uint32_t core_open(handle *t, size_t rows, size_t columns);
uint32_t core_resized(handle *resized, handle *t, size_t rows, size_t columns);
void core_close(handle *t);
uint32_t core_scratch_open(handle *s);
uint32_t core_scratch_fit(handle *s, handle *t);
void core_scratch_close(handle *s);
size_t core_feed(handle *t, const uint8_t *bytes, size_t len, bool counts, uint8_t *reports, size_t size, size_t *written, size_t *bells);
size_t core_feed_byte(handle *t, uint8_t byte, uint8_t *reports, size_t size, size_t *written);
size_t core_feed_log(handle *t, handle *s, const uint8_t *bytes, size_t len, bool counts, uint8_t *reports, size_t size, size_t *written,
                     uint8_t *lines, size_t lines_size, size_t *lines_written, size_t *bells);
size_t core_feed_utf8(handle *t, utf8 *u, const uint8_t *bytes, size_t len, bool counts, uint8_t *reports, size_t size,
                      size_t *written, size_t *bells);
size_t core_feed_byte_utf8(handle *t, utf8 *u, uint8_t byte, uint8_t *reports, size_t size, size_t *written);
size_t core_feed_log_utf8(handle *t, handle *s, utf8 *u, const uint8_t *bytes, size_t len, bool counts, uint8_t *reports, size_t size,
                          size_t *written, uint8_t *lines, size_t lines_size, size_t *lines_written, size_t *bells);
uint32_t core_xterm_open(handle *x, size_t rows, size_t columns);
uint32_t core_xterm_resized(handle *resized, handle *t, handle *x, size_t rows, size_t columns);
void core_xterm_close(handle *x);
bool core_xterm_alternate(handle *x);
bool core_xterm_bracketed_paste(handle *x);
bool core_xterm_pending(handle *x, utf8 *u);
uint32_t core_xterm_copy(handle *to, handle *from);
uint32_t core_xterm_repaint(handle *t, handle *x, handle *s, uint8_t *out, size_t size, size_t *written);
size_t core_feed_log_xterm(handle *t, handle *s, handle *x, const uint8_t *bytes, size_t len, bool counts, uint8_t *reports, size_t size,
                           size_t *written, uint8_t *lines, size_t lines_size, size_t *lines_written, size_t *bells);
size_t core_feed_xterm(handle *t, handle *x, const uint8_t *bytes, size_t len, bool counts, uint8_t *reports, size_t size, size_t *written,
                       size_t *bells);
size_t core_feed_byte_xterm(handle *t, handle *x, uint8_t byte, uint8_t *reports, size_t size, size_t *written);
uint32_t core_shown(uint32_t character, size_t *cells);
uint32_t core_reset(handle *t);
uint32_t core_copy(handle *to, handle *from);
uint32_t core_text(handle *t, handle *s, uint8_t *out, size_t size, size_t *written);
uint32_t core_row_text(handle *t, handle *s, size_t row, uint8_t *out, size_t size, size_t *written);
uint32_t core_show(handle *t, handle *s, uint8_t *out, size_t size, size_t *written);
uint32_t core_picture(handle *t, handle *s, uint8_t *out, size_t size, size_t *written);
uint32_t core_draw(handle *t, handle *s, uint8_t *out, size_t size, size_t *written);
uint32_t core_draw_from(handle *shown, handle *to, handle *s, uint8_t *out, size_t size, size_t *written);
uint32_t core_repaint(handle *t, handle *s, uint8_t *out, size_t size, size_t *written);
uint32_t core_update(handle *shown, handle *to, handle *s, uint8_t *out, size_t size, size_t *written);
uint32_t core_row_changes(handle *shown, handle *to, size_t row, bool *changed, size_t size);
size_t core_row(handle *t, size_t row, vt220_cell *cells, size_t size);
size_t core_rows(handle *t);
size_t core_width(handle *t);
size_t core_limit(handle *t, uint32_t what);
bool core_cursor(handle *t, vt220_cursor_place *cursor);
bool core_margins(handle *t, vt220_margin_rows *margins);
bool core_modes(handle *t, vt220_mode_set *modes);
bool core_brush(handle *t, vt220_brush_look *brush);
bool core_sets(handle *t, vt220_graphic_sets *sets);
size_t core_stops(handle *t, bool *stops, size_t size);
bool core_saved(handle *t, vt220_saved_record *saved);
bool core_is_between(handle *t);
uint32_t core_held_kind(handle *t);
bool core_same_state(handle *a, handle *b);

/* A handle for another language than a VT220's bytes points to this block, and its `bells` are IS_SESSION. No count comes that far. */
typedef struct session {
    handle terminal, pages; /* `pages` is what a terminal needs under TERM=xterm, and otherwise closed */
    uint64_t bells;
    uint32_t language; /* VT220_UTF8 or VT220_XTERM */
    utf8 pending;      /* under TERM=xterm it is with the pages */
} session;

#define IS_SESSION (~(uint64_t)0)

/* A terminal of the caller begins with its handle. So vt220_feed makes no copy. */
_Static_assert(offsetof(vt220, terminal) == offsetof(handle, at) && offsetof(vt220, is_open) == offsetof(handle, is_open), "one form");
_Static_assert(sizeof(handle) <= offsetof(vt220, bells), "a handle ends before the bells");

/* Stand for a null pointer of length 0. */
static uint8_t nothing;
static bool no_mark;

/* The most bytes of UTF-8 that are searched for BEL and then processed: few enough to stay in the nearest cache. A test has smaller
 * blocks. */
#ifndef BLOCK
#define BLOCK 16384
#endif

/* The bytes of replies that are written and dropped at once: enough for speed, and few enough for the stack that the header names. */
enum { REPLIES = 2560, BEL = 0x07, FIRST = 8 };

/* The columns of a VT220 at power-up. */
enum { NARROW = 80 };

/* Each call that feeds has a copy of such a function, without what this call doesn't need. So an input of one byte costs less. */
#define INLINED __attribute__((always_inline)) static inline

/* Returns the block of an open handle for another language, or null. */
static session *session_of(const vt220 *t) { return t->is_open && t->bells == IS_SESSION ? (session *)t->terminal : NULL; }

static bool is_xterm(const session *by) { return by != NULL && by->pages.is_open; }

static handle own(const vt220 *t) {
    const session *by = session_of(t);
    return by != NULL ? by->terminal : (handle){t->terminal, t->is_open};
}

static handle own_scratch(const vt220_scratch *s) { return (handle){s->room, s->is_open}; }

/* Stores what a call left in the copy of a handle. No call opens or closes one. */
static void keep(vt220 *t, handle h) {
    session *by = session_of(t);
    if (by != NULL) by->terminal = h;
    else t->terminal = h.at;
}

static void keep_scratch(vt220_scratch *s, handle h) { s->room = h.at, s->is_open = h.is_open; }

static bool is_same(const vt220 *a, const vt220 *b) { return a->is_open && b->is_open && a->terminal == b->terminal; }

/* Returns whether the processor has all of x86-64-v2, which the proved calls are compiled for. */
static bool is_supported(void) {
#if defined __x86_64__
    unsigned a, b, c = 0, d, low = 0;
    const unsigned needed = bit_SSE3 | bit_SSSE3 | bit_CMPXCHG16B | bit_SSE4_1 | bit_SSE4_2 | bit_POPCNT;
    if (!__get_cpuid(1, &a, &b, &c, &d) || !__get_cpuid(0x80000001, &a, &b, &low, &d)) return false;
    return (c & needed) == needed && (low & bit_LAHF_LM) != 0;
#else
    return true;
#endif
}

uint32_t vt220_version(void) { return core_version(); }

const char *vt220_status_text(uint32_t status) {
    static const char *const texts[] = {
        "success",
        "the allocation failed",
        "the handle is already open",
        "a handle is closed",
        "a terminal is inside a sequence",
        "the output buffer is too small",
        "the processor is older than x86-64-v2",
        "there is no such row",
        "there is no such key",
        "no key sends this character",
        "the terminal has another language",
        "two handles have different sizes",
        "there is no such language",
        "there is no such size",
    };
    return status < sizeof texts / sizeof texts[0] ? texts[status] : "unknown status";
}

/* Returns the status of a call that makes a terminal of a size: the core's has one number for no such size and for two sizes. */
static uint32_t of_one_size(uint32_t status) { return status == VT220_SIZE ? VT220_NO_SIZE : status; }

/* Opens a terminal of a size for a VT220's bytes. */
static uint32_t open_size(vt220 *t, size_t rows, size_t columns) {
    if (t->is_open) return VT220_IN_USE;
    if (!is_supported()) return VT220_UNSUPPORTED;
    handle h = {NULL, false};
    uint32_t status = of_one_size(core_open(&h, rows, columns));
    if (status == VT220_OK) *t = (vt220){h.at, h.is_open, 0};
    return status;
}

uint32_t vt220_open(vt220 *t) { return open_size(t, VT220_ROWS, NARROW); }

/* Gives an open terminal a language other than a VT220's bytes. Closes it if the allocation fails. */
static uint32_t speak(vt220 *t, uint32_t language, size_t rows, size_t columns) {
    handle pages = {NULL, false};
    session *by = malloc(sizeof *by);
    if (by == NULL || (language == VT220_XTERM && core_xterm_open(&pages, rows, columns) != VT220_OK)) {
        free(by);
        vt220_close(t);
        return VT220_MEMORY;
    }
    *by = (session){{t->terminal, true}, pages, 0, language, {{0}, 0}};
    *t = (vt220){by, true, IS_SESSION};
    return VT220_OK;
}

uint32_t vt220_open_as(vt220 *t, uint32_t language, size_t rows, size_t columns) {
    if (t->is_open) return VT220_IN_USE;
    if (language > (VT220_UTF8 | VT220_XTERM)) return VT220_NO_LANGUAGE;
    uint32_t status = open_size(t, rows, columns);
    if (status != VT220_OK || language == VT220_BYTES) return status;
    return speak(t, language & VT220_XTERM ? VT220_XTERM : VT220_UTF8, rows, columns);
}

void vt220_close(vt220 *t) {
    session *by = session_of(t);
    handle h = own(t);
    if (is_xterm(by)) core_xterm_close(&by->pages);
    if (h.is_open) core_close(&h);
    free(by);
    *t = (vt220){NULL, false, 0};
}

bool vt220_is_open(const vt220 *t) { return t->is_open; }

static uint32_t language_of(const vt220 *t) {
    const session *by = session_of(t);
    return by != NULL ? by->language : VT220_BYTES;
}

uint32_t vt220_scratch_open(vt220_scratch *s) {
    if (s->is_open) return VT220_IN_USE;
    if (!is_supported()) return VT220_UNSUPPORTED;
    handle h = {NULL, false};
    uint32_t status = core_scratch_open(&h);
    if (status == VT220_OK) *s = (vt220_scratch){h.at, h.is_open};
    return status;
}

uint32_t vt220_scratch_fit(vt220_scratch *s, const vt220 *t) {
    handle h = own(t), room = own_scratch(s);
    if (!h.is_open) return VT220_CLOSED;
    uint32_t status = core_scratch_fit(&room, &h);
    keep_scratch(s, room);
    return status;
}

void vt220_scratch_close(vt220_scratch *s) {
    handle h = own_scratch(s);
    if (h.is_open) core_scratch_close(&h);
    *s = (vt220_scratch){NULL, false};
}

bool vt220_scratch_is_open(const vt220_scratch *s) { return s->is_open; }

/* Returns what is pending of the input of a terminal. */
static utf8 pending_of(const vt220 *t) {
    const session *by = session_of(t);
    utf8 pending = {{0}, 0};
    if (by != NULL) pending = by->pending;
    if (is_xterm(by)) {
        handle pages = by->pages;
        core_xterm_pending(&pages, &pending);
    }
    return pending;
}

bool vt220_language(const vt220 *t, vt220_language_state *language) {
    if (!t->is_open) return false;
    utf8 pending = pending_of(t);
    vt220_language_state now = {.language = language_of(t), .pending_len = pending.len};
    memcpy(now.pending, pending.bytes, sizeof now.pending);
    if (is_xterm(session_of(t))) {
        handle pages = session_of(t)->pages;
        now.alternate = core_xterm_alternate(&pages);
        now.bracketed_paste = core_xterm_bracketed_paste(&pages);
    }
    *language = now;
    return true;
}

/* A buffer of the caller, and how many of its bytes are filled. */
typedef struct buffer {
    uint8_t *at;
    size_t size, filled;
} buffer;

static buffer empty(uint8_t *at, size_t size) { return at != NULL ? (buffer){at, size, 0} : (buffer){&nothing, 0, 0}; }

/* The bytes at the front of an input that are processed at once, and whether they may ring. */
typedef struct part {
    size_t len;
    bool rings;
} part;

/* Returns the bytes of UTF-8 before the next BEL, or the BELs at the front: the core plays bytes one by one if it counts their bells.
 * The first bytes are searched here, since a call of memchr costs more. */
INLINED part next_part(const uint8_t *bytes, size_t len) {
    size_t most = len < BLOCK ? len : BLOCK, at = 0;
    bool rings = bytes[0] == BEL;
    while (at < most && (rings || at < FIRST) && (bytes[at] == BEL) == rings) at++;
    if (rings || at < FIRST) return (part){at, rings};
    const uint8_t *bell = memchr(bytes + at, BEL, most - at);
    return (part){bell != NULL ? (size_t)(bell - bytes) : most, false};
}

/* What an input is played on: a terminal, its block if it has one, and a scratch buffer for a log or null. */
typedef struct player {
    vt220 *t;
    session *by;
    vt220_scratch *s;
} player;

/* Plays a part of an input by the call for the language. Returns how many bytes it has played. */
INLINED size_t feed_part(session *by, handle *h, const uint8_t *bytes, part next, uint8_t *out, size_t size, size_t *sent, size_t *rung) {
    if (by == NULL) return core_feed(h, bytes, next.len, next.rings, out, size, sent, rung);
    if (!is_xterm(by)) return core_feed_utf8(h, &by->pending, bytes, next.len, next.rings, out, size, sent, rung);
    return core_feed_xterm(h, &by->pages, bytes, next.len, next.rings, out, size, sent, rung);
}

/* Does the same with a log. */
INLINED size_t log_part(session *by, handle *h, handle *room, const uint8_t *bytes, part next, uint8_t *out, size_t size, size_t *sent, uint8_t *to,
                        size_t free, size_t *off, size_t *rung) {
    if (by == NULL) return core_feed_log(h, room, bytes, next.len, next.rings, out, size, sent, to, free, off, rung);
    if (!is_xterm(by)) return core_feed_log_utf8(h, room, &by->pending, bytes, next.len, next.rings, out, size, sent, to, free, off, rung);
    return core_feed_log_xterm(h, room, &by->pages, bytes, next.len, next.rings, out, size, sent, to, free, off, rung);
}

/* Plays a part of an input. Adds to what the buffers have. */
INLINED size_t process_part(player on, const uint8_t *bytes, part next, buffer *replies, buffer *lines) {
    uint8_t *out = replies->at + replies->filled;
    size_t size = replies->size - replies->filled, sent = 0, off = 0, rung = 0, now;
    handle h = own(on.t);
    if (on.s == NULL) {
        now = feed_part(on.by, &h, bytes, next, out, size, &sent, &rung);
    } else {
        handle room = own_scratch(on.s);
        now = log_part(on.by, &h, &room, bytes, next, out, size, &sent, lines->at + lines->filled, lines->size - lines->filled, &off, &rung);
        keep_scratch(on.s, room);
        lines->filled += off;
    }
    keep(on.t, h);
    replies->filled += sent;
    *(on.by != NULL ? &on.by->bells : &on.t->bells) += rung;
    return now;
}

/* Processes input as far as the buffers have capacity. With a scratch buffer it writes the lines that scroll off to `lines`. The core
 * counts the bells of a VT220's bytes at no cost, so these aren't searched. */
INLINED size_t process(player on, const uint8_t *bytes, size_t len, buffer *replies, buffer *lines) {
    size_t taken = 0;
    while (taken < len) {
        part next = on.by != NULL ? next_part(bytes + taken, len - taken) : (part){len - taken, true};
        size_t now = process_part(on, bytes + taken, next, replies, lines);
        taken += now;
        if (now < next.len) break;
    }
    return taken;
}

/* Does the same and drops the replies. It isn't inlined, so that no other call has this buffer on its stack. */
__attribute__((noinline)) static size_t process_unanswered(player on, const uint8_t *bytes, size_t len, buffer *lines) {
    uint8_t dropped[REPLIES];
    size_t taken = 0, now = 1;
    while (now > 0 && taken < len) {
        buffer replies = empty(dropped, sizeof dropped);
        now = process(on, bytes + taken, len - taken, &replies, lines);
        taken += now;
    }
    return taken;
}

/* Processes input and writes the replies, or drops them if nobody wants them. */
INLINED size_t feed(player on, const uint8_t *bytes, size_t len, uint8_t *reports, size_t size, size_t *written, buffer *lines) {
    buffer replies = empty(reports, size);
    size_t taken = 0;
    if (on.t->is_open && (on.s == NULL || on.s->is_open))
        taken = written == NULL ? process_unanswered(on, bytes, len, lines) : process(on, bytes, len, &replies, lines);
    if (written != NULL) *written = replies.filled;
    return taken;
}

/* Does what vt220_feed does, in any case. It isn't inlined, so that the frequent cases save no registers for it. */
__attribute__((noinline)) static size_t feed_any(vt220 *t, const uint8_t *bytes, size_t len, uint8_t *reports, size_t size, size_t *written) {
    return feed((player){t, session_of(t), NULL}, bytes, len, reports, size, written, NULL);
}

/* Does it for an open terminal and input that isn't empty, if the replies are wanted. */
__attribute__((noinline)) static size_t feed_counting(vt220 *t, const uint8_t *bytes, size_t len, uint8_t *reports, size_t size,
                                                      size_t *written) {
    size_t rung, taken = core_feed((handle *)t, bytes, len, true, reports, size, written, &rung);
    t->bells += rung;
    return taken;
}

/* Does it for an open terminal and one byte that isn't BEL, by the call for the language. It works on the handles in place. */
INLINED size_t feed_byte(vt220 *t, uint8_t byte, uint8_t *reports, size_t size, size_t *written) {
    session *by = session_of(t);
    if (by == NULL) return core_feed_byte((handle *)t, byte, reports, size, written);
    if (is_xterm(by)) return core_feed_byte_xterm(&by->terminal, &by->pages, byte, reports, size, written);
    return core_feed_byte_utf8(&by->terminal, &by->pending, byte, reports, size, written);
}

/* Does the same and drops the replies. */
__attribute__((noinline)) static size_t feed_byte_unanswered(vt220 *t, uint8_t byte) {
    uint8_t dropped[VT220_REPORT_LIMIT];
    size_t written;
    return feed_byte(t, byte, dropped, sizeof dropped, &written);
}

size_t vt220_feed(vt220 *t, const uint8_t *bytes, size_t len, uint8_t *reports, size_t size, size_t *written) {
    bool is_byte = len == 1 && *bytes != BEL && t->is_open;
    if (is_byte && written == NULL) return feed_byte_unanswered(t, *bytes);
    if (is_byte && reports != NULL) return feed_byte(t, *bytes, reports, size, written);
    bool is_any = !t->is_open || t->bells == IS_SESSION || reports == NULL || written == NULL;
    if (len == 0 || is_any) return feed_any(t, bytes, len, reports, size, written);
    return feed_counting(t, bytes, len, reports, size, written);
}

size_t vt220_feed_log(vt220 *t, vt220_scratch *s, const uint8_t *bytes, size_t len, uint8_t *reports, size_t size, size_t *written,
                      uint8_t *lines, size_t lines_size, size_t *lines_written) {
    buffer log = empty(lines, lines_size);
    size_t taken = feed((player){t, session_of(t), s}, bytes, len, reports, size, written, &log);
    *lines_written = log.filled;
    return taken;
}

uint32_t vt220_shown(uint32_t character, size_t *cells) {
    size_t count;
    uint32_t glyph = core_shown(character, &count);
    if (cells != NULL) *cells = count;
    return glyph;
}

uint64_t vt220_bells(const vt220 *t) {
    const session *by = session_of(t);
    return by != NULL ? by->bells : t->is_open ? t->bells : 0;
}

/* Brings what a terminal needs under TERM=xterm into its state at power-up. Only bytes do that, and these end whatever is open. */
static void reset_pages(session *by, handle *h) {
    static const uint8_t bytes[] = "\030\033[?40h\033c\033[?40l";
    uint8_t none[VT220_REPORT_LIMIT * sizeof bytes];
    size_t written, rung;
    core_feed_xterm(h, &by->pages, bytes, sizeof bytes - 1, false, none, sizeof none, &written, &rung);
}

uint32_t vt220_reset(vt220 *t) {
    session *by = session_of(t);
    handle h = own(t);
    if (!h.is_open) return VT220_CLOSED;
    if (is_xterm(by)) reset_pages(by, &h);
    if (by != NULL) by->pending = (utf8){{0}, 0};
    uint32_t status = core_reset(&h);
    keep(t, h);
    return status;
}

/* Takes over what was made for another size. What was there before is closed. */
static void take_over(vt220 *t, handle made, handle pages) {
    session *by = session_of(t);
    handle h = own(t);
    core_close(&h);
    keep(t, made);
    if (!is_xterm(by)) return;
    core_xterm_close(&by->pages);
    by->pages = pages;
}

uint32_t vt220_resize(vt220 *t, size_t rows, size_t columns) {
    session *by = session_of(t);
    handle h = own(t), made = {NULL, false}, pages = {NULL, false};
    if (!h.is_open) return VT220_CLOSED;
    uint32_t status = of_one_size(core_resized(&made, &h, rows, columns));
    if (status == VT220_OK && is_xterm(by)) status = core_xterm_resized(&pages, &h, &by->pages, rows, columns);
    if (status == VT220_OK) take_over(t, made, pages);
    else if (made.is_open) core_close(&made);
    return status;
}

/* Copies what the language of `to` keeps next to the terminal. */
static void copy_language(session *to, const vt220 *from) {
    if (is_xterm(to)) {
        handle source = session_of(from)->pages;
        core_xterm_copy(&to->pages, &source);
    } else {
        to->pending = pending_of(from);
    }
}

uint32_t vt220_copy(vt220 *to, const vt220 *from) {
    session *by = session_of(to);
    handle h = own(to), other = own(from);
    if (!h.is_open || !other.is_open) return VT220_CLOSED;
    if (is_xterm(by) && !is_xterm(session_of(from))) return VT220_LANGUAGE;
    if (is_same(to, from)) return VT220_OK;
    uint32_t status = core_copy(&h, &other);
    keep(to, h);
    if (by != NULL && status == VT220_OK) copy_language(by, from);
    return status;
}

/* A call that writes bytes by way of a scratch buffer. */
typedef uint32_t writer(handle *t, handle *s, uint8_t *out, size_t size, size_t *written);

static uint32_t write_by(writer *call, const vt220 *t, vt220_scratch *s, uint8_t *out, size_t size, size_t *written) {
    handle h = own(t), room = own_scratch(s);
    *written = 0;
    if (!h.is_open || !room.is_open) return VT220_CLOSED;
    if (out == NULL) out = &nothing, size = 0;
    uint32_t status = call(&h, &room, out, size, written);
    keep_scratch(s, room);
    return status;
}

uint32_t vt220_text(const vt220 *t, vt220_scratch *s, uint8_t *out, size_t size, size_t *written) {
    return write_by(core_text, t, s, out, size, written);
}

uint32_t vt220_show(const vt220 *t, vt220_scratch *s, uint8_t *out, size_t size, size_t *written) {
    return write_by(core_show, t, s, out, size, written);
}

uint32_t vt220_picture(const vt220 *t, vt220_scratch *s, uint8_t *out, size_t size, size_t *written) {
    return write_by(core_picture, t, s, out, size, written);
}

static uint32_t repaint_pages(const vt220 *t, vt220_scratch *s, uint8_t *out, size_t size, size_t *written) {
    handle h = own(t), pages = session_of(t)->pages, room = own_scratch(s);
    *written = 0;
    if (!room.is_open) return VT220_CLOSED;
    if (out == NULL) out = &nothing, size = 0;
    uint32_t status = core_xterm_repaint(&h, &pages, &room, out, size, written);
    keep_scratch(s, room);
    return status;
}

uint32_t vt220_repaint_as(const vt220 *t, uint32_t language, vt220_scratch *s, uint8_t *out, size_t size, size_t *written) {
    bool is_of_pages = language & VT220_XTERM;
    *written = 0;
    if (language > (VT220_UTF8 | VT220_XTERM)) return VT220_NO_LANGUAGE;
    if (is_of_pages && t->is_open && !is_xterm(session_of(t))) return VT220_LANGUAGE;
    return is_of_pages && t->is_open ? repaint_pages(t, s, out, size, written) : write_by(core_repaint, t, s, out, size, written);
}

uint32_t vt220_repaint(const vt220 *t, vt220_scratch *s, uint8_t *out, size_t size, size_t *written) {
    return vt220_repaint_as(t, language_of(t), s, out, size, written);
}

uint32_t vt220_row_text(const vt220 *t, vt220_scratch *s, size_t row, uint8_t *out, size_t size, size_t *written) {
    handle h = own(t), room = own_scratch(s);
    *written = 0;
    if (!h.is_open || !room.is_open) return VT220_CLOSED;
    if (out == NULL) out = &nothing, size = 0;
    uint32_t status = core_row_text(&h, &room, row, out, size, written);
    keep_scratch(s, room);
    return status;
}

/* Returns whether a scratch buffer has the size of a terminal. Both are open. (core_row_text looks at the sizes before it looks for the row.) */
static bool is_for(vt220_scratch *s, handle *h) {
    handle room = own_scratch(s);
    size_t written;
    uint32_t status = core_row_text(h, &room, 0, &nothing, 0, &written);
    keep_scratch(s, room);
    return status != VT220_SIZE;
}

uint32_t vt220_update(vt220 *shown, const vt220 *to, vt220_scratch *s, uint8_t *out, size_t size, size_t *written) {
    handle h = own(shown), other = own(to), room = own_scratch(s);
    *written = 0;
    if (!h.is_open || !other.is_open || !room.is_open) return VT220_CLOSED;
    if (is_xterm(session_of(shown))) return VT220_LANGUAGE;
    if (is_same(shown, to)) return !is_for(s, &h) ? VT220_SIZE : core_is_between(&h) ? VT220_OK : VT220_PARTIAL;
    if (out == NULL) out = &nothing, size = 0;
    uint32_t status = core_update(&h, &other, &room, out, size, written);
    keep(shown, h);
    keep_scratch(s, room);
    return status;
}

uint32_t vt220_draw(const vt220 *shown, const vt220 *to, vt220_scratch *s, uint8_t *out, size_t size, size_t *written) {
    if (shown == NULL) return write_by(core_draw, to, s, out, size, written);
    handle h = own(shown), other = own(to), room = own_scratch(s);
    *written = 0;
    if (!h.is_open || !other.is_open || !room.is_open) return VT220_CLOSED;
    if (is_same(shown, to)) return is_for(s, &h) ? VT220_OK : VT220_SIZE;
    if (out == NULL) out = &nothing, size = 0;
    uint32_t status = core_draw_from(&h, &other, &room, out, size, written);
    keep_scratch(s, room);
    return status;
}

uint32_t vt220_changes_of(const vt220 *shown, const vt220 *to, size_t row, bool *changed, size_t size) {
    handle h = own(shown), other = own(to);
    if (!h.is_open || !other.is_open) return VT220_CLOSED;
    if (changed == NULL) size = 0;
    if (!is_same(shown, to)) return core_row_changes(&h, &other, row, changed != NULL ? changed : &no_mark, size);
    size_t width = core_width(&other);
    if (row < 1 || row > core_rows(&other)) return VT220_NO_ROW;
    if (size < width) return VT220_ROOM;
    memset(changed, 0, width * sizeof *changed);
    return VT220_OK;
}

uint32_t vt220_row_changes(const vt220 *shown, const vt220 *to, size_t row, vt220_row_marks *marks) {
    vt220_row_marks now = {.width = vt220_width(to)};
    uint32_t status = vt220_changes_of(shown, to, row, now.changed, now.width <= VT220_COLUMNS ? now.width : 0);
    if (status == VT220_OK) *marks = now;
    return status;
}

size_t vt220_row(const vt220 *t, size_t row, vt220_cell *cells, size_t size) {
    handle h = own(t);
    size_t width = h.is_open ? core_width(&h) : 0;
    if (width == 0 || row < 1 || row > core_rows(&h) || size < width) return 0;
    memset(cells, 0, width * sizeof *cells);
    return core_row(&h, row, cells, width);
}

size_t vt220_rows(const vt220 *t) {
    handle h = own(t);
    return h.is_open ? core_rows(&h) : 0;
}

size_t vt220_width(const vt220 *t) {
    handle h = own(t);
    return h.is_open ? core_width(&h) : 0;
}

/* Returns the core's number of a limit: what a repaint and lines have at most depends on the language. */
static uint32_t limit_number(uint32_t language, uint32_t what) {
    static const uint32_t of_lines[] = {VT220_OF_ROW_TEXT, 8, 9};
    if (what == VT220_OF_LINES) return of_lines[language];
    return what == VT220_OF_REPAINT && language == VT220_XTERM ? 7 : what;
}

size_t vt220_limit(const vt220 *t, uint32_t what) {
    handle h = own(t);
    if (!h.is_open || what > VT220_OF_LINES) return 0;
    return core_limit(&h, limit_number(language_of(t), what));
}

size_t vt220_stops_of(const vt220 *t, bool *stops, size_t size) {
    handle h = own(t);
    if (!h.is_open || stops == NULL) return 0;
    return core_stops(&h, stops, size);
}

bool vt220_stops(const vt220 *t, vt220_tab_stops *stops) {
    vt220_tab_stops now = {{false}, {0}};
    if (vt220_stops_of(t, now.stop, VT220_COLUMNS) != VT220_COLUMNS) return false;
    *stops = now;
    return true;
}

/* Defines a call that writes one part of the state. */
#define PART(name, type)                               \
    bool vt220_##name(const vt220 *t, type *name) {    \
        handle h = own(t);                             \
        type now = {0};                                \
        if (!h.is_open) return false;                  \
        core_##name(&h, &now);                         \
        memset(now.reserved, 0, sizeof now.reserved);  \
        *name = now;                                   \
        return true;                                   \
    }

PART(cursor, vt220_cursor_place)
PART(margins, vt220_margin_rows)
PART(modes, vt220_mode_set)
PART(brush, vt220_brush_look)
PART(sets, vt220_graphic_sets)
PART(saved, vt220_saved_record)

bool vt220_is_between(const vt220 *t) {
    handle h = own(t);
    return h.is_open && core_is_between(&h);
}

uint32_t vt220_held_kind(const vt220 *t) {
    handle h = own(t);
    return h.is_open ? core_held_kind(&h) : VT220_HELD_NOTHING;
}

bool vt220_same_state(const vt220 *a, const vt220 *b) {
    handle h = own(a), other = own(b);
    if (!h.is_open || !other.is_open) return false;
    return is_same(a, b) || core_same_state(&h, &other);
}
