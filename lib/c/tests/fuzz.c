/* fuzz: a libFuzzer harness over the interface. The proved calls have no coverage of their own, so the state of the terminal guides it.
 * An input is a byte that says how it is cut, and the bytes that a host sends. lib/c/vt220.c is built with it, and with small blocks. */
#include "vt220.h"
#include <stdio.h>
#include <stdlib.h>
#include <string.h>

/* What libFuzzer takes for coverage, beside that of this file. */
__attribute__((section("__libfuzzer_extra_counters"))) static uint8_t seen[8192];

#define MUST(is) \
    do { \
        if (!(is)) { \
            fprintf(stderr, "fuzz: line %d: %s\n", __LINE__, #is); \
            abort(); \
        } \
    } while (0)

enum { LONGEST = 4096, LANGUAGES = 3 };

/* Three terminals for each language: one plays an input whole, and the others in other ways. */
static vt220 whole[LANGUAGES], cut[LANGUAGES], other[LANGUAGES], power_up[LANGUAGES];
static vt220_scratch s = VT220_INIT, s2 = VT220_INIT;

/* What an input led to besides the state. No sequence scrolls off more lines than it has bytes, times the rows of the screen. */
typedef struct outcome {
    uint8_t replies[VT220_REPORT_LIMIT * LONGEST], lines[VT220_ROWS * VT220_ROW_TEXT_LIMIT * LONGEST];
    size_t replied, logged;
} outcome;

int LLVMFuzzerTestOneInput(const uint8_t *data, size_t len);

static void see(unsigned kind, unsigned value) { seen[(kind * 131 + value * 2654435761u % 127) % sizeof seen] = 1; }

static vt220_language_state kept_by(const vt220 *t) {
    vt220_language_state kept;
    MUST(vt220_language(t, &kept) && kept.pending_len <= 3 && kept.reserved[21] == 0);
    return kept;
}

static uint8_t *allocate(size_t size) {
    uint8_t *at = (uint8_t *)malloc(size);
    if (at == NULL) abort();
    return at;
}

/* Feeds all bytes, whole if `by` is 0 and otherwise in chunks and with buffers of different sizes. Adds what comes to an outcome, or drops it if that is null. */
static void feed(vt220 *t, const uint8_t *bytes, size_t len, unsigned by, bool with_log, outcome *to) {
    const size_t limit = vt220_limit(t, VT220_OF_LINES);
    size_t written = 0, off = 0, taken;
    unsigned n = by;
    for (size_t at = 0; at < len; at += taken) {
        n = n * 1103515245u + 12345;
        size_t part = by == 0 ? len - at : 1 + (n >> 16) % (by + 1), lines_size = limit + (n >> 22) % 1000;
        size_t size = by == 0 ? VT220_REPORT_LIMIT * part : VT220_REPORT_LIMIT + (n >> 20) % 400;
        if (part > len - at) part = len - at;
        uint8_t *chunk = allocate(part), *room = allocate(size), *lines = allocate(lines_size);
        size_t *replied = to == NULL ? NULL : &written;
        memcpy(chunk, bytes + at, part);
        taken = with_log ? vt220_feed_log(t, &s, chunk, part, room, size, replied, lines, lines_size, &off) : vt220_feed(t, chunk, part, room, size, replied);
        MUST(taken >= 1 && taken <= part && written <= VT220_REPORT_LIMIT * taken && written <= size && off <= lines_size);
        MUST(taken == part || (to != NULL && size - written < VT220_REPORT_LIMIT) || lines_size - off < limit);
        MUST(off == 0 || lines[off - 1] == '\n');
        if (to != NULL) memcpy(to->replies + to->replied, room, written), memcpy(to->lines + to->logged, lines, off);
        if (to != NULL) to->replied += written, to->logged += off;
        free(chunk), free(room), free(lines);
    }
}

/* Returns whether two terminals are the same: their states, the pages that they show, and what is pending. */
static bool same(const vt220 *a, const vt220 *b) {
    vt220_language_state first = kept_by(a), second = kept_by(b);
    return vt220_same_state(a, b) && memcmp(&first, &second, sizeof first) == 0;
}

/* Checks that two terminals are the same on both pages. Leaves the main page shown. */
static void must_be_same(vt220 *a, vt220 *b) {
    static const char *const switches[] = {"", "\030\033[?47h", "\033[?47l"};
    for (size_t i = 0; i < sizeof switches / sizeof switches[0]; i++) {
        feed(a, (const uint8_t *)switches[i], strlen(switches[i]), 0, false, NULL), feed(b, (const uint8_t *)switches[i], strlen(switches[i]), 0, false, NULL);
        MUST(same(a, b));
        if (kept_by(a).language != VT220_XTERM) return;
    }
}

static void reset(vt220 *t, uint32_t language) { MUST(vt220_reset(t) == VT220_OK && same(t, &power_up[language])); }

/* Feeds byte by byte, and counts the bells by the rule of vt220_bells: a BEL rings if it isn't inside a control string. */
static uint64_t count_bells(vt220 *t, const uint8_t *bytes, size_t len) {
    uint64_t count = 0;
    for (size_t i = 0; i < len; i++) {
        count += bytes[i] == 0x07 && vt220_held_kind(t) != VT220_HELD_STRING;
        MUST(vt220_feed(t, bytes + i, 1, NULL, 0, NULL) == 1);
    }
    return count;
}

/* Brings `to` into the state of `t`: by a repaint if `by` is odd and `t` is between sequences, otherwise by a copy. */
static void rebuild(vt220 *to, const vt220 *t, unsigned by) {
    static uint8_t out[VT220_XTERM_PAINT_LIMIT];
    vt220_language_state kept = kept_by(t);
    size_t len;
    uint32_t status = vt220_repaint(t, &s, out, sizeof out, &len);
    MUST(status == (vt220_is_between(t) ? VT220_OK : VT220_PARTIAL) && (status == VT220_OK || len == 0));
    if (status == VT220_OK && by % 2 == 1) feed(to, out, len, 0, false, NULL), feed(to, kept.pending, kept.pending_len, 0, false, NULL);
    else MUST(vt220_copy(to, t) == VT220_OK);
    MUST(same(to, t));
}

/* However an input is cut, with its log and without it, and whether its replies are wanted, all that comes of it is the same. So it is if the second half goes
 * on from a copy or a repaint. */
static void look_at_cuts(uint32_t language, const uint8_t *bytes, size_t len, unsigned by) {
    static outcome first, second, third;
    vt220 *a = &whole[language], *b = &cut[language], *c = &other[language];
    reset(a, language), reset(b, language), reset(c, language);
    const uint64_t bells_a = vt220_bells(a), bells_b = vt220_bells(b), bells = count_bells(c, bytes, len);
    first.replied = first.logged = second.replied = second.logged = third.replied = third.logged = 0;
    feed(a, bytes, len, 0, false, &first), feed(b, bytes, len, by, true, &second);
    MUST(second.replied == first.replied && memcmp(first.replies, second.replies, first.replied) == 0);
    MUST(vt220_bells(a) - bells_a == bells && vt220_bells(b) - bells_b == bells && same(a, b) && same(a, c));
    must_be_same(b, c);
    reset(b, language);
    feed(b, bytes, len / 2, 0, true, &third);
    rebuild(c, b, by);
    feed(b, bytes + len / 2, len - len / 2, by, true, &third), feed(c, bytes + len / 2, len - len / 2, 0, false, NULL);
    MUST(third.replied == first.replied && memcmp(first.replies, third.replies, first.replied) == 0);
    MUST(third.logged == second.logged && memcmp(second.lines, third.lines, second.logged) == 0 && same(a, b));
    must_be_same(b, c);
    see(50 + language, (second.logged > 0) + 2u * kept_by(a).alternate + 4u * kept_by(a).pending_len);
}

typedef uint32_t writer(const vt220 *, vt220_scratch *, uint8_t *, size_t, size_t *);

/* Writes by a call into a buffer of exactly the size that it asks for; one byte less is refused. */
static void exactly(writer *call, const vt220 *t, uint32_t what) {
    size_t len, written;
    MUST(call(t, &s, NULL, 0, &len) == VT220_ROOM && len > 0 && len <= vt220_limit(t, what));
    uint8_t *out = allocate(len);
    MUST(call(t, &s, out, len - 1, &written) == VT220_ROOM && written == len);
    MUST(call(t, &s2, out, len, &written) == VT220_OK && written == len);
    free(out);
}

/* An update in a buffer of exactly its size; one byte less is refused, and changes nothing. */
static void lead(vt220 *shown, const vt220 *to) {
    static vt220 before = VT220_INIT;
    size_t len, written;
    uint32_t status = vt220_update(shown, to, &s, NULL, 0, &len);
    MUST(vt220_is_between(shown) && vt220_is_between(to) ? (status == VT220_OK) == vt220_same_state(shown, to) : status == VT220_PARTIAL && len == 0);
    if (status != VT220_ROOM) return;
    if (!vt220_is_open(&before)) MUST(vt220_open(&before) == VT220_OK);
    MUST(vt220_copy(&before, shown) == VT220_OK && len > 0 && len <= VT220_UPDATE_LIMIT);
    uint8_t *out = allocate(len);
    MUST(vt220_update(shown, to, &s, out, len - 1, &written) == VT220_ROOM && written == len && vt220_same_state(shown, &before));
    MUST(vt220_update(shown, to, &s2, out, len, &written) == VT220_OK && written == len && vt220_same_state(shown, to));
    free(out);
}

/* Shows libFuzzer what the state is like. */
static void look(const vt220 *t) {
    vt220_cursor_place cursor;
    vt220_margin_rows margins;
    vt220_mode_set modes;
    vt220_brush_look brush;
    vt220_graphic_sets sets;
    vt220_saved_record saved;
    MUST(vt220_cursor(t, &cursor) && vt220_margins(t, &margins) && vt220_modes(t, &modes) && vt220_brush(t, &brush) && vt220_sets(t, &sets) && vt220_saved(t, &saved));
    unsigned kind = vt220_held_kind(t);
    const bool *mode = &modes.kam;
    see(1, kind), see(2, (unsigned)cursor.row), see(3, (unsigned)cursor.col / 8), see(4, cursor.wrap), see(5, (unsigned)margins.top), see(6, (unsigned)margins.bottom);
    for (unsigned i = 0; i < 13; i++) see(10 + i, mode[i] * 4u + kind);
    see(30, brush.bold + 2u * brush.underline + 4u * brush.blink + 8u * brush.reverse + 16u * brush.is_protected);
    see(31, sets.g0), see(32, sets.g1), see(33, sets.g2), see(34, sets.g3), see(35, sets.gl), see(36, sets.gr), see(37, sets.single_shift);
    see(38, (unsigned)saved.row), see(39, (unsigned)saved.col / 8), see(40, saved.wrap + 2u * saved.origin), see(41, (unsigned)vt220_width(t));
}

static void open_all(void) {
    MUST(vt220_scratch_open(&s) == VT220_OK && vt220_scratch_open(&s2) == VT220_OK);
    for (uint32_t language = 0; language < LANGUAGES; language++) {
        vt220 *const all[] = {&whole[language], &cut[language], &other[language], &power_up[language]};
        for (int i = 0; i < 4; i++) MUST(vt220_open_as(all[i], language, VT220_ROWS, 80) == VT220_OK);
    }
}

int LLVMFuzzerTestOneInput(const uint8_t *data, size_t len) {
    if (len < 2 || len > LONGEST) return 0;
    if (!vt220_is_open(&whole[0])) open_all();
    const unsigned by = *data++;
    vt220 *t = &whole[VT220_BYTES];
    len--;
    for (uint32_t language = 0; language < LANGUAGES; language++) look_at_cuts(language, data, len, by);
    look(t);
    exactly(vt220_text, t, VT220_OF_TEXT), exactly(vt220_show, t, VT220_OF_SHOW);
    if (by % 16 == 0) exactly(vt220_picture, t, VT220_OF_PICTURE);
    if (vt220_is_between(t)) exactly(vt220_repaint, t, VT220_OF_REPAINT);
    /* from where half of the bytes lead */
    reset(&cut[VT220_BYTES], VT220_BYTES);
    feed(&cut[VT220_BYTES], data, len / 2, 0, false, NULL);
    lead(&cut[VT220_BYTES], t);
    lead(t, &power_up[VT220_BYTES]);
    return 0;
}
