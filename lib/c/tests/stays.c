/* stays: a proved call puts back the block that it took. lib/c/vt220.c relies on this for handles that are `const`, and no clause states it.
 * Linked with the core alone, whose calls are global then. */
#include "check.h"
#include "../vt220.c"

static handle t, u, s, x, y;
static uint8_t out[VT220_PICTURE_LIMIT], lines[VT220_XTERM_LINES_LIMIT];
static utf8 pending;
static size_t written, logged, rung;

#define STAYS(call)                                                       \
    do {                                                                  \
        void *blocks[] = {t.at, u.at, s.at, x.at, y.at};                  \
        (void)(call);                                                     \
        check(t.at == blocks[0] && t.is_open, #call, "stays");            \
        check(u.at == blocks[1] && u.is_open, #call, "stays");            \
        check(s.at == blocks[2] && s.is_open, #call, "stays");            \
        check(x.at == blocks[3] && x.is_open, #call, "stays");            \
        check(y.at == blocks[4] && y.is_open, #call, "stays");            \
    } while (0)

/* The calls that write bytes, with a buffer of this size. */
static void writing(size_t size) {
    STAYS(core_text(&t, &s, out, size, &written));
    STAYS(core_row_text(&t, &s, 1, out, size, &written));
    STAYS(core_row_text(&t, &s, 25, out, size, &written));
    STAYS(core_show(&t, &s, out, size, &written));
    STAYS(core_picture(&t, &s, out, size, &written));
    STAYS(core_draw(&t, &s, out, size, &written));
    STAYS(core_draw_from(&u, &t, &s, out, size, &written));
    STAYS(core_repaint(&t, &s, out, size, &written));
    STAYS(core_xterm_repaint(&t, &x, &s, out, size, &written));
    STAYS(core_update(&u, &t, &s, out, size, &written));
}

static void reading(void) {
    vt220_cell cells[VT220_COLUMNS];
    vt220_cursor_place cursor;
    vt220_margin_rows margins;
    vt220_mode_set modes;
    vt220_brush_look brush;
    vt220_graphic_sets sets;
    vt220_saved_record saved;
    bool stops[VT220_COLUMNS], marks[VT220_COLUMNS];
    for (size_t row = 0; row <= VT220_ROWS + 1; row++) {
        STAYS(core_row(&t, row, cells, VT220_COLUMNS));
        STAYS(core_row(&t, row, cells, 1));
        STAYS(core_row_changes(&t, &u, row, marks, VT220_COLUMNS));
        STAYS(core_row_changes(&t, &u, row, marks, 1));
    }
    STAYS(core_cursor(&t, &cursor));
    STAYS(core_margins(&t, &margins));
    STAYS(core_modes(&t, &modes));
    STAYS(core_brush(&t, &brush));
    STAYS(core_sets(&t, &sets));
    STAYS(core_stops(&t, stops, VT220_COLUMNS));
    STAYS(core_stops(&t, stops, 1));
    STAYS(core_saved(&t, &saved));
    STAYS(core_rows(&t));
    STAYS(core_width(&t));
    STAYS(core_limit(&t, VT220_OF_TEXT));
    STAYS(core_is_between(&t));
    STAYS(core_held_kind(&t));
    STAYS(core_same_state(&t, &u));
}

int main(void) {
    /* Blank, with text, with columns that the other terminal lacks, and inside a sequence. */
    static const char *const states[] = {"\030", "abc\033[5;10H\033[1mx\a", "\033[?3hwide", "\033[1"};
    CHECK(core_open(&t, VT220_ROWS, NARROW) == VT220_OK && core_open(&u, VT220_ROWS, NARROW) == VT220_OK && core_scratch_open(&s) == VT220_OK);
    CHECK(core_xterm_open(&x, VT220_ROWS, NARROW) == VT220_OK && core_xterm_open(&y, VT220_ROWS, NARROW) == VT220_OK);
    for (size_t i = 0; i < sizeof states / sizeof states[0]; i++) {
        const uint8_t *bytes = (const uint8_t *)states[i];
        size_t len = strlen(states[i]);
        STAYS(core_feed(&t, bytes, len, true, out, sizeof out, &written, &rung));
        STAYS(core_feed_byte(&u, *bytes, out, sizeof out, &written));
        STAYS(core_feed_byte(&u, *bytes, out, 9, &written));
        writing(0);
        reading();
        writing(sizeof out);
        STAYS(core_feed_log(&u, &s, bytes, len, true, out, sizeof out, &written, lines, sizeof lines, &logged, &rung));
        STAYS(core_feed_utf8(&t, &pending, (const uint8_t *)"\xC3\xA9\xE2", 3, true, out, sizeof out, &written, &rung));
        STAYS(core_feed_byte_utf8(&t, &pending, 0x82, out, sizeof out, &written));
        STAYS(core_feed_byte_utf8(&t, &pending, *bytes, out, 9, &written));
        STAYS(core_feed_log_utf8(&u, &s, &pending, bytes, len, true, out, sizeof out, &written, lines, sizeof lines, &logged, &rung));
        STAYS(core_feed_xterm(&u, &x, bytes, len, true, out, sizeof out, &written, &rung));
        STAYS(core_feed_xterm(&u, &x, (const uint8_t *)"\033[?1049h\a\xE2", 10, false, out, sizeof out, &written, &rung));
        STAYS(core_feed_byte_xterm(&u, &x, 'a', out, sizeof out, &written));
        STAYS(core_feed_byte_xterm(&u, &x, *bytes, out, sizeof out, &written));
        STAYS(core_feed_byte_xterm(&u, &x, *bytes, out, 9, &written));
        STAYS(core_feed_log_xterm(&u, &s, &x, bytes, len, true, out, sizeof out, &written, lines, sizeof lines, &logged, &rung));
        STAYS(core_xterm_copy(&y, &x));
        STAYS(core_xterm_alternate(&x));
        STAYS(core_xterm_bracketed_paste(&x));
        STAYS(core_xterm_pending(&x, &pending));
        STAYS(core_copy(&u, &t));
        STAYS(core_reset(&u));
    }
    /* Terminals of another size than the scratch buffer's and the pages', and those that a resize reads. */
    handle made = {NULL, false}, made_pages = {NULL, false};
    STAYS(core_xterm_resized(&made_pages, &u, &x, 30, 90));
    STAYS(core_resized(&made, &t, 30, 90));
    STAYS(core_resized(&made, &t, 1, 90));
    CHECK(made.is_open && made_pages.is_open);
    handle kept = t;
    t = made;
    writing(sizeof out);
    reading();
    STAYS(core_feed_log(&t, &s, out, 1, true, out, sizeof out, &written, lines, sizeof lines, &logged, &rung));
    STAYS(core_feed_log_utf8(&t, &s, &pending, out, 1, true, out, sizeof out, &written, lines, sizeof lines, &logged, &rung));
    STAYS(core_feed_xterm(&t, &x, out, 1, true, out, sizeof out, &written, &rung));
    STAYS(core_feed_byte_xterm(&t, &x, 'a', out, sizeof out, &written));
    STAYS(core_feed_log_xterm(&t, &s, &x, out, 1, true, out, sizeof out, &written, lines, sizeof lines, &logged, &rung));
    STAYS(core_copy(&u, &t));
    STAYS(core_xterm_resized(&made, &t, &x, 30, 90));
    core_close(&t);
    core_xterm_close(&made_pages);
    t = kept;
    core_close(&t);
    core_close(&u);
    core_scratch_close(&s);
    core_xterm_close(&x);
    core_xterm_close(&y);
    return finish("stays");
}
