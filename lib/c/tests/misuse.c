/* misuse: what the header allows and few would write. */
#include "check.h"

static uint8_t out[VT220_UPDATE_LIMIT + 1], before[VT220_UPDATE_LIMIT + 1];
static vt220_cell cells[VT220_COLUMNS + 1], cells_before[VT220_COLUMNS + 1];

static bool untouched(void) { return memcmp(out, before, sizeof out) == 0; }

static void closed_handles(void) {
    vt220 t = VT220_INIT, other = VT220_INIT;
    vt220_scratch s = VT220_INIT;
    vt220_cursor_place cursor = {.row = 7, .col = 8, .wrap = true};
    vt220_margin_rows margins = {.top = 7, .bottom = 8};
    vt220_mode_set modes;
    memset(&modes, 1, sizeof modes);
    size_t written = 9;
    CHECK(!vt220_is_open(&t) && !vt220_scratch_is_open(&s));
    CHECK(vt220_feed(&t, BYTES("a"), out, sizeof out, &written) == 0 && written == 0);
    for (int with = 0; with < 2; with++) {
        written = 9;
        CHECK(vt220_text(&t, &s, out, sizeof out, &written) == VT220_CLOSED && written == 0);
        written = 9;
        CHECK(vt220_repaint(&t, &s, out, sizeof out, &written) == VT220_CLOSED && written == 0);
        written = 9;
        CHECK(vt220_update(&t, &other, &s, out, sizeof out, &written) == VT220_CLOSED && written == 0);
        if (with == 0) CHECK(vt220_scratch_open(&s) == VT220_OK && vt220_scratch_is_open(&s));
    }
    CHECK(vt220_row(&t, 1, cells, VT220_COLUMNS) == 0);
    CHECK(!vt220_cursor(&t, &cursor) && cursor.row == 7 && cursor.col == 8 && cursor.wrap);
    CHECK(!vt220_margins(&t, &margins) && margins.top == 7 && margins.bottom == 8);
    CHECK(!vt220_modes(&t, &modes) && modes.kam && modes.reports_8bit);
    vt220_brush_look brush = {.underline = true};
    vt220_graphic_sets sets = {.gl = 2};
    vt220_tab_stops stops = {.stop = {true}};
    vt220_saved_record saved = {.row = 24};
    CHECK(!vt220_brush(&t, &brush) && !vt220_sets(&t, &sets) && !vt220_stops(&t, &stops) && !vt220_saved(&t, &saved));
    CHECK(brush.underline && sets.gl == 2 && stops.stop[0] && saved.row == 24);
    CHECK(vt220_width(&t) == 0 && !vt220_is_between(&t) && vt220_held_kind(&t) == VT220_HELD_NOTHING);
    CHECK(!vt220_same_state(&t, &other));
    CHECK(untouched() && memcmp(cells, cells_before, sizeof cells) == 0);
    vt220_close(&t);
    CHECK(vt220_open(&t) == VT220_OK && !vt220_same_state(&t, &other) && !vt220_same_state(&other, &t));
    vt220_scratch_close(&s);
    vt220_scratch_close(&s);
    CHECK(vt220_text(&t, &s, out, sizeof out, &written) == VT220_CLOSED && vt220_repaint(&t, &s, out, sizeof out, &written) == VT220_CLOSED);
    CHECK(vt220_open(&other) == VT220_OK && vt220_update(&t, &other, &s, out, sizeof out, &written) == VT220_CLOSED);
    CHECK(vt220_scratch_open(&s) == VT220_OK);
    vt220_close(&other);
    CHECK(vt220_update(&t, &other, &s, out, sizeof out, &written) == VT220_CLOSED && vt220_update(&other, &t, &s, out, sizeof out, &written) == VT220_CLOSED);
    vt220_close(&t);
    vt220_close(&t);
    vt220_scratch_close(&s);
    CHECK(!vt220_is_open(&t) && !vt220_scratch_is_open(&s) && untouched());
}

static void twice(void) {
    vt220 t = VT220_INIT, copy = VT220_INIT;
    vt220_scratch s = VT220_INIT;
    size_t written;
    CHECK(vt220_open(&t) == VT220_OK && vt220_open(&copy) == VT220_OK && vt220_scratch_open(&s) == VT220_OK);
    CHECK(vt220_feed(&t, BYTES("abc"), out, 30, &written) == 3 && written == 0);
    CHECK(vt220_feed(&copy, BYTES("abc"), out, 30, &written) == 3);
    CHECK(vt220_open(&t) == VT220_IN_USE && vt220_scratch_open(&s) == VT220_IN_USE && vt220_same_state(&t, &copy));
    vt220_close(&t);
    vt220_close(&t);
    CHECK(vt220_open(&t) == VT220_OK && !vt220_same_state(&t, &copy));
    vt220 moved;
    memcpy(&moved, &t, sizeof t);
    memset(&t, 0, sizeof t);
    CHECK(vt220_is_open(&moved) && vt220_width(&moved) == 80 && !vt220_is_open(&t));
    vt220_close(&moved);
    vt220_close(&copy);
    vt220_scratch_close(&s);
}

static void rooms(void) {
    vt220 t = VT220_INIT, to = VT220_INIT;
    vt220_scratch s = VT220_INIT;
    size_t written, len;
    CHECK(vt220_open(&t) == VT220_OK && vt220_open(&to) == VT220_OK && vt220_scratch_open(&s) == VT220_OK);
    memset(out, 0xA5, sizeof out);
    memset(before, 0xA5, sizeof before);
    for (size_t room = 0; room < VT220_REPORT_LIMIT; room++)
        CHECK(vt220_feed(&t, BYTES("\033[c"), out, room, &written) == 0 && written == 0 && untouched());
    CHECK(vt220_feed(&t, BYTES(""), out, 0, &written) == 0 && written == 0);
    CHECK(vt220_feed(&t, BYTES("\033[5"), out, 30, &written) == 3 && written == 0);
    for (size_t room = 0; room < VT220_REPORT_LIMIT; room++)
        CHECK(vt220_feed(&t, BYTES("n"), out, room, &written) == 0 && written == 0 && untouched());
    CHECK(vt220_feed(&t, BYTES("n"), out, VT220_REPORT_LIMIT, &written) == 1 && written == 4 && memcmp(out, "\033[0n", 4) == 0);
    CHECK(memcmp(out + 4, before + 4, sizeof out - 4) == 0);
    memset(out, 0xA5, sizeof out);
    CHECK(vt220_feed(&t, BYTES("\033[1;1Hone\r\n\033[4mtwo"), out, 10, &written) == 18 && written == 0 && untouched());
    for (int call = 0; call < 2; call++) {
        uint32_t (*write)(const vt220 *, vt220_scratch *, uint8_t *, size_t, size_t *) = call == 0 ? vt220_text : vt220_repaint;
        CHECK(write(&t, &s, out, 0, &len) == VT220_ROOM && len > 1 && untouched());
        size_t few[] = {0, 1, len - 1};
        for (int i = 0; i < 3; i++) {
            written = 0;
            CHECK(write(&t, &s, out, few[i], &written) == VT220_ROOM && written == len && untouched());
        }
        CHECK(write(&t, &s, out, len, &written) == VT220_OK && written == len && out[len] == 0xA5);
        memset(out, 0xA5, sizeof out);
    }
    CHECK(vt220_update(&t, &to, &s, out, 0, &len) == VT220_ROOM && len > 1);
    size_t few[] = {0, 1, len - 1};
    for (int i = 0; i < 3; i++)
        CHECK(vt220_update(&t, &to, &s, out, few[i], &written) == VT220_ROOM && written == len && untouched() && !vt220_same_state(&t, &to));
    CHECK(vt220_update(&t, &to, &s, out, len, &written) == VT220_OK && written == len && vt220_same_state(&t, &to));
    CHECK(written > 0 && written < 100 && memcmp(out + written, before, sizeof out - written) == 0);
    CHECK(vt220_feed(&t, BYTES("\033["), out, 20, &written) == 2 && vt220_held_kind(&t) == VT220_HELD_CONTROL);
    CHECK(vt220_update(&t, &to, &s, out, sizeof out, &written) == VT220_PARTIAL && vt220_update(&to, &t, &s, out, sizeof out, &written) == VT220_PARTIAL && written == 0);
    CHECK(vt220_feed(&t, BYTES("m\033"), out, 20, &written) == 2 && vt220_held_kind(&t) == VT220_HELD_ESCAPE);
    CHECK(vt220_feed(&t, BYTES("Pq"), out, 20, &written) == 2 && vt220_held_kind(&t) == VT220_HELD_STRING && !vt220_is_between(&t));
    CHECK(vt220_feed(&t, BYTES("\033\\"), out, 20, &written) == 2 && vt220_held_kind(&t) == VT220_HELD_NOTHING && vt220_is_between(&t));
    vt220_close(&t);
    vt220_close(&to);
    vt220_scratch_close(&s);
}

static void rows(void) {
    vt220 t = VT220_INIT;
    size_t written;
    CHECK(vt220_open(&t) == VT220_OK);
    memset(cells, 0, sizeof cells);
    memset(cells_before, 0, sizeof cells);
    size_t none[] = {0, 25, 26, SIZE_MAX};
    for (int i = 0; i < 4; i++) CHECK(vt220_row(&t, none[i], cells, VT220_COLUMNS) == 0);
    size_t few[] = {0, 1, 79};
    for (int i = 0; i < 3; i++) CHECK(vt220_row(&t, 1, cells, few[i]) == 0);
    CHECK(memcmp(cells, cells_before, sizeof cells) == 0);
    CHECK(vt220_feed(&t, BYTES("\033[24;80H\033[1;4;5;7m\033[1\"qX"), out, 250, &written) == 24);
    CHECK(vt220_row(&t, 24, cells, 80) == 80 && cells[0].glyph == ' ' && !cells[0].bold && cells[79].glyph == 'X' && cells[80].glyph == 0);
    CHECK(cells[79].bold && cells[79].underline && cells[79].blink && cells[79].reverse && cells[79].is_protected);
    CHECK(vt220_feed(&t, BYTES("\033[?3h"), out, 250, &written) == 5);
    CHECK(vt220_width(&t) == 132 && vt220_row(&t, 1, cells, 131) == 0 && vt220_row(&t, 1, cells, 132) == 132 && cells[132].glyph == 0);
    vt220_close(&t);
}

int main(void) {
    CHECK(vt220_version() == VT220_VERSION);
    closed_handles();
    twice();
    rooms();
    rows();
    return finish("misuse");
}
