/* sizes: terminals of another size than a VT220's: opening, reading, the limits, writing, and the statuses of two sizes. The rows of lib/rows/sizes.txt and
 * updates.txt are played by rows.c and updates.c. */
#include "check.h"

enum { ROOM = 14000000 };

static vt220_scratch s = VT220_INIT;
static uint8_t out[ROOM], other[ROOM];
static size_t written;

/* A terminal's size and the states at power-up, for each language. */
static void open_and_read(void) {
    static const struct {
        size_t rows, columns, stops;
    } sizes[] = {{24, 80, 132}, {2, 80, 80}, {255, 255, 255}, {40, 120, 120}, {24, 132, 132}, {25, 80, 80}, {24, 81, 81}, {5, 40, 40}};
    for (size_t i = 0; i < sizeof sizes / sizeof sizes[0]; i++) {
        for (uint32_t language = VT220_BYTES; language <= VT220_XTERM; language++) {
            vt220 t = opened_as(language, sizes[i].rows, sizes[i].columns, "\033[999;999Hx");
            vt220_cursor_place cursor;
            vt220_margin_rows margins;
            static vt220_cell cells[VT220_MOST_COLUMNS];
            static bool stops[VT220_MOST_COLUMNS];
            check_number(sizes[i].rows, vt220_rows(&t), __func__, "rows");
            check_number(sizes[i].columns, vt220_width(&t), __func__, "columns");
            CHECK(vt220_cursor(&t, &cursor) && cursor.row == sizes[i].rows && cursor.col == sizes[i].columns && cursor.wrap);
            CHECK(vt220_margins(&t, &margins) && margins.top == 1 && margins.bottom == sizes[i].rows);
            CHECK(vt220_row(&t, sizes[i].rows, cells, sizes[i].columns) == sizes[i].columns && cells[sizes[i].columns - 1].glyph == 'x');
            CHECK(vt220_row(&t, sizes[i].rows + 1, cells, VT220_MOST_COLUMNS) == 0 && vt220_row(&t, 1, cells, sizes[i].columns - 1) == 0);
            check_number(sizes[i].stops, vt220_stops_of(&t, stops, VT220_MOST_COLUMNS), __func__, "stops");
            CHECK(vt220_stops_of(&t, stops, sizes[i].stops - 1) == 0 && stops[8] && !stops[7] && !stops[0]);
            vt220_tab_stops old;
            CHECK(vt220_stops(&t, &old) == (sizes[i].stops == VT220_COLUMNS));
            vt220_close(&t);
            CHECK(vt220_rows(&t) == 0 && vt220_stops_of(&t, stops, VT220_MOST_COLUMNS) == 0);
        }
    }
}

static void no_sizes(void) {
    static const size_t sizes[][2] = {{1, 80}, {256, 80}, {24, 1}, {24, 256}, {0, 0}, {SIZE_MAX, 80}, {24, SIZE_MAX}};
    vt220 t = VT220_INIT;
    for (size_t i = 0; i < sizeof sizes / sizeof sizes[0]; i++) {
        for (uint32_t language = VT220_BYTES; language <= VT220_XTERM; language++)
            CHECK(vt220_open_as(&t, language, sizes[i][0], sizes[i][1]) == VT220_NO_SIZE && !vt220_is_open(&t));
        t = opened_as(VT220_XTERM, 24, 80, "x");
        CHECK(vt220_resize(&t, sizes[i][0], sizes[i][1]) == VT220_NO_SIZE && vt220_rows(&t) == 24 && vt220_width(&t) == 80);
        vt220_close(&t);
    }
    CHECK(vt220_resize(&t, 24, 80) == VT220_CLOSED);
}

/* The limits of a VT220's size are the macros, and what is written keeps within the limits. */
static void limits(void) {
    static const size_t macros[] = {VT220_TEXT_LIMIT, VT220_ROW_TEXT_LIMIT, VT220_SHOW_LIMIT, VT220_PICTURE_LIMIT, VT220_DRAW_LIMIT, VT220_UPDATE_LIMIT};
    static const size_t repaints[] = {VT220_PAINT_LIMIT, VT220_PAINT_LIMIT, VT220_XTERM_PAINT_LIMIT};
    static const size_t lines[] = {VT220_ROW_TEXT_LIMIT, VT220_UTF8_LINES_LIMIT, VT220_XTERM_LINES_LIMIT};
    for (uint32_t language = VT220_BYTES; language <= VT220_XTERM; language++) {
        vt220 t = opened_as(language, 24, 80, "");
        for (uint32_t what = VT220_OF_TEXT; what <= VT220_OF_UPDATE; what++) check_number(macros[what], vt220_limit(&t, what), __func__, "a limit");
        check_number(repaints[language], vt220_limit(&t, VT220_OF_REPAINT), __func__, "a repaint's limit");
        check_number(lines[language], vt220_limit(&t, VT220_OF_LINES), __func__, "the lines' limit");
        CHECK(vt220_limit(&t, VT220_OF_LINES + 1) == 0 && vt220_limit(&t, UINT32_MAX) == 0);
        vt220_close(&t);
        CHECK(vt220_limit(&t, VT220_OF_TEXT) == 0);
    }
}

/* Fills a screen with cells that differ in all attributes. */
static void fill(vt220 *t) {
    char piece[64];
    for (size_t i = 0; i < vt220_rows(t) * vt220_width(t); i++) {
        int len = snprintf(piece, sizeof piece, "\033[%zu;%zuH\033[0;%s%zu\"q%c", i / vt220_width(t) + 1, i % vt220_width(t) + 1, i % 2 ? "1;4;5;7m\033[" : "m\033[", i % 2, (char)('!' + i % 90));
        vt220_feed(t, (const uint8_t *)piece, (size_t)len, NULL, 0, NULL);
    }
}

typedef uint32_t writes(const vt220 *t, vt220_scratch *s, uint8_t *out, size_t size, size_t *written);

static uint32_t draws(const vt220 *t, vt220_scratch *room, uint8_t *to, size_t size, size_t *len) { return vt220_draw(NULL, t, room, to, size, len); }
static uint32_t first_row(const vt220 *t, vt220_scratch *room, uint8_t *to, size_t size, size_t *len) { return vt220_row_text(t, room, 1, to, size, len); }

/* Each call that writes, on a full screen: within its limit, and its status if the scratch buffer has another size. */
static void written_forms(void) {
    static const struct {
        writes *call;
        uint32_t what;
    } forms[] = {{vt220_text, VT220_OF_TEXT}, {first_row, VT220_OF_ROW_TEXT}, {vt220_show, VT220_OF_SHOW}, {vt220_picture, VT220_OF_PICTURE}, {draws, VT220_OF_DRAW}, {vt220_repaint, VT220_OF_REPAINT}};
    static const size_t sizes[][2] = {{2, 2}, {2, 80}, {30, 40}, {40, 120}, {120, 200}, {255, 255}};
    for (size_t i = 0; i < sizeof sizes / sizeof sizes[0]; i++) {
        for (uint32_t language = VT220_BYTES; language <= VT220_XTERM; language += 2) {
            vt220 t = opened_as(language, sizes[i][0], sizes[i][1], ""), to = opened_as(language, sizes[i][0], sizes[i][1], "\033[3 q\033[?7lgarbage\033[1");
            vt220_scratch small = VT220_INIT;
            CHECK(vt220_scratch_open(&small) == VT220_OK && vt220_scratch_fit(&s, &t) == VT220_OK);
            fill(&t);
            for (size_t j = 0; j < sizeof forms / sizeof forms[0]; j++) {
                CHECK(forms[j].call(&t, &s, out, sizeof out, &written) == VT220_OK && written > 0 && written <= vt220_limit(&t, forms[j].what));
                size_t len = written;
                CHECK(forms[j].call(&t, &s, other, len - 1, &written) == VT220_ROOM && written == len);
                CHECK(forms[j].call(&t, &s, other, len, &written) == VT220_OK && written == len && memcmp(out, other, len) == 0);
                CHECK(forms[j].call(&t, &small, out, sizeof out, &written) == VT220_SIZE && written == 0);
            }
            /* the last form is the repaint */
            CHECK(vt220_repaint(&t, &s, out, sizeof out, &written) == VT220_OK && vt220_feed(&to, out, written, NULL, 0, NULL) == written && vt220_same_state(&t, &to));
            vt220_scratch_close(&small);
            vt220_close(&t);
            vt220_close(&to);
        }
    }
}

/* Two sizes: no call mixes them, and nothing changes. */
static void two_sizes(void) {
    for (uint32_t language = VT220_BYTES; language <= VT220_XTERM; language += 2) {
        vt220 a = opened_as(VT220_BYTES, 24, 80, "a"), b = opened_as(language, 25, 80, "b"), c = opened_as(language, 24, 80, "c");
        static bool changed[VT220_MOST_COLUMNS];
        vt220_row_marks marks;
        CHECK(vt220_scratch_fit(&s, &b) == VT220_OK);
        CHECK(vt220_copy(&b, &c) == VT220_SIZE && vt220_update(&a, &b, &s, out, sizeof out, &written) == VT220_SIZE && written == 0);
        CHECK(vt220_row_changes(&a, &b, 1, &marks) == VT220_SIZE && vt220_changes_of(&a, &b, 1, changed, VT220_MOST_COLUMNS) == VT220_SIZE);
        CHECK(!vt220_same_state(&a, &b));
        size_t logged = 1;
        CHECK(vt220_feed_log(&c, &s, BYTES("x"), out, 100, &written, other, 100000, &logged) == 0 && written == 0 && logged == 0);
        CHECK(vt220_feed_log(&b, &s, BYTES("x"), out, 100, &written, other, 100000, &logged) == 1 && written == 0 && logged == 0);
        CHECK(vt220_draw(&a, &b, &s, out, sizeof out, &written) == VT220_OK && written > 0);
        size_t len = written;
        CHECK(vt220_draw(NULL, &b, &s, other, sizeof other, &written) == VT220_OK && written == len && memcmp(out, other, len) == 0);
        CHECK(vt220_draw(&b, &a, &s, out, sizeof out, &written) == VT220_SIZE && written == 0);
        /* one terminal twice, also inside a sequence */
        CHECK(vt220_draw(&c, &c, &s, NULL, 0, &written) == VT220_SIZE && vt220_update(&a, &a, &s, NULL, 0, &written) == VT220_SIZE && written == 0);
        CHECK(vt220_feed(&a, BYTES("\033["), NULL, 0, NULL) == 2 && vt220_update(&a, &a, &s, NULL, 0, &written) == VT220_SIZE && written == 0);
        CHECK(vt220_draw(&b, &b, &s, NULL, 0, &written) == VT220_OK && vt220_draw(NULL, &b, &s, NULL, 0, &written) == VT220_ROOM && written == len);
        /* a terminal that was resized to 24 by 80 isn't a VT220's. A reset leaves the size, and a resize the bells */
        CHECK(vt220_feed(&b, BYTES("\a"), NULL, 0, NULL) == 1 && vt220_resize(&b, 24, 80) == VT220_OK && vt220_bells(&b) == 1 && vt220_copy(&c, &b) == VT220_SIZE);
        CHECK(vt220_resize(&c, 30, 90) == VT220_OK && vt220_reset(&c) == VT220_OK && vt220_rows(&c) == 30 && vt220_width(&c) == 90);
        vt220_close(&a), vt220_close(&b), vt220_close(&c);
    }
}

/* The marks of a row, at any size. */
static void changes(void) {
    vt220 a = opened_as(VT220_BYTES, 40, 200, "same\033[40;200Hx"), b = opened_as(VT220_BYTES, 40, 200, "same\033[40;200Hy\033[40;1Hz");
    static bool changed[200];
    vt220_row_marks marks;
    CHECK(vt220_changes_of(&a, &b, 40, changed, 200) == VT220_OK);
    for (size_t i = 0; i < 200; i++) CHECK(changed[i] == (i == 0 || i == 199));
    CHECK(vt220_changes_of(&a, &b, 40, changed, 199) == VT220_ROOM && vt220_changes_of(&a, &b, 41, changed, 200) == VT220_NO_ROW);
    CHECK(vt220_changes_of(&a, &b, 0, changed, 200) == VT220_NO_ROW && vt220_changes_of(&a, &b, 1, NULL, 0) == VT220_ROOM);
    CHECK(vt220_row_changes(&a, &b, 40, &marks) == VT220_ROOM && vt220_row_changes(&a, &a, 1, &marks) == VT220_ROOM);
    CHECK(vt220_changes_of(&a, &a, 40, changed, 200) == VT220_OK && !changed[0] && !changed[199]);
    CHECK(vt220_changes_of(&a, &a, 41, changed, 200) == VT220_NO_ROW && vt220_changes_of(&a, &a, 1, changed, 199) == VT220_ROOM);
    vt220_close(&b);
    CHECK(vt220_changes_of(&a, &b, 40, changed, 200) == VT220_CLOSED);
    vt220_close(&a);
}

/* A log's lines are those of the rows that scroll off, at any size. */
static void logs(void) {
    for (uint32_t language = VT220_BYTES; language <= VT220_XTERM; language++) {
        vt220 t = opened_as(language, 3, 255, "");
        size_t logged, need = vt220_limit(&t, VT220_OF_LINES);
        CHECK(vt220_scratch_fit(&s, &t) == VT220_OK);
        CHECK(vt220_feed_log(&t, &s, BYTES("one\r\ntwo\r\nthree\r\nfour\r\n"), NULL, 0, NULL, out, need, &logged) > 0);
        CHECK(logged >= 4 && memcmp(out, "one\n", 4) == 0);
        CHECK(vt220_feed_log(&t, &s, BYTES("x\r\n"), NULL, 0, NULL, out, need - 1, &logged) == 0 && logged == 0);
        vt220_close(&t);
    }
}

/* A scratch buffer serves one size at a time. */
static void scratches(void) {
    vt220 t = opened_as(VT220_BYTES, 40, 120, ""), u = opened_as(VT220_BYTES, 24, 80, ""), closed = VT220_INIT;
    vt220_scratch room = VT220_INIT;
    CHECK(vt220_scratch_fit(&room, &closed) == VT220_CLOSED && !vt220_scratch_is_open(&room));
    CHECK(vt220_scratch_fit(&room, &u) == VT220_OK && vt220_text(&u, &room, out, sizeof out, &written) == VT220_OK && written == 24);
    CHECK(vt220_text(&t, &room, out, sizeof out, &written) == VT220_SIZE && vt220_scratch_fit(&room, &closed) == VT220_CLOSED);
    CHECK(vt220_scratch_fit(&room, &t) == VT220_OK && vt220_text(&t, &room, out, sizeof out, &written) == VT220_OK && written == 40);
    void *block = room.room;
    CHECK(vt220_scratch_fit(&room, &t) == VT220_OK && room.room == block && vt220_scratch_open(&room) == VT220_IN_USE);
    vt220_scratch_close(&room);
    CHECK(!vt220_scratch_is_open(&room));
    vt220_close(&t);
    vt220_close(&u);
}

int main(void) {
    open_and_read(), no_sizes(), limits(), written_forms(), two_sizes(), changes(), logs(), scratches();
    vt220_scratch_close(&s);
    return finish("sizes");
}
