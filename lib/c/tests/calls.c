/* calls: each call of the header that the other tests don't turn, with values from docs/SPECIFICATION.md and the VT220 manual. */
#include "check.h"

static vt220_scratch s = VT220_INIT;
static uint8_t out[VT220_PICTURE_LIMIT], other[VT220_PICTURE_LIMIT];

static vt220 opened(const char *text) { return opened_as(VT220_BYTES, VT220_ROWS, 80, text); }

static void feed(vt220 *t, const char *text) { CHECK(vt220_feed(t, (const uint8_t *)text, strlen(text), NULL, 0, NULL) == strlen(text)); }

/* The count of a terminal is its own: a reset keeps it, and a copy doesn't take it. */
static void bells(void) {
    vt220 t = opened("\a\a"), copy = opened("\a");
    CHECK(vt220_reset(&t) == VT220_OK && vt220_bells(&t) == 2);
    CHECK(vt220_copy(&copy, &t) == VT220_OK && vt220_bells(&copy) == 1 && vt220_bells(&t) == 2);
    vt220_close(&t), vt220_close(&copy);
    CHECK(vt220_bells(&t) == 0);
}

/* Under each language a copy goes on as the first one does, and a reset leaves what is there at power-up on both pages. */
static void resets_and_copies(uint32_t language) {
    static const char *const states[] = {"", "abc", "\033[?3h\033[5;9r\033[4mx", "\033", "\033 ", "\033  ", "\033[", "\033[?12;7", "\033[1;2;3;4;5;6;7;8;9;10;11;12;13;14;15;16;17",
                                         "\033[1 ", "\033[:", "\033P1", "\033]0;", "\033_x", "\033N", "\033#8\033[7m\0337\033)0\016", "main\033[?1049halt\xE2",
                                         "\033[?40h\033[?3hwide\0337\033[?47h\033[2", "\033[?2004h\a\033]0;x", "\033[?47h\033N\033["};
    for (size_t i = 0; i < sizeof states / sizeof states[0]; i++) {
        vt220 from = opened_as(language, VT220_ROWS, 80, states[i]), to = opened_as(language, VT220_ROWS, 80, "\033[?3hzz\033]"), power_up = opened_as(language, VT220_ROWS, 80, "");
        CHECK(vt220_copy(&to, &from) == VT220_OK && vt220_same_state(&to, &from) && vt220_held_kind(&to) == vt220_held_kind(&from));
        feed(&to, "1m\033[2;2Hq");
        CHECK(!vt220_same_state(&to, &from));
        feed(&from, "1m\033[2;2Hq");
        CHECK(vt220_same_state(&to, &from) && kept_by(&to).alternate == kept_by(&from).alternate);
        CHECK(vt220_copy(&from, &from) == VT220_OK && vt220_same_state(&to, &from));
        feed(&from, "\xE2\x80"); /* in UTF-8 they are pending */
        uint64_t rung = vt220_bells(&from);
        CHECK(vt220_reset(&from) == VT220_OK && vt220_same_state(&from, &power_up) && vt220_bells(&from) == rung);
        CHECK(kept_by(&from).pending_len == 0 && !kept_by(&from).alternate && !kept_by(&from).bracketed_paste);
        feed(&from, "\033[?47h"), feed(&power_up, "\033[?47h");
        CHECK(vt220_same_state(&from, &power_up));
        vt220_close(&from);
        CHECK(vt220_copy(&to, &from) == VT220_CLOSED && vt220_copy(&from, &to) == VT220_CLOSED && vt220_reset(&from) == VT220_CLOSED);
        vt220_close(&to), vt220_close(&power_up);
    }
}

static void rows_as_text(void) {
    vt220 t = opened("Hello");
    size_t written;
    CHECK(vt220_row_text(&t, &s, 1, out, 6, &written) == VT220_OK && written == 6 && memcmp(out, "Hello\n", 6) == 0);
    memset(out, 0xA5, 8);
    CHECK(vt220_row_text(&t, &s, 1, out, 5, &written) == VT220_ROOM && written == 6 && out[0] == 0xA5);
    size_t none[] = {0, 25, SIZE_MAX};
    for (int i = 0; i < 3; i++) CHECK(vt220_row_text(&t, &s, none[i], out, 400, &written) == VT220_NO_ROW && written == 0);
    vt220_close(&t);
    CHECK(vt220_row_text(&t, &s, 1, out, 400, &written) == VT220_CLOSED && written == 0);
}

static void shown_and_drawn(void) {
    static const char bold[] = "\033[0;1mab\033[0m\n\n";
    static const char picture[] = "<svg ";
    vt220 t = opened("\033[1mab\033[m");
    size_t written, len;
    CHECK(vt220_show(&t, &s, out, sizeof out, &written) == VT220_OK && written == sizeof bold - 1 + 22 && memcmp(out, bold, sizeof bold - 1) == 0);
    CHECK(vt220_picture(&t, &s, out, sizeof out, &len) == VT220_OK && len > 100 && memcmp(out, picture, sizeof picture - 1) == 0 && memcmp(out + len - 7, "</svg>\n", 7) == 0);
    CHECK(vt220_show(&t, &s, NULL, 0, &written) == VT220_ROOM && written > 0 && vt220_picture(&t, &s, NULL, 0, &written) == VT220_ROOM && written == len);
    feed(&t, "\033[");
    CHECK(vt220_show(&t, &s, out, sizeof out, &written) == VT220_OK && vt220_picture(&t, &s, out, sizeof out, &written) == VT220_OK);
    vt220_close(&t);
    CHECK(vt220_show(&t, &s, out, sizeof out, &written) == VT220_CLOSED && written == 0 && vt220_picture(&t, &s, out, sizeof out, &written) == VT220_CLOSED && written == 0);
}

static const char ERASE[] = "\033[0m\033[1;1H\033[J\033[?25h";

/* What a terminal of today is sent, given what it shows: by ECMA-48 and xterm's control sequences. */
static void drawn_from(void) {
    static const struct { const char *shown, *to, *sent; } rows[] = {
        {"x", "x", ""},
        {"", "x", "x"},
        {"ab", "cd", "\033[1;1Hcd"},
        {"abc\033[5;10Hx", "aBc\033[5;10H\033[1mx", "\033[1;2HB\033[5;10H\033[0;1mx\033[0m"},
        {"", "\033[4;5mx\033[mz", "\033[0;4;5mx\033[0mz"},
        {"", "\033[3;7H", "\033[3;7H"},
        {"", "\033[24;80Hx", "\033[24;80Hx\033[24;80H"},
        {"", "\033[?25l", "\033[?25l"},
        {"\033[?25l", "x", "x\033[?25h"},
        {"", "\344", "\303\244"},
        {"", "\033(0q", "\342\224\200"},
        {"a", "\033[1\"qa", ""},
        {"\033[?5ha", "\033[?5hb", "\033[1;1H\033[0;7mb\033[0m"},
        {"\033[?5ha", "\033[?5h\033[7ma", "\033[1;1Ha"},
        {"x", "x\033[", ""},
    };
    for (size_t i = 0; i < sizeof rows / sizeof *rows; i++) {
        vt220 a = opened(rows[i].shown), b = opened(rows[i].to);
        size_t written, len = strlen(rows[i].sent);
        check(vt220_draw(&a, &b, &s, out, sizeof out, &written) == VT220_OK, "is drawn", rows[i].to);
        check(written == len && memcmp(out, rows[i].sent, len) == 0, "bytes", rows[i].to);
        check(vt220_draw(&b, &b, &s, out, 0, &written) == VT220_OK && written == 0, "shows itself", rows[i].to);
        vt220_close(&a);
        vt220_close(&b);
    }
}

static bool has_look(const vt220_cell *found, const vt220_cell *cell, bool is_reversed) {
    return found->glyph == cell->glyph && found->bold == cell->bold && found->underline == cell->underline && found->blink == cell->blink && found->reverse == (cell->reverse != is_reversed);
}

static bool shows(const vt220 *x, const vt220 *t) {
    vt220_cell found[VT220_COLUMNS], cells[VT220_COLUMNS];
    vt220_cursor_place at, cursor;
    vt220_mode_set modes, own;
    bool is = vt220_cursor(x, &at) && vt220_cursor(t, &cursor) && vt220_modes(x, &own) && vt220_modes(t, &modes);
    is = is && at.row == cursor.row && at.col == cursor.col && own.dectcem == modes.dectcem && !own.decscnm;
    for (size_t row = 1; row <= VT220_ROWS; row++) {
        size_t width = vt220_row(t, row, cells, VT220_COLUMNS);
        is = is && vt220_row(x, row, found, VT220_COLUMNS) == width;
        for (size_t i = 0; i < width; i++) is = is && has_look(&found[i], &cells[i], modes.decscnm);
    }
    return is;
}

/* A session under TERM=xterm that is sent drawings one after another shows each terminal, whatever it showed at first. */
static void drawn_under_xterm(void) {
    static const char *const texts[] = {
        "plain\r\n\033[1mbold\033[4m and underlined\033[7;5m\r\nall\033[m", "\033(0_`abcdefghijklmnopqrstuvwxyz{|}~\033(B", "\033[?5hreverse \033[7mplain", "\033#8",
        "\033#8\033[?25l\033[12;40H\033[K", "\241\242\243\245\247\250\251\252\253\260\261\262\263\265\266\267\271\272\273\274\275\277", "\033)0\016lqk\017\033[24;80Hx\033[1;1H",
        "\300\301\302\303\304\305\306\307\310\311\312\313\314\315\316\317\321\322\323\324\325\326\327\330\331\332\333\334\335\337\340\341\342\343\344\345\346\347\350", "",
        "\351\352\353\354\355\356\357\361\362\363\364\365\366\367\370\371\372\373\374\375\032\r\n\033[7m\033[2;1H\033[K", "\033[?5h\033#8\033[5;5H\033[1\"qheld\033[?2J", "\033[1;80Hab",
    };
    vt220 x = VT220_INIT, shown = opened("anything");
    size_t len;
    CHECK(vt220_open_as(&x, VT220_XTERM, VT220_ROWS, 80) == VT220_OK);
    feed(&x, "\033[1;7manything\033[7;7H\033[?25l");
    for (size_t i = 0; i < sizeof texts / sizeof *texts; i++) {
        vt220 t = opened(texts[i]);
        CHECK(vt220_draw(i == 0 ? NULL : &shown, &t, &s, out, sizeof out, &len) == VT220_OK);
        check(vt220_feed(&x, out, len, NULL, 0, NULL) == len, "is played", texts[i]);
        check(shows(&x, &t), "shows", texts[i]);
        CHECK(vt220_copy(&shown, &t) == VT220_OK);
        vt220_close(&t);
    }
    vt220_close(&x);
    vt220_close(&shown);
}

static void drawn(void) {
    static const char bold[] = "\033[0;1mab\033[0m";
    vt220 t = opened("\033[1mab\033[m"), narrow = opened("ab"), wide = opened("\033[?3h\033[1mab\033[m"), shut = VT220_INIT;
    size_t len = sizeof ERASE - 1 + sizeof bold - 1, written;
    CHECK(vt220_draw(NULL, &t, &s, out, len, &written) == VT220_OK && written == len);
    CHECK(memcmp(out, ERASE, sizeof ERASE - 1) == 0 && memcmp(out + sizeof ERASE - 1, bold, sizeof bold - 1) == 0);
    CHECK(vt220_draw(&narrow, &wide, &s, other, len, &written) == VT220_OK && written == len && memcmp(out, other, len) == 0);
    CHECK(vt220_draw(NULL, &t, &s, other, len - 1, &written) == VT220_ROOM && written == len && vt220_draw(NULL, &t, &s, NULL, 0, &written) == VT220_ROOM);
    CHECK(vt220_draw(&narrow, &t, &s, NULL, 0, &written) == VT220_ROOM && written == 6 + sizeof bold - 1);
    CHECK(vt220_draw(NULL, &shut, &s, out, len, &written) == VT220_CLOSED && vt220_draw(&t, &shut, &s, out, len, &written) == VT220_CLOSED);
    CHECK(vt220_draw(&shut, &t, &s, out, len, &written) == VT220_CLOSED && written == 0);
    vt220_close(&t);
    vt220_close(&narrow);
    vt220_close(&wide);
}

static void changed_cells(void) {
    vt220 a = opened("abc\033[5;10Hx"), b = opened("aBc\033[5;10H\033[1mx"), wide = opened("\033[?3habc");
    vt220_row_marks marks;
    memset(&marks, 0xA5, sizeof marks);
    CHECK(vt220_row_changes(&a, &b, 1, &marks) == VT220_OK && marks.width == 80 && RESERVED(marks));
    for (size_t c = 1; c <= VT220_COLUMNS; c++) CHECK(marks.changed[c - 1] == (c == 2));
    CHECK(vt220_row_changes(&a, &wide, 1, &marks) == VT220_OK && marks.width == 132);
    for (size_t c = 1; c <= VT220_COLUMNS; c++) CHECK(marks.changed[c - 1] == (c > 80));
    for (int i = 0; i < 2; i++) {
        CHECK(vt220_row_changes(i == 0 ? &wide : &a, &a, 1, &marks) == VT220_OK && marks.width == 80);
        for (size_t c = 1; c <= VT220_COLUMNS; c++) CHECK(!marks.changed[c - 1]);
    }
    marks.width = 7;
    CHECK(vt220_row_changes(&a, &b, 0, &marks) == VT220_NO_ROW && vt220_row_changes(&a, &b, 25, &marks) == VT220_NO_ROW && marks.width == 7);
    vt220_close(&a);
    CHECK(vt220_row_changes(&a, &b, 1, &marks) == VT220_CLOSED && vt220_row_changes(&b, &a, 1, &marks) == VT220_CLOSED && marks.width == 7);
    vt220_close(&b);
    vt220_close(&wide);
}

/* An update of a terminal to itself. */
static void to_itself(void) {
    vt220 t = opened("x"), before = opened("x");
    size_t written = 9;
    CHECK(vt220_update(&t, &t, &s, NULL, 0, &written) == VT220_OK && written == 0 && vt220_same_state(&t, &before) && vt220_same_state(&t, &t));
    feed(&t, "\033[");
    CHECK(vt220_update(&t, &t, &s, out, sizeof out, &written) == VT220_PARTIAL && written == 0);
    vt220_close(&t), vt220_close(&before);
    CHECK(!vt220_same_state(&t, &t) && vt220_update(&t, &t, &s, out, sizeof out, &written) == VT220_CLOSED);
}

static void logs(void) {
    static uint8_t lines[VT220_ROW_TEXT_LIMIT];
    vt220 t = opened(""), u = opened("");
    /* Nothing is played without free bytes for a report and for a line, or with a closed handle. */
    uint8_t reports[10];
    size_t written = 9, lines_written = 9;
    vt220_scratch closed = VT220_INIT;
    CHECK(vt220_feed_log(&t, &s, (const uint8_t *)"a", 1, reports, 9, &written, lines, 397, &lines_written) == 0 && written == 0 && lines_written == 0);
    CHECK(vt220_feed_log(&t, &s, (const uint8_t *)"a", 1, reports, 10, &written, lines, 396, &lines_written) == 0 && written == 0 && lines_written == 0);
    CHECK(vt220_feed_log(&t, &s, (const uint8_t *)"a", 1, NULL, 0, &written, NULL, 0, &lines_written) == 0 && written == 0 && lines_written == 0);
    CHECK(vt220_feed_log(&t, &s, NULL, 0, NULL, 0, &written, NULL, 0, &lines_written) == 0 && written == 0 && lines_written == 0);
    CHECK(vt220_feed_log(&t, &closed, (const uint8_t *)"a", 1, reports, 10, &written, lines, 397, &lines_written) == 0 && lines_written == 0);
    vt220_close(&t);
    written = lines_written = 9;
    CHECK(vt220_feed_log(&t, &s, (const uint8_t *)"a", 1, reports, 10, &written, lines, 397, &lines_written) == 0 && written == 0 && lines_written == 0);
    vt220_close(&u);
}

/* A null pointer of length 0 is allowed. */
static void null_pointers(void) {
    vt220 t = opened("abc"), before = opened("abc");
    size_t written = 9, logged = 9;
    CHECK(vt220_feed(&t, NULL, 0, NULL, 0, &written) == 0 && written == 0 && vt220_feed(&t, NULL, 0, NULL, 0, NULL) == 0);
    CHECK(vt220_feed_log(&t, &s, NULL, 0, NULL, 0, NULL, NULL, 0, &logged) == 0 && logged == 0 && vt220_same_state(&t, &before));
    vt220_close(&before);
    CHECK(vt220_feed(&t, (const uint8_t *)"d", 1, NULL, 0, &written) == 0 && written == 0);
    CHECK(vt220_text(&t, &s, NULL, 0, &written) == VT220_ROOM && written == 4 + 23);
    CHECK(vt220_repaint(&t, &s, NULL, 0, &written) == VT220_ROOM && written > 0);
    CHECK(vt220_row(&t, 1, NULL, 0) == 0);
    vt220_close(&t);
}

/* Input with more replies than any buffer of the library holds. If they are dropped, all of it is processed, and `reports` isn't used. */
static void dropped_replies(void) {
    static uint8_t many[70000], lines[20 * 81];
    vt220 t = opened("\033[12;70H"), u = opened("\033[12;70H");
    size_t written, logged;
    for (size_t i = 0; i < sizeof many; i += 5) memcpy(many + i, "\033[6n\a", 5);
    CHECK(vt220_feed(&t, many, sizeof many, NULL, 0, NULL) == sizeof many && vt220_bells(&t) == sizeof many / 5);
    memset(out, 0xA5, sizeof out);
    CHECK(vt220_feed(&t, many, sizeof many, out, sizeof out, NULL) == sizeof many && out[0] == 0xA5 && vt220_same_state(&t, &u));
    /* As many lines as have room, whatever the replies. */
    memset(many, 'x', sizeof many);
    for (size_t i = 0; i + 80 < sizeof many; i += 81) memcpy(many + i, "\033[6n", 4);
    size_t taken = vt220_feed_log(&t, &s, many, sizeof many, NULL, 0, NULL, lines, sizeof lines, &logged);
    CHECK(taken < sizeof many && logged <= sizeof lines && sizeof lines - logged < VT220_ROW_TEXT_LIMIT);
    CHECK(vt220_feed(&u, many, taken, other, sizeof other, &written) == taken && written > 0 && vt220_same_state(&t, &u));
    CHECK(vt220_feed_log(&t, &s, (const uint8_t *)"a", 1, NULL, 0, NULL, lines, VT220_ROW_TEXT_LIMIT - 1, &logged) == 0 && logged == 0);
    vt220_close(&t);
    vt220_close(&u);
    CHECK(vt220_feed(&t, many, 4, NULL, 0, NULL) == 0);
    CHECK(vt220_feed_log(&t, &s, many, 4, NULL, 0, NULL, lines, sizeof lines, &logged) == 0 && logged == 0);
}

static void statuses(void) {
    CHECK(strcmp(vt220_status_text(VT220_CLOSED), "a handle is closed") == 0);
    CHECK(strcmp(vt220_status_text(VT220_PARTIAL), "a terminal is inside a sequence") == 0);
    for (uint32_t status = 0; status < 14; status++) {
        CHECK(vt220_status_text(status) != NULL && strcmp(vt220_status_text(status), "unknown status") != 0);
        for (uint32_t before = 0; before < status; before++) CHECK(strcmp(vt220_status_text(status), vt220_status_text(before)) != 0);
    }
    CHECK(strcmp(vt220_status_text(VT220_SIZE), "two handles have different sizes") == 0 && strcmp(vt220_status_text(VT220_NO_SIZE), "there is no such size") == 0);
    CHECK(strcmp(vt220_status_text(VT220_NO_LANGUAGE), "there is no such language") == 0);
    CHECK(strcmp(vt220_status_text(14), "unknown status") == 0 && strcmp(vt220_status_text(UINT32_MAX), "unknown status") == 0);
}

int main(void) {
    CHECK(vt220_scratch_open(&s) == VT220_OK);
    bells();
    for (uint32_t language = VT220_BYTES; language <= VT220_XTERM; language++) resets_and_copies(language);
    rows_as_text();
    shown_and_drawn();
    drawn_from();
    drawn_under_xterm();
    drawn();
    changed_cells();
    to_itself();
    logs();
    null_pointers();
    dropped_replies();
    statuses();
    vt220_scratch_close(&s);
    return finish("calls");
}
