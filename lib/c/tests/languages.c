/* languages: what the rows can't show of UTF-8 and of TERM=xterm: closed handles, null pointers, buffers and statuses. It is by hand from the header. */
#include "check.h"

static vt220_scratch s = VT220_INIT;

static vt220 opened(void) { return opened_as(VT220_XTERM, VT220_ROWS, 80, ""); }

/* Returns whether the screen has this text, and no other rows. */
static bool shows(const vt220 *t, const char *text) {
    static char found[VT220_TEXT_LIMIT + 1];
    size_t len;
    CHECK(vt220_text(t, &s, (uint8_t *)found, VT220_TEXT_LIMIT, &len) == VT220_OK);
    while (len > 0 && found[len - 1] == '\n') len--;
    return len == strlen(text) && memcmp(found, text, len) == 0;
}

static bool is_pending(const vt220 *t, const char *bytes) {
    uint8_t pending[3];
    size_t len = strlen(bytes);
    return put_pending(t, pending) == len && memcmp(pending, bytes, len) == 0;
}

/* --- characters --- */

/* What no text of lib/tests has, and a null pointer. tests/model compares all characters by the other bindings. */
static void shown(void) {
    static const uint32_t none[] = {0xD800, 0xDFFF, 0x110000, UINT32_MAX};
    size_t cells = 7;
    for (size_t i = 0; i < sizeof none / sizeof none[0]; i++) CHECK(vt220_shown(none[i], &cells) == 0x2426 && cells == 1);
    CHECK(vt220_shown(0x65E5, &cells) == 0x2426 && cells == 2 && vt220_shown(0x301, &cells) == 0 && cells == 0 && vt220_shown(0x201C, NULL) == '"');
}

/* --- handles and buffers --- */

/* A closed handle or a buffer without capacity changes nothing. No bytes and null pointers are allowed, and a null `written` drops the replies. */
static void refusals(uint32_t language, size_t limit) {
    static uint8_t lines[VT220_XTERM_LINES_LIMIT];
    vt220 t = VT220_INIT;
    vt220_scratch closed = VT220_INIT;
    uint8_t reports[16];
    size_t written = 9, off = 9;
    CHECK(vt220_feed(&t, BYTES("a"), reports, sizeof reports, &written) == 0 && written == 0 && is_pending(&t, ""));
    written = 9;
    CHECK(vt220_feed_log(&t, &s, BYTES("a"), reports, sizeof reports, &written, lines, sizeof lines, &off) == 0 && written == 0 && off == 0);
    t = opened_as(language, VT220_ROWS, 80, "\xE2\x96");
    written = off = 9;
    CHECK(vt220_feed_log(&t, &closed, BYTES("a"), reports, sizeof reports, &written, lines, sizeof lines, &off) == 0 && written == 0 && off == 0);
    off = 9;
    CHECK(vt220_feed_log(&t, &closed, BYTES("a"), NULL, 0, NULL, lines, sizeof lines, &off) == 0 && off == 0);
    CHECK(vt220_feed(&t, NULL, 0, NULL, 0, &written) == 0 && written == 0 && is_pending(&t, "\xE2\x96") && shows(&t, ""));
    CHECK(vt220_feed_log(&t, &s, NULL, 0, NULL, 0, &written, NULL, 0, &off) == 0 && written == 0 && off == 0);
    CHECK(vt220_feed(&t, BYTES("\x88"), NULL, 0, &written) == 0 && vt220_feed(&t, BYTES("\x88"), reports, VT220_REPORT_LIMIT - 1, &written) == 0 && written == 0);
    CHECK(vt220_feed_log(&t, &s, BYTES("\x88"), NULL, 0, &written, lines, sizeof lines, &off) == 0 && written == 0 && off == 0);
    CHECK(vt220_feed_log(&t, &s, BYTES("\x88"), reports, VT220_REPORT_LIMIT - 1, &written, lines, sizeof lines, &off) == 0);
    CHECK(vt220_feed_log(&t, &s, BYTES("\x88"), reports, VT220_REPORT_LIMIT, &written, NULL, 0, &off) == 0 && off == 0);
    CHECK(vt220_feed_log(&t, &s, BYTES("\x88"), reports, VT220_REPORT_LIMIT, &written, lines, limit - 1, &off) == 0 && is_pending(&t, "\xE2\x96") && shows(&t, ""));
    CHECK(vt220_feed_log(&t, &s, BYTES("\x88"), reports, VT220_REPORT_LIMIT, &written, lines, limit, &off) == 1 && written == 0 && off == 0 && is_pending(&t, "") && shows(&t, "#"));
    CHECK(vt220_feed(&t, BYTES("é\033[6n\033[cü\xC3"), NULL, 0, NULL) == 12 && shows(&t, "#éü") && is_pending(&t, "\xC3"));
    CHECK(vt220_feed_log(&t, &s, BYTES("\xA9\033[6n\033[24H\n"), NULL, 0, NULL, lines, sizeof lines, &off) == 11 && off == 8 && memcmp(lines, "#éüé\n", 8) == 0);
    vt220_close(&t);
}

/* A repaint of both pages. What is pending stays, and isn't written. */
static void repaint_into(void) {
    static uint8_t out[VT220_XTERM_PAINT_LIMIT];
    vt220 p = opened_as(VT220_XTERM, VT220_ROWS, 80, "x\xE2\x80"), no_terminal = VT220_INIT;
    vt220_scratch no_scratch = VT220_INIT;
    size_t len = 9;
    CHECK(vt220_repaint_as(&no_terminal, VT220_XTERM, &s, out, sizeof out, &len) == VT220_CLOSED && len == 0);
    len = 9;
    CHECK(vt220_repaint(&p, &no_scratch, out, sizeof out, &len) == VT220_CLOSED && len == 0);
    CHECK(vt220_repaint(&p, &s, NULL, 0, &len) == VT220_ROOM && len > 0);
    CHECK(vt220_repaint(&p, &s, out, len, &len) == VT220_OK && memcmp(out, "\033[?40h\033c", 8) == 0 && is_pending(&p, "\xE2\x80"));
    vt220_close(&p);
}

static void handles(void) {
    vt220 t = VT220_INIT, moved;
    uint8_t out[20], pending[3] = {1, 2, 3};
    size_t written = 9;
    CHECK(!kept_by(&t).alternate && !kept_by(&t).bracketed_paste && kept_by(&t).language == VT220_BYTES && put_pending(&t, pending) == 0 && pending[2] == 3);
    CHECK(vt220_open_as(&t, 4, VT220_ROWS, 80) == VT220_NO_LANGUAGE && vt220_open_as(&t, UINT32_MAX, VT220_ROWS, 80) == VT220_NO_LANGUAGE && !vt220_is_open(&t));
    CHECK(vt220_open_as(&t, VT220_UTF8 | VT220_XTERM, VT220_ROWS, 80) == VT220_OK && vt220_open_as(&t, VT220_XTERM, VT220_ROWS, 80) == VT220_IN_USE && vt220_open(&t) == VT220_IN_USE);
    CHECK(vt220_open_as(&t, 4, VT220_ROWS, 80) == VT220_IN_USE && vt220_is_open(&t) && kept_by(&t).language == VT220_XTERM && vt220_bells(&t) == 0);
    CHECK(vt220_feed(&t, BYTES("a\a\033[?47h"), out, sizeof out, &written) == 8 && written == 0 && kept_by(&t).alternate);
    memcpy(&moved, &t, sizeof t), memset(&t, 0, sizeof t);
    CHECK(!kept_by(&t).alternate && kept_by(&moved).alternate && vt220_bells(&moved) == 1);
    vt220_close(&moved), vt220_close(&moved);
    CHECK(!vt220_is_open(&moved) && !kept_by(&moved).alternate && vt220_bells(&moved) == 0);
    CHECK(vt220_feed(&moved, BYTES("\033[?47h"), out, sizeof out, &written) == 0 && written == 0 && kept_by(&moved).language == VT220_BYTES);
}

/* A repaint as of a VT220 and an update are for terminals of both its languages. None is for TERM=xterm, and the other way round. */
static void other_languages(void) {
    static uint8_t out[VT220_XTERM_PAINT_LIMIT];
    vt220 p = opened_as(VT220_XTERM, VT220_ROWS, 80, "main\033[?1049halt\303\251\xE2"), other = VT220_INIT;
    size_t len;
    for (uint32_t language = VT220_BYTES; language <= VT220_UTF8; language++) {
        vt220 q = opened_as(language, VT220_ROWS, 80, "old\033[3");
        CHECK(vt220_repaint_as(&p, language, &s, out, sizeof out, &len) == VT220_OK && vt220_feed(&q, out, len, NULL, 0, NULL) == len);
        CHECK(vt220_same_state(&p, &q) && !kept_by(&q).alternate);
        CHECK(vt220_feed(&p, BYTES("\xC3\x84"), NULL, 0, NULL) == 2 && vt220_update(&q, &p, &s, out, sizeof out, &len) == VT220_OK && len > 0 && vt220_same_state(&p, &q));
        len = 9;
        CHECK(vt220_repaint_as(&q, VT220_XTERM, &s, out, sizeof out, &len) == VT220_LANGUAGE && len == 0);
        vt220_close(&q);
    }
    len = 9;
    CHECK(vt220_repaint_as(&p, 4, &s, out, sizeof out, &len) == VT220_NO_LANGUAGE && len == 0);
    CHECK(vt220_open(&other) == VT220_OK && vt220_update(&p, &other, &s, out, sizeof out, &len) == VT220_LANGUAGE && len == 0);
    CHECK(vt220_copy(&p, &other) == VT220_LANGUAGE && kept_by(&p).alternate);
    vt220_close(&p), vt220_close(&other);
}

static void copied_handles(void) {
    vt220 p = opened(), q = opened(), none = VT220_INIT;
    CHECK(vt220_feed(&p, BYTES("main\033[?47halt\xE2"), NULL, 0, NULL) == 14);
    CHECK(vt220_copy(&none, &p) == VT220_CLOSED && vt220_copy(&p, &none) == VT220_CLOSED && vt220_copy(&none, &none) == VT220_CLOSED);
    CHECK(!vt220_is_open(&none) && kept_by(&p).alternate);
    /* to itself, also by a handle that was moved */
    vt220 same = p;
    CHECK(vt220_copy(&p, &p) == VT220_OK && vt220_copy(&p, &same) == VT220_OK);
    CHECK(kept_by(&p).alternate && is_pending(&p, "\xE2"));
    /* the first one doesn't change the second after the copy */
    CHECK(vt220_copy(&q, &p) == VT220_OK && vt220_feed(&p, BYTES("\033c"), NULL, 0, NULL) == 2);
    CHECK(vt220_feed(&q, BYTES("\033[?47l"), NULL, 0, NULL) == 6 && shows(&q, "main") && !kept_by(&q).alternate);
    /* what is pending goes to a terminal in UTF-8, and the page that is shown to a VT220 */
    vt220 utf8 = VT220_INIT, bytes = VT220_INIT;
    CHECK(vt220_open_as(&utf8, VT220_UTF8, VT220_ROWS, 80) == VT220_OK && vt220_open(&bytes) == VT220_OK && vt220_feed(&p, BYTES("é\xE2"), NULL, 0, NULL) == 3);
    CHECK(vt220_copy(&utf8, &p) == VT220_OK && is_pending(&utf8, "\xE2") && vt220_same_state(&utf8, &p) && kept_by(&utf8).language == VT220_UTF8);
    CHECK(vt220_copy(&bytes, &utf8) == VT220_OK && vt220_same_state(&bytes, &p) && vt220_copy(&utf8, &bytes) == VT220_OK && is_pending(&utf8, ""));
    vt220_close(&p), vt220_close(&utf8), vt220_close(&bytes);
    CHECK(vt220_feed(&q, BYTES("\033[?47h"), NULL, 0, NULL) == 6 && shows(&q, "    alt␦"));
    vt220_close(&q);
}

int main(void) {
    CHECK(vt220_scratch_open(&s) == VT220_OK);
    shown();
    refusals(VT220_UTF8, VT220_UTF8_LINES_LIMIT), refusals(VT220_XTERM, VT220_XTERM_LINES_LIMIT);
    repaint_into(), handles(), other_languages(), copied_handles();
    vt220_scratch_close(&s);
    return finish("languages");
}
