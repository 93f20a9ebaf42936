/* rows FILE: the rows of FILE, which is screens.rows of lib/rows/flat.py, in chunks and buffers of all kinds, with their log and without it. The repaint of each
 * leads there from other states, as an update does. */
#include "rows.h"

enum { WHOLE = 40000, ROOM = 14000000 };

static vt220_scratch s = VT220_INIT;
static uint8_t out[ROOM], other[ROOM];
static const char *name;

/* A row. `terminal` is what has played it. */
typedef struct row {
    uint32_t language;
    size_t rows, columns, other_rows, other_columns;
    bytes input, more;
    const char *wanted, *repaint;
} row;

static void resize(const row *r, vt220 *t) {
    if (r->other_rows > 0) check(vt220_resize(t, r->other_rows, r->other_columns) == VT220_OK, "another size", name);
    check(vt220_scratch_fit(&s, t) == VT220_OK, "a scratch buffer", name);
}

/* Feeds bytes in chunks of a length, or of lengths from 1 to 9 by a seed if that is negative. */
static void feed(vt220 *t, const bytes *input, long chunk, size_t size, bool with_log, size_t lines_size, bytes *replies, bytes *lines) {
    unsigned seed = (unsigned)-chunk;
    for (size_t at = 0, len; at < input->len; at += len) {
        len = chunk > 0 ? (size_t)chunk : 1 + (seed = seed * 1103515245u + 12345u) / 65536 % 9;
        if (len > input->len - at) len = input->len - at;
        play(t, with_log ? &s : NULL, input->at + at, len, size, lines_size, replies, lines);
    }
}

/* Appends a name, and a value in hex. */
static void append_hex(bytes *to, const char *title, const uint8_t *from, size_t len) {
    char digits[3];
    append(to, (const uint8_t *)title, strlen(title));
    for (size_t i = 0; i < len; i++) snprintf(digits, sizeof digits, "%02x", from[i]), append(to, (uint8_t *)digits, 2);
}

/* Checks what a terminal has, by the names of lib/rows/vectors.txt, and what it returned. */
static void check_wanted(const row *r, const vt220 *t, const bytes *replies, const bytes *lines) {
    vt220_cursor_place cursor;
    vt220_brush_look look;
    vt220_language_state kept = kept_by(t);
    bytes found = {0};
    char text[200];
    size_t len;
    CHECK(vt220_show(t, &s, out, sizeof out, &len) == VT220_OK && vt220_cursor(t, &cursor) && vt220_brush(t, &look));
    while (len > 0 && out[len - 1] == '\n') len--;
    append_hex(&found, "text ", out, len);
    const char *const looks[] = {look.bold ? " bold" : "", look.underline ? " underline" : "", look.blink ? " blink" : "", look.reverse ? " reverse" : ""};
    snprintf(text, sizeof text, " cursor %zu;%zu wrap %d brush%s%s%s%s%s alternate %d paste %d bells %lu", cursor.row, cursor.col, cursor.wrap, looks[0], looks[1], looks[2],
             looks[3], look.bold || look.underline || look.blink || look.reverse ? "" : " ", kept.alternate, kept.bracketed_paste, (unsigned long)vt220_bells(t));
    append(&found, (uint8_t *)text, strlen(text));
    append_hex(&found, " pending ", kept.pending, kept.pending_len), append_hex(&found, " reports ", replies->at, replies->len);
    append_hex(&found, " lines ", lines->at, lines->len), append(&found, (const uint8_t *)"", 1);
    check(strcmp((char *)found.at, r->wanted) == 0, "what the terminal has", name);
    if (strcmp((char *)found.at, r->wanted) != 0) fprintf(stderr, "  expected: %s\n  got: %s\n", r->wanted, (char *)found.at);
    free(found.at);
}

/* Plays the row. Returns the terminal. Without a log the lines aren't compared. */
static vt220 played(const row *r, long chunk, size_t size, bool with_log, size_t lines_size) {
    vt220 t = opened_as(r->language, r->rows, r->columns, "");
    bytes replies = {0}, lines = {0};
    vt220_scratch_fit(&s, &t);
    feed(&t, &r->input, chunk, size, with_log, lines_size == 0 ? vt220_limit(&t, VT220_OF_LINES) : lines_size, &replies, &lines);
    resize(r, &t);
    feed(&t, &r->more, chunk, size, with_log, lines_size == 0 ? vt220_limit(&t, VT220_OF_LINES) : lines_size, &replies, &lines);
    if (!with_log && r->wanted[0] != '-') {
        free(lines.at);
        lines = unhexed(strstr(r->wanted, " lines ") + strlen(" lines "));
    }
    if (r->wanted[0] != '-') check_wanted(r, &t, &replies, &lines);
    free(replies.at), free(lines.at);
    return t;
}

/* Both show the same, and so do their alternate and their main pages. */
static void same_pages(vt220 *p, vt220 *q) {
    static const char *const switches[] = {"", "\030\033[?47h", "\033[?47l"};
    for (size_t i = 0; i < sizeof switches / sizeof switches[0]; i++) {
        const uint8_t *bytes = (const uint8_t *)switches[i];
        size_t len = strlen(switches[i]);
        CHECK(vt220_feed(p, bytes, len, NULL, 0, NULL) == len && vt220_feed(q, bytes, len, NULL, 0, NULL) == len && vt220_same_state(p, q));
        CHECK(kept_by(p).alternate == kept_by(q).alternate && kept_by(p).bracketed_paste == kept_by(q).bracketed_paste);
    }
}

/* What a terminal is rebuilt over: text and modes, and under TERM=xterm pages, margins, and parts of sequences and characters. */
static const char *const others[] = {"\033[?3h\033[5mx\033[?6h\033(0\033[3;7r\0337", "", "\033[?40h\033[?3hwide\0337\033[?2004h\033[?47hwide\033]0;t",
                                     "\033[3;9r\033[?69h\033[5;20s\033[?6h\033[2;16Hx\xE2\x82"};

/* Returns a terminal of the row that shows something else. */
static vt220 begun(const row *r, const char *text) {
    vt220 t = opened_as(r->language, r->rows, r->columns, text);
    resize(r, &t);
    return t;
}

/* Checks that bytes, and then what is pending, lead another terminal to the state of `t`, without a report. */
static void leads(const row *r, const vt220 *t, vt220 from, const uint8_t *sent, size_t len, long chunk, const char *what) {
    const bytes all = {(uint8_t *)sent, len, 0};
    vt220_language_state kept = kept_by(t);
    vt220 like = begun(r, "");
    bytes replies = {0};
    feed(&from, &all, chunk, 5120, false, 0, &replies, NULL);
    CHECK(r->language == VT220_BYTES || kept_by(&from).pending_len == 0);
    CHECK(vt220_feed(&from, kept.pending, kept.pending_len, NULL, 0, NULL) == kept.pending_len && vt220_copy(&like, t) == VT220_OK);
    check(replies.len == 0 && vt220_same_state(&from, &like), what, name);
    check(memcmp(kept_by(&from).pending, kept.pending, 3) == 0 && kept_by(&from).alternate == kept.alternate, what, name);
    if (r->language == VT220_XTERM) same_pages(&from, &like);
    free(replies.at);
    vt220_close(&from), vt220_close(&like);
}

/* Checks that there is no repaint inside a sequence, and no update. */
static void check_partial(const row *r, const vt220 *t) {
    vt220 shown = begun(r, "");
    size_t written;
    CHECK(vt220_repaint(t, &s, out, sizeof out, &written) == VT220_PARTIAL && written == 0 && vt220_held_kind(t) != VT220_HELD_NOTHING);
    CHECK(r->language == VT220_XTERM || (vt220_update(&shown, t, &s, out, sizeof out, &written) == VT220_PARTIAL && written == 0));
    vt220_close(&shown);
}

/* Checks the repaint, and that it leads there from other states, as an update does. */
static void check_repaint(const row *r, const vt220 *t) {
    size_t count = r->language == VT220_XTERM ? sizeof others / sizeof others[0] : 2, len, written;
    bool is_known = r->repaint[0] != '-';
    bytes wanted = unhexed(is_known ? r->repaint : "");
    CHECK(vt220_repaint(t, &s, out, sizeof out, &len) == VT220_OK && len > 0 && vt220_is_between(t) && vt220_held_kind(t) == VT220_HELD_NOTHING);
    if (is_known) check_same(&wanted, out, len, name, "the repaint");
    for (size_t i = 0; i < count; i++) leads(r, t, begun(r, others[i]), out, len, i % 2 == 0 ? WHOLE : 7, "the repaint");
    free(wanted.at);
    if (r->language == VT220_XTERM) return;
    vt220 shown = begun(r, others[0]);
    CHECK(vt220_update(&shown, t, &s, other, sizeof other, &written) == VT220_OK && written > 0 && vt220_same_state(&shown, t));
    leads(r, t, begun(r, others[0]), other, written, 1, "the update");
    CHECK(vt220_update(&shown, t, &s, other, sizeof other, &written) == VT220_OK && written == 0);
    vt220_close(&shown);
}

static void one_row(char **fields, size_t count) {
    if (count != 10) abort();
    row r = {.language = (uint32_t)strtoul(fields[1], NULL, 10), .rows = strtoul(fields[2], NULL, 10), .columns = strtoul(fields[3], NULL, 10), .input = unhexed(fields[4]),
             .other_rows = strtoul(fields[5], NULL, 10), .other_columns = strtoul(fields[6], NULL, 10), .more = unhexed(fields[7]), .wanted = fields[8], .repaint = fields[9]};
    const size_t all = VT220_REPORT_LIMIT * (r.input.len + r.more.len + 1);
    name = fields[0];
    for (long chunk = 1; chunk <= 8; chunk++) {
        long size = chunk == 8 ? WHOLE : chunk;
        for (int way = 0; way < 4; way++) {
            vt220 t = played(&r, size, way % 2 == 0 ? VT220_REPORT_LIMIT : all, way > 1, way == 3 ? 399999 : 0);
            vt220_close(&t);
        }
    }
    for (long seed = 2; seed < 5; seed++) {
        vt220 t = played(&r, -seed, 10 + 7 * (size_t)seed, false, 0);
        if (vt220_is_between(&t)) check(strcmp(r.repaint, "partial") != 0, "it is inside a sequence", name), check_repaint(&r, &t);
        else check(r.repaint[0] == '-' || strcmp(r.repaint, "partial") == 0, "it isn't inside a sequence", name), check_partial(&r, &t);
        vt220_close(&t);
    }
    free(r.input.at), free(r.more.at);
}

int main(int count, char **words) {
    if (count != 2) return 2;
    CHECK(each_row(words[1], one_row) > 800);
    vt220_scratch_close(&s);
    return finish("rows");
}
