/* refused: each allocation refused in turn. Linked with --wrap=malloc,--wrap=realloc,--wrap=free. */
#include "check.h"

void *__real_malloc(size_t size);
void *__real_realloc(void *at, size_t size);
void __real_free(void *at);
void *__wrap_malloc(size_t size);
void *__wrap_realloc(void *at, size_t size);
void __wrap_free(void *at);

/* How many calls are granted before one is refused; how many there were; how many blocks are out. */
static unsigned long granted = ~0ul, calls;
static long blocks;

static bool refuses(void) { return calls++ == granted; }

void *__wrap_malloc(size_t size) {
    void *at = refuses() ? NULL : __real_malloc(size);
    blocks += at != NULL;
    return at;
}

void *__wrap_realloc(void *at, size_t size) {
    void *to = refuses() ? NULL : __real_realloc(at, size);
    blocks += at == NULL && to != NULL;
    return to;
}

void __wrap_free(void *at) {
    blocks -= at != NULL;
    __real_free(at);
}

/* A scratch buffer, or a terminal for one of the languages. */
enum kind { BYTES_OF_A_VT220 = VT220_BYTES, UTF8 = VT220_UTF8, XTERM = VT220_XTERM, SCRATCH };

typedef union handle {
    vt220 t;
    vt220_scratch s;
} handle;

static uint32_t open_one(handle *h, enum kind kind) {
    return kind == SCRATCH ? vt220_scratch_open(&h->s) : vt220_open_as(&h->t, (uint32_t)kind, VT220_ROWS, 80);
}

static void close_one(handle *h, enum kind kind) {
    if (kind == SCRATCH) vt220_scratch_close(&h->s);
    else vt220_close(&h->t);
}

static bool is_closed(const handle *h, enum kind kind) {
    if (kind == SCRATCH) return !vt220_scratch_is_open(&h->s) && h->s.room == NULL;
    return !vt220_is_open(&h->t) && h->t.terminal == NULL && h->t.bells == 0;
}

static void each_refused(enum kind kind) {
    handle h;
    unsigned long needed = 0;
    for (unsigned long n = 0;; n++) {
        memset(&h, 0, sizeof h);
        granted = n, calls = 0;
        uint32_t status = open_one(&h, kind);
        granted = ~0ul;
        if (status == VT220_OK) break;
        CHECK(status == VT220_MEMORY && blocks == 0 && is_closed(&h, kind));
        needed = n + 1;
    }
    CHECK(needed >= 2 && blocks > 0);
    /* open already: no memory is taken */
    calls = 0;
    CHECK(open_one(&h, kind) == VT220_IN_USE && calls == 0);
    close_one(&h, kind);
    CHECK(blocks == 0);
}

/* A resize without memory leaves the terminal, and a scratch buffer serves what it served. */
static void each_change_refused(uint32_t language) {
    static uint8_t out[VT220_TEXT_LIMIT];
    vt220 t = VT220_INIT, before = VT220_INIT;
    vt220_scratch s = VT220_INIT;
    size_t written;
    CHECK(vt220_open_as(&t, language, VT220_ROWS, 80) == VT220_OK && vt220_open_as(&before, language, VT220_ROWS, 80) == VT220_OK && vt220_scratch_open(&s) == VT220_OK);
    CHECK(vt220_feed(&t, BYTES("text\a\033[1"), NULL, 0, NULL) == 8 && vt220_copy(&before, &t) == VT220_OK);
    long held = blocks;
    for (unsigned long n = 0;; n++) {
        granted = n, calls = 0;
        uint32_t status = vt220_resize(&t, 40, 120);
        granted = ~0ul;
        CHECK(blocks == held);
        if (status == VT220_OK) break;
        CHECK(status == VT220_MEMORY && vt220_same_state(&t, &before) && vt220_bells(&t) == 1);
    }
    CHECK(vt220_rows(&t) == 40 && vt220_bells(&t) == 1);
    for (unsigned long n = 0;; n++) {
        granted = n, calls = 0;
        uint32_t status = vt220_scratch_fit(&s, &t);
        granted = ~0ul;
        CHECK(blocks == held);
        if (status == VT220_OK) break;
        CHECK(status == VT220_MEMORY && vt220_text(&before, &s, out, sizeof out, &written) == VT220_OK);
    }
    CHECK(vt220_text(&t, &s, out, sizeof out, &written) == VT220_OK);
    calls = 0;
    CHECK(vt220_scratch_fit(&s, &t) == VT220_OK && calls == 0);
    vt220_close(&t);
    vt220_close(&before);
    vt220_scratch_close(&s);
    CHECK(blocks == 0);
}

/* No call but those that open and those that change a size takes memory. */
static void none_taken(void) {
    static uint8_t out[VT220_PICTURE_LIMIT];
    static vt220_cell cells[VT220_COLUMNS];
    vt220 t = VT220_INIT, to = VT220_INIT, u = VT220_INIT, x = VT220_INIT, y = VT220_INIT;
    vt220_scratch s = VT220_INIT;
    vt220_cursor_place cursor;
    vt220_margin_rows margins;
    vt220_mode_set modes;
    memset(&modes, 0, sizeof modes);
    size_t written;
    CHECK(vt220_open(&t) == VT220_OK && vt220_open(&to) == VT220_OK && vt220_scratch_open(&s) == VT220_OK);
    CHECK(vt220_open_as(&u, VT220_UTF8, VT220_ROWS, 80) == VT220_OK && vt220_open_as(&x, VT220_XTERM, VT220_ROWS, 80) == VT220_OK && vt220_open_as(&y, VT220_XTERM, VT220_ROWS, 80) == VT220_OK);
    calls = 0;
    CHECK(vt220_feed(&t, BYTES("\033[?3h\033[6nx\n"), out, 110, &written) == 11 && written == 6);
    CHECK(vt220_text(&t, &s, out, sizeof out, &written) == VT220_OK && vt220_repaint(&t, &s, out, sizeof out, &written) == VT220_OK);
    CHECK(vt220_update(&to, &t, &s, out, sizeof out, &written) == VT220_OK && vt220_same_state(&t, &to));
    static uint8_t lines[VT220_ROW_TEXT_LIMIT];
    size_t logged;
    CHECK(vt220_feed_log(&t, &s, BYTES("y\033[24H\n"), out, 100, &written, lines, sizeof lines, &logged) == 7 && logged > 0);
    CHECK(vt220_update(&to, &t, &s, out, sizeof out, &written) == VT220_OK && vt220_same_state(&t, &to));
    CHECK(vt220_row(&t, 1, cells, VT220_COLUMNS) == 132 && vt220_cursor(&t, &cursor) && vt220_margins(&t, &margins) && vt220_modes(&t, &modes));
    CHECK(vt220_width(&t) == 132 && vt220_is_between(&t) && vt220_held_kind(&t) == VT220_HELD_NOTHING && vt220_version() > 0);
    vt220_brush_look brush;
    vt220_graphic_sets sets;
    vt220_tab_stops stops;
    vt220_saved_record saved;
    vt220_row_marks marks;
    CHECK(vt220_brush(&t, &brush) && vt220_sets(&t, &sets) && vt220_stops(&t, &stops) && vt220_saved(&t, &saved) && vt220_bells(&t) == 0);
    CHECK(vt220_show(&t, &s, out, sizeof out, &written) == VT220_OK && vt220_picture(&t, &s, out, sizeof out, &written) == VT220_OK);
    CHECK(vt220_draw(NULL, &t, &s, out, sizeof out, &written) == VT220_OK && vt220_draw(&to, &t, &s, out, sizeof out, &written) == VT220_OK);
    CHECK(vt220_row_text(&t, &s, 1, out, sizeof out, &written) == VT220_OK && vt220_row_changes(&t, &to, 1, &marks) == VT220_OK);
    CHECK(vt220_feed(&t, BYTES("\033[1;2;3\a"), out, sizeof out, &written) == 8 && vt220_bells(&t) == 1);
    CHECK(vt220_copy(&to, &t) == VT220_OK && vt220_same_state(&to, &t) && vt220_reset(&t) == VT220_OK && vt220_status_text(0) != NULL);
    CHECK(vt220_feed(&x, BYTES("\033[?1049h\033[3G\xC3\xA9\a\033[6n"), out, 220, &written) == 19 && written == 6 && kept_by(&x).alternate);
    static uint8_t xterm_lines[VT220_XTERM_LINES_LIMIT];
    CHECK(vt220_feed_log(&x, &s, BYTES("\033[?1049l\xC3\xA9\033[99S"), out, 220, &written, xterm_lines, sizeof xterm_lines, &logged) == 15);
    CHECK(logged > 0 && vt220_copy(&y, &x) == VT220_OK && !kept_by(&y).alternate);
    CHECK(vt220_feed(&u, BYTES("\xC3\xA9\a\033[5n"), out, 220, &written) == 7 && written == 4);
    CHECK(vt220_feed_log(&u, &s, BYTES("\xC3\xA9\a\033[24;1H\n"), out, 220, &written, xterm_lines, sizeof xterm_lines, &logged) == 11 && logged > 0);
    CHECK(vt220_repaint(&x, &s, out, sizeof out, &written) == VT220_OK && written > 0 && vt220_reset(&x) == VT220_OK && put_pending(&x, out) == 0);
    CHECK(vt220_repaint_as(&y, VT220_BYTES, &s, out, sizeof out, &written) == VT220_OK && kept_by(&y).language == VT220_XTERM && !kept_by(&y).bracketed_paste);
    CHECK(calls == 0);
    vt220_close(&t);
    vt220_close(&to);
    vt220_scratch_close(&s);
    vt220_close(&u);
    vt220_close(&x);
    vt220_close(&y);
    CHECK(blocks == 0 && calls == 0);
}

int main(void) {
    each_refused(BYTES_OF_A_VT220), each_refused(UTF8), each_refused(XTERM), each_refused(SCRATCH);
    each_change_refused(VT220_BYTES), each_change_refused(VT220_UTF8), each_change_refused(VT220_XTERM);
    none_taken();
    return finish("refused");
}
