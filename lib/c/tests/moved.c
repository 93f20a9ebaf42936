/* moved: lib/c/vt220.c over stand-ins of the proved calls, which move the blocks of handles that aren't `const`. The handle must have the
 * new block at the next call. It also looks at how input is cut: no byte is searched for BEL again and again. */
#include "check.h"

static size_t searched;

/* Searches as memchr does, and counts the bytes that it reads. */
static const void *search(const void *at, int byte, size_t len) {
    const void *found = memchr(at, byte, len);
    searched += found != NULL ? (size_t)((const uint8_t *)found - (const uint8_t *)at) + 1 : len;
    return found;
}

#define memchr search
#include "../vt220.c"
#undef memchr

#pragma GCC diagnostic ignored "-Wunused-parameter"

enum { BLOCKS = 1000 };

/* A block is an element, and no element is used twice. */
static uint8_t blocks[BLOCKS];
static bool is_live[BLOCKS];
static size_t used;

static void *new_block(void) {
    if (used == BLOCKS) abort();
    is_live[used] = true;
    return &blocks[used++];
}

static void stay(const handle *h) { CHECK(h->is_open && is_live[(uint8_t *)h->at - blocks]); }

static void move(handle *h) {
    stay(h);
    is_live[(uint8_t *)h->at - blocks] = false;
    h->at = new_block();
}

static size_t live_blocks(void) {
    size_t count = 0;
    for (size_t i = 0; i < used; i++) count += is_live[i];
    return count;
}

static uint32_t opens(handle *h) {
    *h = (handle){new_block(), true};
    return VT220_OK;
}

static void closes(handle *h) {
    stay(h);
    is_live[(uint8_t *)h->at - blocks] = false;
    *h = (handle){NULL, false};
}

/* The bytes whose bells the core is asked to count, and those of them that are one. */
static size_t asked, bells;

static size_t feeds(const uint8_t *bytes, size_t len, bool counts, size_t *rung) {
    *rung = 0;
    for (size_t i = 0; i < len && counts; i++) *rung += bytes[i] == BEL;
    asked += counts ? len : 0, bells += *rung;
    return len;
}

uint32_t core_version(void) { return VT220_VERSION; }
uint32_t core_open(handle *t, size_t rows, size_t columns) { return opens(t); }
uint32_t core_resized(handle *resized, handle *t, size_t rows, size_t columns) { return stay(t), opens(resized); }
uint32_t core_scratch_open(handle *s) { return opens(s); }
uint32_t core_scratch_fit(handle *s, handle *t) { return stay(t), s->is_open ? move(s), VT220_OK : opens(s); }
uint32_t core_xterm_open(handle *x, size_t rows, size_t columns) { return opens(x); }
uint32_t core_xterm_resized(handle *resized, handle *t, handle *x, size_t rows, size_t columns) { return stay(t), stay(x), opens(resized); }
void core_close(handle *t) { closes(t); }
void core_scratch_close(handle *s) { closes(s); }
void core_xterm_close(handle *x) { closes(x); }
bool core_xterm_alternate(handle *x) { return stay(x), true; }
bool core_xterm_bracketed_paste(handle *x) { return stay(x), true; }
bool core_xterm_pending(handle *x, utf8 *u) { return stay(x), true; }
uint32_t core_xterm_copy(handle *to, handle *from) { return move(to), stay(from), VT220_OK; }

size_t core_feed(handle *t, const uint8_t *bytes, size_t len, bool counts, uint8_t *reports, size_t size, size_t *written, size_t *rung) {
    move(t);
    return feeds(bytes, len, counts, rung);
}

size_t core_feed_byte(handle *t, uint8_t byte, uint8_t *reports, size_t size, size_t *written) { return move(t), 1; }

size_t core_feed_log(handle *t, handle *s, const uint8_t *bytes, size_t len, bool counts, uint8_t *reports, size_t size, size_t *written,
                     uint8_t *lines, size_t lines_size, size_t *lines_written, size_t *rung) {
    move(t), move(s);
    return feeds(bytes, len, counts, rung);
}

size_t core_feed_utf8(handle *t, utf8 *u, const uint8_t *bytes, size_t len, bool counts, uint8_t *reports, size_t size,
                      size_t *written, size_t *rung) {
    return core_feed(t, bytes, len, counts, reports, size, written, rung);
}

size_t core_feed_byte_utf8(handle *t, utf8 *u, uint8_t byte, uint8_t *reports, size_t size, size_t *written) { return move(t), 1; }

size_t core_feed_log_utf8(handle *t, handle *s, utf8 *u, const uint8_t *bytes, size_t len, bool counts, uint8_t *reports, size_t size,
                          size_t *written, uint8_t *lines, size_t lines_size, size_t *lines_written, size_t *rung) {
    return core_feed_log(t, s, bytes, len, counts, reports, size, written, lines, lines_size, lines_written, rung);
}

size_t core_feed_xterm(handle *t, handle *x, const uint8_t *bytes, size_t len, bool counts, uint8_t *reports, size_t size, size_t *written,
                       size_t *rung) {
    move(x);
    return core_feed(t, bytes, len, counts, reports, size, written, rung);
}

size_t core_feed_byte_xterm(handle *t, handle *x, uint8_t byte, uint8_t *reports, size_t size, size_t *written) {
    return move(t), move(x), 1;
}

size_t core_feed_log_xterm(handle *t, handle *s, handle *x, const uint8_t *bytes, size_t len, bool counts, uint8_t *reports, size_t size,
                           size_t *written, uint8_t *lines, size_t lines_size, size_t *lines_written, size_t *rung) {
    move(x);
    return core_feed_log(t, s, bytes, len, counts, reports, size, written, lines, lines_size, lines_written, rung);
}

uint32_t core_shown(uint32_t character, size_t *cells) { return *cells = 1, character; }

uint32_t core_reset(handle *t) { return move(t), VT220_OK; }
uint32_t core_copy(handle *to, handle *from) { return move(to), stay(from), VT220_OK; }

#define WRITES(name) \
    uint32_t core_##name(handle *t, handle *s, uint8_t *out, size_t size, size_t *written) { return stay(t), move(s), VT220_OK; }
WRITES(text)
WRITES(show)
WRITES(picture)
WRITES(draw)
WRITES(repaint)

uint32_t core_xterm_repaint(handle *t, handle *x, handle *s, uint8_t *out, size_t size, size_t *written) {
    return stay(t), stay(x), move(s), VT220_OK;
}

uint32_t core_row_text(handle *t, handle *s, size_t row, uint8_t *out, size_t size, size_t *written) {
    return stay(t), move(s), VT220_OK;
}

uint32_t core_update(handle *shown, handle *to, handle *s, uint8_t *out, size_t size, size_t *written) {
    return move(shown), stay(to), move(s), VT220_OK;
}

uint32_t core_draw_from(handle *shown, handle *to, handle *s, uint8_t *out, size_t size, size_t *written) {
    return stay(shown), stay(to), move(s), VT220_OK;
}

uint32_t core_row_changes(handle *shown, handle *to, size_t row, bool *changed, size_t size) { return stay(shown), stay(to), VT220_OK; }
size_t core_row(handle *t, size_t row, vt220_cell *cells, size_t size) { return stay(t), size; }
size_t core_width(handle *t) { return stay(t), 80; }
size_t core_rows(handle *t) { return stay(t), VT220_ROWS; }
size_t core_limit(handle *t, uint32_t what) { return stay(t), what; }
size_t core_stops(handle *t, bool *stops, size_t size) { return stay(t), size; }

#define READS(name, type) \
    bool core_##name(handle *t, type *part) { return stay(t), true; }
READS(cursor, vt220_cursor_place)
READS(margins, vt220_margin_rows)
READS(modes, vt220_mode_set)
READS(brush, vt220_brush_look)
READS(sets, vt220_graphic_sets)
READS(saved, vt220_saved_record)

bool core_is_between(handle *t) { return stay(t), true; }
uint32_t core_held_kind(handle *t) { return stay(t), VT220_HELD_NOTHING; }
bool core_same_state(handle *a, handle *b) { return stay(a), stay(b), true; }

static vt220 t = VT220_INIT, u = VT220_INIT;
static vt220_scratch s = VT220_INIT;
static vt220 in_utf8 = VT220_INIT, x = VT220_INIT, y = VT220_INIT;
static uint8_t out[100], lines[1000], pending[3];
static size_t written, logged;

/* Each call that may move a block, twice: the second finds what the first left. */
static void handles_have_the_new_blocks(void) {
    CHECK(vt220_open(&t) == VT220_OK && vt220_open(&u) == VT220_OK && vt220_scratch_open(&s) == VT220_OK);
    CHECK(vt220_open_as(&in_utf8, VT220_UTF8, VT220_ROWS, 80) == VT220_OK && vt220_open_as(&x, VT220_XTERM, VT220_ROWS, 80) == VT220_OK && vt220_open_as(&y, VT220_XTERM, VT220_ROWS, 80) == VT220_OK);
    for (int turn = 0; turn < 2; turn++) {
        CHECK(vt220_feed(&t, BYTES("a\ab"), out, sizeof out, &written) == 3);
        CHECK(vt220_feed(&t, BYTES("a\ab"), NULL, 0, NULL) == 3);
        for (vt220 **each = (vt220 *[]){&t, &in_utf8, &x, NULL}; *each != NULL; each++) {
            CHECK(vt220_feed(*each, BYTES("a"), out, sizeof out, &written) == 1);
            CHECK(vt220_feed(*each, BYTES("a"), NULL, 0, NULL) == 1);
        }
        CHECK(vt220_feed_log(&t, &s, BYTES("a\ab"), out, sizeof out, &written, lines, sizeof lines, &logged) == 3);
        CHECK(vt220_feed_log(&t, &s, BYTES("a\ab"), NULL, 0, NULL, lines, sizeof lines, &logged) == 3);
        CHECK(vt220_feed(&in_utf8, BYTES("a\ab"), out, sizeof out, &written) == 3 && vt220_copy(&in_utf8, &x) == VT220_OK);
        CHECK(vt220_feed_log(&in_utf8, &s, BYTES("a\ab"), out, sizeof out, &written, lines, sizeof lines, &logged) == 3);
        CHECK(vt220_feed(&x, BYTES("a\ab"), out, sizeof out, &written) == 3 && kept_by(&x).alternate && put_pending(&x, pending) == 0);
        CHECK(vt220_feed(&x, BYTES("a\ab"), NULL, 0, NULL) == 3 && kept_by(&x).bracketed_paste);
        CHECK(vt220_feed_log(&x, &s, BYTES("a\ab"), out, sizeof out, &written, lines, sizeof lines, &logged) == 3);
        CHECK(vt220_feed_log(&x, &s, BYTES("a\ab"), NULL, 0, NULL, lines, sizeof lines, &logged) == 3);
        CHECK(vt220_copy(&y, &x) == VT220_OK && vt220_copy(&x, &y) == VT220_OK && vt220_copy(&x, &x) == VT220_OK && vt220_reset(&x) == VT220_OK);
        CHECK(vt220_repaint(&x, &s, out, sizeof out, &written) == VT220_OK && vt220_repaint_as(&x, VT220_BYTES, &s, out, sizeof out, &written) == VT220_OK);
        CHECK(vt220_reset(&t) == VT220_OK && vt220_copy(&t, &u) == VT220_OK);
        CHECK(vt220_update(&t, &u, &s, out, sizeof out, &written) == VT220_OK);
        CHECK(vt220_draw(&t, &u, &s, out, sizeof out, &written) == VT220_OK && vt220_draw(NULL, &u, &s, out, sizeof out, &written) == VT220_OK);
        CHECK(vt220_text(&t, &s, out, sizeof out, &written) == VT220_OK && vt220_row_text(&t, &s, 1, out, sizeof out, &written) == VT220_OK);
        CHECK(vt220_show(&t, &s, out, sizeof out, &written) == VT220_OK && vt220_picture(&t, &s, out, sizeof out, &written) == VT220_OK);
        CHECK(vt220_repaint(&t, &s, out, sizeof out, &written) == VT220_OK && vt220_same_state(&t, &u));
        CHECK(vt220_resize(&t, 30, 90) == VT220_OK && vt220_resize(&in_utf8, 30, 90) == VT220_OK && vt220_resize(&x, 30, 90) == VT220_OK);
        CHECK(vt220_scratch_fit(&s, &x) == VT220_OK && vt220_rows(&x) == VT220_ROWS);
        CHECK(live_blocks() == 8);
    }
}

enum { LEN = 3 * BLOCK + 100, COUNT = 10 };

/* Bells in every place of a block, in runs and alone. */
static const uint8_t *with_bells(void) {
    static const size_t at[COUNT] = {0, 1, 2, 5000, BLOCK - 1, BLOCK, BLOCK + 1, 2 * BLOCK - 1, 2 * BLOCK + 7, LEN - 1};
    static uint8_t input[LEN];
    memset(input, 'x', sizeof input);
    for (size_t i = 0; i < COUNT; i++) input[at[i]] = BEL;
    return input;
}

/* UTF-8 is searched once, or twice at a bell. The core counts the bells of the BELs alone. */
static void no_byte_is_searched_again(void) {
    const uint8_t *input = with_bells();
    for (int with_log = 0; with_log < 2; with_log++) {
        uint64_t before = vt220_bells(&in_utf8);
        asked = bells = searched = 0;
        size_t taken = with_log ? vt220_feed_log(&in_utf8, &s, input, LEN, out, sizeof out, &written, lines, sizeof lines, &logged)
                                : vt220_feed(&in_utf8, input, LEN, out, sizeof out, &written);
        CHECK(taken == LEN && vt220_bells(&in_utf8) - before == COUNT);
        CHECK(asked == bells && bells == COUNT);
        CHECK(searched <= 2 * LEN);
    }
}

/* A VT220's bytes aren't searched. The core counts the bells of all. */
static void no_byte_of_a_vt220_is_searched(void) {
    const uint8_t *input = with_bells();
    for (int with_log = 0; with_log < 2; with_log++) {
        uint64_t before = vt220_bells(&t);
        asked = bells = searched = 0;
        size_t taken = with_log ? vt220_feed_log(&t, &s, input, LEN, out, sizeof out, &written, lines, sizeof lines, &logged)
                                : vt220_feed(&t, input, LEN, out, sizeof out, &written);
        CHECK(taken == LEN && vt220_bells(&t) - before == COUNT);
        CHECK(asked == LEN && bells == COUNT && searched == 0);
    }
}

int main(void) {
    handles_have_the_new_blocks();
    no_byte_is_searched_again();
    no_byte_of_a_vt220_is_searched();
    vt220_close(&t);
    vt220_close(&u);
    vt220_scratch_close(&s);
    vt220_close(&in_utf8);
    vt220_close(&x);
    vt220_close(&y);
    CHECK(live_blocks() == 0);
    return finish("moved");
}
