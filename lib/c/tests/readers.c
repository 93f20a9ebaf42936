/* readers: a call that takes a const terminal writes neither to the handle nor to what it owns, so threads may read at once.
 * Linked with --wrap=malloc,--wrap=realloc,--wrap=free, so that the memory of one terminal can be made read-only. */
#include "check.h"
#include <pthread.h>
#include <sys/mman.h>

void *__real_malloc(size_t size);
void *__real_realloc(void *at, size_t size);
void __real_free(void *at);
void *__wrap_malloc(size_t size);
void *__wrap_realloc(void *at, size_t size);
void __wrap_free(void *at);

enum { PAGES = 1 << 20, THREADS = 4, ROUNDS = 300 };

/* Blocks come from these pages while `is_paged`. None of them is given back. */
static uint8_t *pages;
static size_t used;
static bool is_paged;

static bool is_page(const void *at) { return pages != NULL && (const uint8_t *)at >= pages && (const uint8_t *)at < pages + PAGES; }

void *__wrap_malloc(size_t size) {
    if (!is_paged) return __real_malloc(size);
    size_t at = (used + 63) / 64 * 64;
    if (PAGES - at < size) return NULL;
    used = at + size;
    return pages + at;
}

void *__wrap_realloc(void *at, size_t size) { return is_page(at) ? NULL : __real_realloc(at, size); }

void __wrap_free(void *at) {
    if (!is_page(at)) __real_free(at);
}

typedef struct shared {
    vt220 t, same, x;
} shared;

static const vt220 *one, *twin, *with_pages;
static size_t wrong;

/* Makes each reading call on a terminal whose text begins with `Hello`. Returns whether all is as it should be. */
static bool reads_all(const vt220 *t, const vt220 *u, vt220_scratch *s, uint8_t *out) {
    vt220_cell cells[VT220_COLUMNS];
    vt220_cursor_place cursor;
    vt220_margin_rows margins;
    vt220_mode_set modes;
    vt220_brush_look brush;
    vt220_graphic_sets sets;
    vt220_tab_stops stops;
    vt220_saved_record saved;
    vt220_row_marks marks;
    size_t written;
    bool is = vt220_is_open(t) && vt220_width(t) == 80 && vt220_is_between(t) && vt220_held_kind(t) == VT220_HELD_NOTHING && vt220_bells(t) == 1;
    is = is && vt220_cursor(t, &cursor) && cursor.row == 2 && cursor.col == 4 && vt220_margins(t, &margins) && margins.bottom == 24;
    is = is && vt220_modes(t, &modes) && modes.decawm && vt220_brush(t, &brush) && brush.bold && vt220_sets(t, &sets) && sets.g0 == 'B';
    is = is && vt220_stops(t, &stops) && stops.stop[8] && vt220_saved(t, &saved) && saved.row == 1;
    is = is && vt220_row(t, 1, cells, VT220_COLUMNS) == 80 && cells[1].glyph == 'e';
    is = is && vt220_same_state(t, u) && vt220_same_state(t, t) && vt220_row_changes(t, u, 1, &marks) == VT220_OK && !marks.changed[0];
    is = is && vt220_text(t, s, out, VT220_TEXT_LIMIT, &written) == VT220_OK && memcmp(out, "Hello\n", 6) == 0;
    is = is && vt220_row_text(t, s, 2, out, VT220_TEXT_LIMIT, &written) == VT220_OK && memcmp(out, "you\n", 4) == 0;
    is = is && vt220_show(t, s, out, VT220_SHOW_LIMIT, &written) == VT220_OK && vt220_repaint(t, s, out, VT220_PAINT_LIMIT, &written) == VT220_OK;
    return is && vt220_picture(t, s, out, VT220_PICTURE_LIMIT, &written) == VT220_OK && written > 0;
}

static void *reads(void *unused) {
    vt220_scratch s = VT220_INIT;
    vt220 mine = VT220_INIT, my_pages = VT220_INIT;
    uint8_t *out = (uint8_t *)malloc(VT220_PICTURE_LIMIT), pending[3];
    size_t written, bad = 0;
    if (out == NULL || vt220_scratch_open(&s) != VT220_OK || vt220_open(&mine) != VT220_OK || vt220_open_as(&my_pages, VT220_XTERM, VT220_ROWS, 80) != VT220_OK) abort();
    for (int i = 0; i < ROUNDS; i++) {
        if (!reads_all(one, twin, &s, out)) bad++;
        if (kept_by(with_pages).language != VT220_XTERM || !kept_by(with_pages).alternate || kept_by(with_pages).bracketed_paste) bad++;
        if (put_pending(with_pages, pending) != 2 || vt220_bells(with_pages) != 1 || vt220_width(with_pages) != 80) bad++;
        if (vt220_repaint(with_pages, &s, out, VT220_XTERM_PAINT_LIMIT, &written) != VT220_OK || written == 0) bad++;
        if (vt220_repaint_as(with_pages, VT220_UTF8, &s, out, VT220_PAINT_LIMIT, &written) != VT220_OK || written == 0) bad++;
        /* It may also be what others are copied from and led to. */
        if (vt220_copy(&my_pages, with_pages) != VT220_OK || !kept_by(&my_pages).alternate) bad++;
        if (vt220_copy(&mine, one) != VT220_OK || !vt220_same_state(&mine, one) || vt220_reset(&mine) != VT220_OK) bad++;
        if (vt220_update(&mine, one, &s, out, VT220_UPDATE_LIMIT, &written) != VT220_OK || !vt220_same_state(&mine, one)) bad++;
    }
    __atomic_fetch_add(&wrong, bad, __ATOMIC_SEQ_CST);
    vt220_close(&mine);
    vt220_close(&my_pages);
    vt220_scratch_close(&s);
    free(out);
    return unused;
}

int main(void) {
    uint8_t reports[250];
    size_t written;
    pthread_t threads[THREADS];
    shared *handles;
    pages = (uint8_t *)mmap(NULL, PAGES, PROT_READ | PROT_WRITE, MAP_PRIVATE | MAP_ANONYMOUS, -1, 0);
    handles = (shared *)mmap(NULL, 4096, PROT_READ | PROT_WRITE, MAP_PRIVATE | MAP_ANONYMOUS, -1, 0);
    if (pages == MAP_FAILED || handles == MAP_FAILED) abort();
    is_paged = true;
    CHECK(vt220_open(&handles->t) == VT220_OK && vt220_open(&handles->same) == VT220_OK && vt220_open_as(&handles->x, VT220_XTERM, VT220_ROWS, 80) == VT220_OK);
    is_paged = false;
    CHECK(used > 2 * VT220_ROWS * VT220_COLUMNS);
    vt220 *both[] = {&handles->t, &handles->same};
    for (int i = 0; i < 2; i++) CHECK(vt220_feed(both[i], BYTES("Hello\a\r\n\033[1myou"), reports, sizeof reports, &written) == 15);
    CHECK(vt220_feed(&handles->x, BYTES("\a\033[?47h\xE2\x80"), NULL, 0, NULL) == 9);
    one = &handles->t, twin = &handles->same, with_pages = &handles->x;
    CHECK(mprotect(pages, PAGES, PROT_READ) == 0 && mprotect(handles, 4096, PROT_READ) == 0);
    for (int i = 0; i < THREADS; i++)
        if (pthread_create(&threads[i], NULL, reads, NULL) != 0) abort();
    for (int i = 0; i < THREADS; i++) pthread_join(threads[i], NULL);
    CHECK(wrong == 0);
    CHECK(mprotect(pages, PAGES, PROT_READ | PROT_WRITE) == 0 && mprotect(handles, 4096, PROT_READ | PROT_WRITE) == 0);
    vt220_close(&handles->t);
    vt220_close(&handles->same);
    vt220_close(&handles->x);
    return finish("readers");
}
