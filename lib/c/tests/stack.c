/* stack: each call uses at most 8 KB of stack, and an update of a large screen 96 KB. Each runs on a thread whose stack was painted before. */
#include "check.h"
#include <pthread.h>
#include <sys/mman.h>

enum { STACK = 256 * 1024, PAINT = 0xA5, LIMIT = 8192, LARGE = 96 * 1024 };

static vt220 a = VT220_INIT, b = VT220_INIT, u = VT220_INIT, x = VT220_INIT, y = VT220_INIT;
static vt220_scratch s = VT220_INIT;
static uint8_t out[14000000], input[60000];
static size_t written;

static void *nothing(void *unused) { return unused; }

static void *opens(void *unused) {
    vt220 t = VT220_INIT;
    vt220_scratch room = VT220_INIT;
    if (vt220_open(&t) != VT220_OK || vt220_scratch_open(&room) != VT220_OK) abort();
    vt220_close(&t);
    if (vt220_open_as(&t, VT220_XTERM, VT220_ROWS, 80) != VT220_OK) abort();
    vt220_close(&t);
    vt220_scratch_close(&room);
    return unused;
}

/* What a feed is of: a terminal, and whether the lines that scroll off and the replies are written. */
static vt220 *fed = &b;
static bool with_log, with_replies = true;

static void *feeds(void *unused) {
    static uint8_t lines[400000];
    uint8_t *replies = with_replies ? out : NULL;
    size_t *length = with_replies ? &written : NULL, logged;
    for (size_t at = 0; at < sizeof input;)
        at += with_log ? vt220_feed_log(fed, &s, input + at, sizeof input - at, replies, 5120, length, lines, sizeof lines, &logged) : vt220_feed(fed, input + at, sizeof input - at, replies, 5120, length);
    return unused;
}

static void *writes(void *unused) {
    vt220_repaint(&x, &s, out, sizeof out, &written);
    vt220_text(&b, &s, out, sizeof out, &written);
    vt220_row_text(&b, &s, 1, out, sizeof out, &written);
    vt220_show(&b, &s, out, sizeof out, &written);
    vt220_repaint(&b, &s, out, sizeof out, &written);
    return unused;
}

static void *draws(void *unused) {
    vt220_picture(&b, &s, out, sizeof out, &written);
    vt220_draw(NULL, &b, &s, out, sizeof out, &written);
    vt220_draw(&a, &b, &s, out, sizeof out, &written);
    return unused;
}

static void *updates(void *unused) {
    if (vt220_update(&a, &b, &s, out, sizeof out, &written) != VT220_OK) abort();
    return unused;
}

static void *reads(void *unused) {
    vt220_cell cells[VT220_MOST_COLUMNS];
    vt220_tab_stops stops;
    vt220_saved_record saved;
    vt220_row_marks marks;
    bool marked[VT220_MOST_COLUMNS];
    vt220_row(&b, 1, cells, VT220_MOST_COLUMNS);
    vt220_changes_of(&a, &b, 1, marked, VT220_MOST_COLUMNS);
    vt220_stops_of(&b, marked, VT220_MOST_COLUMNS);
    vt220_stops(&b, &stops);
    vt220_saved(&b, &saved);
    vt220_row_changes(&a, &b, 1, &marks);
    vt220_same_state(&a, &b);
    return unused;
}

static void *copies(void *unused) {
    vt220_copy(&a, &b);
    vt220_copy(&y, &x);
    vt220_reset(&a);
    vt220_reset(&y);
    return unused;
}

static void *resizes(void *unused) {
    for (vt220 **each = (vt220 *[]){&a, &b, &u, &x, &y, NULL}; *each != NULL; each++)
        if (vt220_resize(*each, VT220_MOST_ROWS, VT220_MOST_COLUMNS) != VT220_OK) abort();
    if (vt220_scratch_fit(&s, &b) != VT220_OK) abort();
    return unused;
}

/* Returns how deep the stack was written to. */
static size_t depth(void *(*call)(void *)) {
    pthread_attr_t attributes;
    pthread_t thread;
    uint8_t *stack = (uint8_t *)mmap(NULL, STACK, PROT_READ | PROT_WRITE, MAP_PRIVATE | MAP_ANONYMOUS, -1, 0);
    if (stack == MAP_FAILED) abort();
    memset(stack, PAINT, STACK);
    if (pthread_attr_init(&attributes) != 0 || pthread_attr_setstack(&attributes, stack, STACK) != 0) abort();
    if (pthread_create(&thread, &attributes, call, NULL) != 0 || pthread_join(thread, NULL) != 0) abort();
    pthread_attr_destroy(&attributes);
    size_t at = 0;
    while (at < STACK && stack[at] == PAINT) at++;
    munmap(stack, STACK);
    return STACK - at;
}

static void measure(const char *name, void *(*call)(void *), size_t limit, size_t empty) {
    size_t all = depth(call), deep = all > empty ? all - empty : 0;
    printf("stack: %s: %zu bytes\n", name, deep);
    check(deep <= limit, name, "the stack that the header names");
}

static void measure_feed(const char *name, vt220 *t, bool logs, bool replies, size_t empty) {
    fed = t, with_log = logs, with_replies = replies;
    measure(name, feeds, LIMIT, empty);
    fed = &b, with_log = false, with_replies = true;
}

/* Fills the input with text, controls, sequences and any bytes. */
static void fill(void) {
    uint64_t seed = 7;
    for (size_t i = 0; i < sizeof input; i++) {
        seed = seed * 6364136223846793005u + 1442695040888963407u;
        unsigned n = (unsigned)(seed >> 33);
        unsigned more = n >> 8;
        switch (n % 8) {
        case 0: input[i] = (uint8_t)more; break;
        case 1: input[i] = (uint8_t)"\033[;?\r\n\a\b"[more % 8]; break;
        case 2: input[i] = (uint8_t)"0123456789mHJKrGSTb"[more % 19]; break;
        default: input[i] = (uint8_t)(0x20 + more % 95);
        }
    }
}

int main(void) {
    fill();
    CHECK(vt220_open(&a) == VT220_OK && vt220_open(&b) == VT220_OK && vt220_scratch_open(&s) == VT220_OK);
    CHECK(vt220_open_as(&u, VT220_UTF8, VT220_ROWS, 80) == VT220_OK && vt220_open_as(&x, VT220_XTERM, VT220_ROWS, 80) == VT220_OK && vt220_open_as(&y, VT220_XTERM, VT220_ROWS, 80) == VT220_OK);
    depth(opens), depth(feeds);
    size_t empty = depth(nothing);
    CHECK(empty < STACK / 2);
    measure("open and close", opens, LIMIT, empty);
    measure("feed", feeds, LIMIT, empty);
    /* First the deepest of them, since a first call may also look for functions of the C library, on the same stack. */
    measure_feed("feed without replies, with a log", &b, true, false, empty);
    measure_feed("feed without replies", &b, false, false, empty);
    measure_feed("feed in UTF-8", &u, false, false, empty);
    measure_feed("feed in UTF-8 with a log", &u, true, false, empty);
    measure_feed("feed under TERM=xterm", &x, false, false, empty);
    measure_feed("feed under TERM=xterm with replies", &x, false, true, empty);
    measure_feed("feed with a log under TERM=xterm", &x, true, false, empty);
    measure_feed("feed with a log", &b, true, true, empty);
    /* Updates of all kinds: nothing differs, little, much, the width. */
    static const char *const states[] = {"\030", "a", "\033[5;5H\033[1mb\033[24H\n\n", "\033#8", "\033[?3h", "\033[2J\033[3;20rx\033[?6h", "\033[3g"};
    for (size_t i = 0; i < sizeof states / sizeof states[0]; i++) {
        vt220_reset(&b);
        vt220_feed(&b, (const uint8_t *)states[i], strlen(states[i]), out, 5120, &written);
        measure("update", updates, LIMIT, empty);
    }
    vt220_feed(&b, (const uint8_t *)"\030", 1, out, 10, &written);
    feeds(NULL);
    vt220_feed(&b, (const uint8_t *)"\030", 1, out, 10, &written);
    measure("update of much", updates, LIMIT, empty);
    measure("text, row text, show and repaint", writes, LIMIT, empty);
    measure("picture", draws, LIMIT, empty);
    measure("readers", reads, LIMIT, empty);
    measure("copy and reset", copies, LIMIT, empty);
    measure("resize", resizes, LIMIT, empty);
    feeds(NULL);
    vt220_feed(&b, (const uint8_t *)"\030", 1, out, 10, &written);
    measure("update of a large screen", updates, LARGE, empty);
    measure("feed of a large screen", feeds, LIMIT, empty);
    measure_feed("feed of a large screen with a log", &x, true, false, empty);
    measure("text, row text, show and repaint of a large screen", writes, LIMIT, empty);
    measure("picture of a large screen", draws, LIMIT, empty);
    measure("readers of a large screen", reads, LIMIT, empty);
    measure("copy and reset of a large screen", copies, LIMIT, empty);
    vt220_close(&a), vt220_close(&b), vt220_close(&u), vt220_close(&x), vt220_close(&y), vt220_scratch_close(&s);
    return finish("stack");
}
