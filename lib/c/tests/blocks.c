/* blocks: inputs in UTF-8 that are longer than a block of lib/c/vt220.c, with buffers of exactly the size that is passed, so that ASan sees a byte after one. */
#include "check.h"

enum { LEN = 40000, BLOCK = 16384 };

static vt220 t = VT220_INIT;
static vt220_scratch s = VT220_INIT;
static uint8_t reports[VT220_REPORT_LIMIT];
static size_t written, logged;

static uint8_t *allocate(size_t size) {
    uint8_t *at = (uint8_t *)malloc(size);
    if (at == NULL) abort();
    return at;
}

/* Bells that are alone in their block, at its ends and elsewhere. */
static void bells(uint8_t *input) {
    static const size_t rows[][2] = {{20000, 39999}, {0, BLOCK}, {BLOCK - 1, 2 * BLOCK}, {5, 2 * BLOCK - 1}};
    uint8_t *lines = allocate(2 * LEN);
    for (size_t i = 0; i < sizeof rows / sizeof rows[0]; i++) {
        memset(input, 'x', LEN);
        input[rows[i][0]] = input[rows[i][1]] = '\a';
        uint64_t before = vt220_bells(&t);
        CHECK(vt220_feed(&t, input, LEN, reports, sizeof reports, &written) == LEN && vt220_bells(&t) - before == 2);
        CHECK(vt220_feed_log(&t, &s, input, LEN, reports, sizeof reports, &written, lines, 2 * LEN, &logged) == LEN && vt220_bells(&t) - before == 4);
    }
    free(lines);
}

/* Replies of two blocks fill a buffer: those of the second stop at its end. */
static void replies(uint8_t *input) {
    static const char status[] = "\033[5n", is_ready[] = "\033[0n";
    enum { EACH = sizeof status - 1, SIZE = 30 };
    uint8_t *few = allocate(SIZE);
    memset(input, 'x', LEN);
    for (size_t i = 0; i < 3; i++) memcpy(input + i * EACH, status, EACH);
    for (size_t i = BLOCK; i + EACH <= LEN; i += EACH) memcpy(input + i, status, EACH);
    size_t taken = vt220_feed(&t, input, LEN, few, SIZE, &written);
    CHECK(taken > BLOCK && taken < LEN && written <= SIZE && SIZE - written < VT220_REPORT_LIMIT && written % EACH == 0);
    for (size_t i = 0; i < written; i += EACH) CHECK(memcmp(few + i, is_ready, EACH) == 0);
    free(few);
}

/* The same for lines: a few scroll off in the first block, and many in the second. */
static void lines(uint8_t *input) {
    enum { SIZE = VT220_UTF8_LINES_LIMIT + 30 * 81 };
    uint8_t *few = allocate(SIZE);
    memset(input, 'x', LEN);
    memset(input + 3000, 0, BLOCK - 3000);
    CHECK(vt220_reset(&t) == VT220_OK);
    size_t taken = vt220_feed_log(&t, &s, input, LEN, reports, sizeof reports, &written, few, SIZE, &logged);
    CHECK(taken > BLOCK && taken < LEN && logged <= SIZE && SIZE - logged < VT220_UTF8_LINES_LIMIT && logged % 81 == 0);
    for (size_t i = 0; i < logged; i++) CHECK(few[i] == (i % 81 == 80 ? '\n' : 'x'));
    free(few);
}

int main(void) {
    uint8_t *input = allocate(LEN);
    CHECK(vt220_open_as(&t, VT220_UTF8, VT220_ROWS, 80) == VT220_OK && vt220_scratch_open(&s) == VT220_OK);
    bells(input), replies(input), lines(input);
    vt220_close(&t);
    vt220_scratch_close(&s);
    free(input);
    return finish("blocks");
}
