/* What the tests share: counting, and playing whole pieces. */
#ifndef CHECK_H
#define CHECK_H

#include "vt220.h"
#include <stdio.h>
#include <stdlib.h>
#include <string.h>

static unsigned long passed, failed;

static inline void check(bool is, const char *what, const char *where) {
    if (is) {
        passed++;
    } else {
        failed++;
        fprintf(stderr, "failed: %s: %s\n", where, what);
    }
}

#define CHECK(is) check((is), #is, __func__)

/* The bytes of a string literal and their number, as two arguments. */
#define BYTES(literal) (const uint8_t *)(literal), sizeof(literal) - 1

static inline bool all_zero(const uint8_t *at, size_t len) {
    for (size_t i = 0; i < len; i++)
        if (at[i] != 0) return false;
    return true;
}
#define RESERVED(x) all_zero((x).reserved, sizeof(x).reserved)

/* Returns the language of a terminal and what it keeps for it; zeros on a closed one. */
static inline vt220_language_state kept_by(const vt220 *t) {
    vt220_language_state kept;
    memset(&kept, 0, sizeof kept);
    check(vt220_language(t, &kept) == vt220_is_open(t), "an open terminal has a language", "kept_by");
    return kept;
}

/* Writes what is pending of UTF-8. Returns how many bytes that are. */
static inline size_t put_pending(const vt220 *t, uint8_t *bytes) {
    vt220_language_state kept = kept_by(t);
    memcpy(bytes, kept.pending, kept.pending_len);
    return kept.pending_len;
}

static inline int finish(const char *name) {
    printf("%s: %lu passed, %lu failed\n", name, passed, failed);
    return failed != 0;
}

/* Bytes that are appended to. */
typedef struct bytes {
    uint8_t *at;
    size_t len, room;
} bytes;

static inline void append(bytes *b, const uint8_t *from, size_t len) {
    if (b->room - b->len < len || b->at == NULL) {
        b->room = 2 * (b->len + len) + 64;
        b->at = (uint8_t *)realloc(b->at, b->room);
        if (b->at == NULL) abort();
    }
    if (len > 0) memcpy(b->at + b->len, from, len);
    b->len += len;
}

static inline bool same_bytes(const bytes *b, const uint8_t *other, size_t len) {
    return b->len == len && (len == 0 || memcmp(b->at, other, len) == 0);
}

static inline void print_bytes(const char *title, const uint8_t *from, size_t len) {
    fprintf(stderr, "  %s:", title);
    for (size_t i = 0; i < len; i++) fprintf(stderr, " %02X", from[i]);
    fputc('\n', stderr);
}

/* Checks that bytes are the wanted ones, and prints both otherwise. */
static inline void check_same(const bytes *wanted, const uint8_t *found, size_t len, const char *where, const char *what) {
    bool is = same_bytes(wanted, found, len);
    check(is, what, where);
    if (!is) print_bytes("expected", wanted->at, wanted->len), print_bytes("got", found, len);
}

/* Checks that a number is the wanted one, and prints both otherwise. */
static inline void check_number(uint64_t wanted, uint64_t found, const char *where, const char *what) {
    check(wanted == found, what, where);
    if (wanted != found) fprintf(stderr, "  expected: %llu\n  got: %llu\n", (unsigned long long)wanted, (unsigned long long)found);
}

/* Feeds a whole chunk in as many calls as buffers of these sizes need, with its log if there is a scratch buffer. Appends the replies and the lines. Bytes
 * after them aren't modified. */
static inline void play(vt220 *t, vt220_scratch *s, const uint8_t *from, size_t len, size_t size, size_t lines_size, bytes *replies, bytes *lines) {
    static uint8_t room[400000], lines_room[400000];
    const size_t limit = s == NULL ? 0 : vt220_limit(t, VT220_OF_LINES), seen = 64 + (size < 1000 ? size : 1000);
    if (size >= sizeof room || lines_size >= sizeof lines_room) abort();
    for (size_t at = 0, written = SIZE_MAX, off = 0, taken; at < len; at += taken) {
        memset(room, 0xA5, seen), memset(lines_room, 0xA5, 64);
        taken = s == NULL ? vt220_feed(t, from + at, len - at, room, size, &written)
                          : vt220_feed_log(t, s, from + at, len - at, room, size, &written, lines_room, lines_size, &off);
        check(taken > 0 && taken <= len - at && written <= size && off <= lines_size, "a chunk is played", "play");
        check(taken == len - at || size - written < VT220_REPORT_LIMIT || lines_size - off < limit, "as much as the buffers allow", "play");
        if (taken == 0 || taken > len - at || written > size || off > lines_size) abort();
        bool is = true;
        for (size_t i = written; i < seen; i++) is = is && room[i] == 0xA5;
        for (size_t i = off; i < 64; i++) is = is && lines_room[i] == 0xA5;
        if (!is) check(false, "nothing after the replies and the lines is modified", "play");
        append(replies, room, written);
        if (lines != NULL) append(lines, lines_room, off);
    }
}

/* Returns an open terminal that has got a text. */
static inline vt220 opened_as(uint32_t language, size_t rows, size_t columns, const char *text) {
    vt220 t = VT220_INIT;
    check(vt220_open_as(&t, language, rows, columns) == VT220_OK, "a terminal is opened", "opened_as");
    check(vt220_feed(&t, (const uint8_t *)text, strlen(text), NULL, 0, NULL) == strlen(text), "a text is taken", "opened_as");
    return t;
}

#endif
