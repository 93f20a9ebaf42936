/* The log of a session: the last lines that scrolled off the top of its screen, as text. They are kept in a ring of bytes, which grows
 * as it is needed. A place in the log is the number of bytes before it since the session began. */
#include "session.h"
#include <stdlib.h>
#include <string.h>

enum { LINES_KEPT = 10000, ROOM_FIRST = 65536, ROOM_LIMIT = LINES_KEPT * ROW_TEXT_MOST };

static struct {
    uint8_t *ring;
    size_t room;
    uint64_t begin, end; /* the places of the oldest line that is kept, and after the newest one */
    size_t lines;
} logged;

/* Copies bytes of the log to `to`. */
static void copy_out(uint64_t place, uint8_t *to, size_t len) {
    size_t at = logged.room > 0 ? (size_t)(place % logged.room) : 0;
    size_t first = len < logged.room - at ? len : logged.room - at;
    if (len == 0) return;
    memcpy(to, logged.ring + at, first);
    memcpy(to + first, logged.ring, len - first);
}

static void copy_in(const uint8_t *bytes, size_t len) {
    size_t at = (size_t)(logged.end % logged.room);
    size_t first = len < logged.room - at ? len : logged.room - at;
    memcpy(logged.ring + at, bytes, first);
    memcpy(logged.ring, bytes + first, len - first);
    logged.end += len;
}

/* Drops the oldest line. */
static void drop_line(void) {
    for (;;) {
        size_t at = (size_t)(logged.begin % logged.room), len = logged.room - at;
        if (len > logged.end - logged.begin) len = (size_t)(logged.end - logged.begin);
        const uint8_t *found = memchr(logged.ring + at, '\n', len);
        logged.begin += found != NULL ? (size_t)(found - logged.ring) + 1 - at : len;
        if (found != NULL || logged.begin == logged.end) break;
    }
    logged.lines--;
}

/* Makes the ring larger, so that it has capacity for so many bytes. Returns false if allocation fails. */
static bool grow(size_t needed) {
    size_t room = logged.room > 0 ? logged.room : ROOM_FIRST;
    while (room < needed) room *= 2;
    if (room > ROOM_LIMIT) room = ROOM_LIMIT;
    uint8_t *ring = malloc(room);
    if (ring == NULL) return false;
    for (uint64_t place = logged.begin; place < logged.end;) {
        size_t from = (size_t)(place % logged.room), to = (size_t)(place % room), len = (size_t)(logged.end - place);
        if (len > logged.room - from) len = logged.room - from;
        if (len > room - to) len = room - to;
        memcpy(ring + to, logged.ring + from, len);
        place += len;
    }
    free(logged.ring);
    logged.ring = ring;
    logged.room = room;
    return true;
}

static void append_line(const uint8_t *line, size_t len) {
    while (logged.lines >= LINES_KEPT) drop_line();
    size_t needed = (size_t)(logged.end - logged.begin) + len;
    if (needed > logged.room && !grow(needed)) {
        /* Without memory the oldest lines go. */
        while (logged.lines > 0 && (size_t)(logged.end - logged.begin) + len > logged.room) drop_line();
        if (len > logged.room) return;
    }
    copy_in(line, len);
    logged.lines++;
}

/* Begins an empty log at a place. */
void log_start(uint64_t place) {
    logged.begin = logged.end = place;
}

/* Appends whole lines. */
void log_append(const uint8_t *lines, size_t len) {
    for (size_t at = 0; at < len;) {
        const uint8_t *end = memchr(lines + at, '\n', len - at);
        if (end == NULL) return;
        size_t n = (size_t)(end - lines) + 1 - at;
        append_line(lines + at, n);
        at += n;
    }
}

uint64_t log_begin(void) {
    return logged.begin;
}

uint64_t log_end(void) {
    return logged.end;
}

/* Copies whole lines from a place on, at most up to `end` and as many as `to` has capacity for. Moves the place after them. Lines that
 * aren't kept any more are left out, and their bytes are added to `lost`. Returns how many bytes were copied. */
size_t log_read(uint64_t *place, uint64_t end, uint8_t *to, size_t size, uint64_t *lost) {
    if (*place < logged.begin) {
        *lost += (logged.begin < end ? logged.begin : end) - *place;
        *place = logged.begin;
    }
    if (*place >= end) return 0;
    size_t len = end - *place < size ? (size_t)(end - *place) : size;
    copy_out(*place, to, len);
    while (len > 0 && to[len - 1] != '\n') len--;
    *place += len;
    return len;
}
