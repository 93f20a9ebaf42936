/* The calls of the proved crate recording_c, which reads recordings by asciinema, ttyrec and script, with its structs and its numbers. */
#ifndef RECORDING_H
#define RECORDING_H

#include <stdbool.h>
#include <stddef.h>
#include <stdint.h>

typedef struct recording_event {
    uint64_t micros; /* its time in microseconds after the beginning */
    size_t length;   /* of its bytes */
    uint32_t kind;   /* one of RECORDING_OUTPUT .. */
} recording_event;

typedef struct recording_extent {
    size_t events, bytes; /* how many there are */
    uint64_t broken_at;   /* where it breaks its format */
    uint32_t broken_part; /* 0 nowhere, 1 in the recording, 2 in the timing file */
} recording_extent;

typedef struct recording_head {
    uint32_t format;        /* one of RECORDING_RAW .. */
    uint32_t terminal;      /* 1 a VT220, 2 an xterm, 0 if it isn't named */
    uint32_t columns, rows; /* 0 if they aren't named */
} recording_head;

enum { RECORDING_OK, RECORDING_MEMORY, RECORDING_ROOM };
enum { RECORDING_OUTPUT, RECORDING_INPUT, RECORDING_MARKER, RECORDING_SIZE, RECORDING_EXIT };
enum { RECORDING_RAW, RECORDING_SCRIPT, RECORDING_TTYREC, RECORDING_ASCIICAST, RECORDING_COMPRESSED };

/* Writes the format of a recording, and what its first line names. */
uint32_t recording_heading(const uint8_t *recording, size_t len, bool is_timed, recording_head *heading);

/* Writes the events of a recording, their bytes joined, and the numbers of both. With RECORDING_ROOM a buffer is too small, and only *extent
 * is written. `is_timed`: it is by script, and has a timing file. */
uint32_t recording_events(const uint8_t *recording, size_t len, const uint8_t *timing, size_t timing_len, bool is_timed, recording_event *events,
                          size_t events_size, uint8_t *text, size_t text_size, recording_extent *extent);

/* Capacity for the events of most recordings, and for the bytes of each. */
static inline size_t recording_events_likely(size_t len, size_t timing_len) { return len / 32 + timing_len / 4 + 64; }
static inline size_t recording_bytes_likely(size_t len, size_t timing_len) { return len + timing_len + 1; }

#endif
