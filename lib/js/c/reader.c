/* The exports of reader.wasm: the calls of the crate recording_c with addresses and lengths as numbers of 32 bits. An instance reads one
 * recording, and its memory is dropped with it. So nothing is freed but what the proved code frees. */
#include "../../c/recording.h"
#include "heap.h"

#define EXPORT(name) __attribute__((export_name(#name)))
#define AT(type, p) ((type *)(uintptr_t)(p))

_Static_assert(sizeof(recording_event) == 24, "JavaScript reads six words an event");

static recording_head head;
static recording_extent size;
static recording_event *events;
static uint8_t *text;
static double out[10];

static void *taken(size_t n) {
    tried got = rattle_alloc(n, 16);
    return got.ok ? got.p : NULL;
}

/* Allocates the memory for a file. Returns its address, or 0 if the allocation failed. */
EXPORT(take) uint32_t js_take(uint32_t n) { return (uint32_t)(uintptr_t)taken(n); }

static uint32_t tell(uint32_t from, uint32_t len, uint32_t timing, uint32_t timing_len, bool is_timed, size_t events_size, size_t text_size) {
    events = taken(events_size * sizeof(recording_event));
    text = taken(text_size);
    if (events == NULL || text == NULL) return RECORDING_MEMORY;
    return recording_events(AT(uint8_t, from), len, AT(uint8_t, timing), timing_len, is_timed, events, events_size, text, text_size, &size);
}

/* Reads a recording, of script if `is_timed`, with its timing file. Returns a status. Most events have more bytes than it assumes first. If
 * there are more events, it reads again. */
EXPORT(read) uint32_t js_read(uint32_t from, uint32_t len, uint32_t timing, uint32_t timing_len, uint32_t is_timed) {
    uint32_t status = recording_heading(AT(uint8_t, from), len, is_timed != 0, &head);
    if (status != RECORDING_OK) return status;
    status = tell(from, len, timing, timing_len, is_timed != 0, recording_events_likely(len, timing_len), recording_bytes_likely(len, timing_len));
    return status == RECORDING_ROOM ? tell(from, len, timing, timing_len, is_timed != 0, size.events, size.bytes) : status;
}

/* Returns the address of what was read, as numbers of 64 bits: the heading, the extent, and the addresses of the events and of the text. */
EXPORT(out) uint32_t js_out(void) {
    const double now[] = {head.format, head.terminal, head.columns, head.rows, (double)size.events, (double)size.bytes, size.broken_part,
                          (double)size.broken_at, (double)(uintptr_t)events, (double)(uintptr_t)text};
    for (size_t i = 0; i < sizeof now / sizeof now[0]; i++) out[i] = now[i];
    return (uint32_t)(uintptr_t)out;
}
