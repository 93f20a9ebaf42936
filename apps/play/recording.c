/* Reads a recording by asciinema, ttyrec or script, or the bytes of a program, by the proved reader. The page of a recording plays it in the
 * same way (lib/js/src/reading.js). */
#ifndef _GNU_SOURCE
#define _GNU_SOURCE /* for memmem */
#endif
#include "play.h"
#include <errno.h>
#include <fcntl.h>
#include <stdio.h>
#include <stdlib.h>
#include <string.h>
#include <unistd.h>

enum { WIDE = 132, NARROW = 80 };
enum { LEAST_ROWS = 2, LEAST_COLUMNS = 2, MOST_CHANGES = 1000 /* of the size that are carried out */, WINDOW_DIGITS = 9, OPTION_DIGITS = 3 };
enum { PART = 65536, BEGINNING = 1024 };
enum { PACE = 50000, PACE_BYTES = 48 }; /* a line of 9600 baud carries 960 bytes a second: a chunk every 50 ms */
enum { SECOND = 1000000, DECIMALS = 6, SECONDS_DIGITS = 9, NUMBER_DIGITS = 15 };

static void *allocated(size_t size) {
    void *made = malloc(size + 1);
    if (made == NULL) fail(1, "out of memory");
    return made;
}

/* --- the file --- */

struct file {
    uint8_t *bytes;
    size_t len;
};

/* Reads a file, which may be a pipe, to its end. */
static struct file read_file(const char *name) {
    struct file it = {NULL, 0};
    ssize_t n = 1;
    int file = open(name, O_RDONLY | O_CLOEXEC);
    for (size_t size = 0; file >= 0 && n > 0; it.len += n > 0 ? (size_t)n : 0) {
        if (it.len == size) it.bytes = realloc(it.bytes, size = 2 * size + PART);
        if (it.bytes == NULL) fail(1, "out of memory");
        do n = read(file, it.bytes + it.len, size - it.len);
        while (n < 0 && errno == EINTR);
    }
    if (file < 0 || n < 0) fail(1, "%s: %s", name, strerror(errno));
    close(file);
    return it;
}

/* Returns whether a file begins with an object in JSON with a version, as recordings by asciinema do. */
static bool is_cast(const struct file *file) {
    size_t len = file->len < BEGINNING ? file->len : BEGINNING, blank = 0;
    while (blank < len && strchr(" \t\r\n", file->bytes[blank]) != NULL) blank++;
    return blank < len && file->bytes[blank] == '{' && memmem(file->bytes, len, "\"version\"", 9) != NULL;
}

static uint32_t read_events(struct recording *it, const struct file *file, const struct file *timing, bool is_timed, size_t events, size_t bytes,
                            recording_extent *extent) {
    free(it->events);
    free(it->bytes);
    it->events = allocated(events * sizeof *it->events);
    it->bytes = allocated(bytes);
    const uint8_t *times = is_timed ? timing->bytes : file->bytes; /* never null */
    return recording_events(file->bytes, file->len, times, timing->len, is_timed, it->events, events, it->bytes, bytes, extent);
}

/* Most events have more bytes than is assumed first. If there are more events, the file is read again. */
static recording_extent read_all_events(struct recording *it, const struct file *file, const struct file *timing, bool is_timed) {
    recording_extent extent;
    uint32_t status = read_events(it, file, timing, is_timed, recording_events_likely(file->len, timing->len),
                                  recording_bytes_likely(file->len, timing->len), &extent);
    if (status == RECORDING_ROOM) status = read_events(it, file, timing, is_timed, extent.events, extent.bytes, &extent);
    if (status != RECORDING_OK) fail(1, "out of memory");
    it->events_count = extent.events;
    return extent;
}

/* --- sizes --- */

/* Reads a number of so many digits at most. */
static bool number(const char **at, int digits, uint64_t *value) {
    const char *begun = *at;
    for (*value = 0; **at >= '0' && **at <= '9' && *at - begun < digits; (*at)++) *value = *value * 10 + (uint64_t)(**at - '0');
    return *at > begun;
}

static bool is_size(const struct size *size) {
    return size->rows >= LEAST_ROWS && size->rows <= VT220_MOST_ROWS && size->columns >= LEAST_COLUMNS && size->columns <= VT220_MOST_COLUMNS;
}

/* Reads two numbers with a text between them, and returns whether that is the whole text. */
static bool two_numbers(const char *text, const char *between, int digits, uint32_t *first, uint32_t *second) {
    uint64_t one, two;
    if (!number(&text, digits, &one) || strncmp(text, between, strlen(between)) != 0) return false;
    text += strlen(between);
    if (!number(&text, digits, &two) || *text != 0) return false;
    *first = (uint32_t)one;
    *second = (uint32_t)two;
    return true;
}

bool size_of(const char *text, struct size *size) {
    return two_numbers(text, "x", OPTION_DIGITS, &size->columns, &size->rows) && is_size(size);
}

/* Reads the size to which a window changes: COLUMNSxROWS by asciinema, ROWS=.. COLS=.. by script. Returns false if the text is none. */
static bool window_of(const uint8_t *bytes, size_t len, struct size *size) {
    char text[64] = "";
    if (len >= sizeof text || memchr(bytes, 0, len) != NULL) return false;
    memcpy(text, bytes, len);
    if (strncmp(text, "ROWS=", 5) == 0) return two_numbers(text + 5, " COLS=", WINDOW_DIGITS, &size->rows, &size->columns);
    return two_numbers(text, "x", WINDOW_DIGITS, &size->columns, &size->rows);
}

/* Returns the size that is asked for, or that of the first line if a screen may have it. Otherwise, and for a VT220's wide screen, it is that of
 * a VT220's narrow one. */
static struct size size_for(const recording_head *head, const struct asked *asked) {
    const struct size vt220 = {VT220_ROWS, NARROW}, named = {head->rows, head->columns}, size = asked->size.rows > 0 ? asked->size : named;
    return !is_size(&size) || (size.rows == VT220_ROWS && size.columns == WIDE) ? vt220 : size;
}

/* Returns whether the screen is a VT220's wide one. */
static bool is_wide(const struct recording *it, const recording_head *head, const struct asked *asked) {
    bool is_vt220 = it->size.rows == VT220_ROWS && it->size.columns == NARROW;
    return is_vt220 && (asked->size.rows > 0 ? asked->size.columns : head->columns) == WIDE;
}

/* --- what is played --- */

/* Adds a change of the size, if it is one of the first to a size that a screen may have. Returns whether it is. `seen` counts the changes. */
static bool keep_change(struct recording *it, size_t event, const uint8_t *bytes, size_t *seen) {
    struct change change = {.event = event, .chunk = it->count};
    if (!window_of(bytes, it->events[event].length, &change.size)) return false;
    if (++*seen > MOST_CHANGES || !is_size(&change.size)) return false;
    it->changes[it->changes_count++] = change;
    return true;
}

/* Moves the bytes of output together. Makes a chunk of each output, and of each change of the size that is carried out. A time that is earlier
 * than the one before it is that one. Returns how many changes aren't carried out. */
static size_t keep_output(struct recording *it, bool is_resized) {
    size_t from = 0, to = 0, seen = 0;
    uint64_t time = 0;
    it->chunks = allocated(it->events_count * sizeof *it->chunks);
    it->changes = allocated(MOST_CHANGES * sizeof *it->changes);
    for (size_t i = 0; i < it->events_count; i++) {
        const recording_event *event = &it->events[i];
        bool is_output = event->kind == RECORDING_OUTPUT && event->length > 0;
        bool is_change = is_resized && event->kind == RECORDING_SIZE && keep_change(it, i, it->bytes + from, &seen);
        if (is_output) memmove(it->bytes + to, it->bytes + from, event->length);
        if (is_output) to += event->length;
        if (event->micros > time && (is_output || is_change)) time = event->micros;
        if (is_output || is_change) it->chunks[it->count++] = (struct chunk){time, to};
        from += event->length;
    }
    return seen - it->changes_count;
}

/* Makes chunks with times of bytes that have none. */
static void set_pace(struct recording *it) {
    size_t len = it->count > 0 ? it->chunks[it->count - 1].end : 0;
    free(it->chunks);
    it->count = (len + PACE_BYTES - 1) / PACE_BYTES;
    it->chunks = allocated(it->count * sizeof *it->chunks);
    for (size_t i = 0; i < it->count; i++) {
        size_t end = (i + 1) * PACE_BYTES;
        it->chunks[i] = (struct chunk){(i + 1) * PACE, end < len ? end : len};
    }
}

/* Returns how many bytes a character has that begins so, and the range of its second byte; 0 if none begins so. (RFC 3629, section 4) */
static size_t utf8_length(uint8_t first, uint8_t *least, uint8_t *most) {
    *least = first == 0xE0 ? 0xA0 : first == 0xF0 ? 0x90 : 0x80;
    *most = first == 0xED ? 0x9F : first == 0xF4 ? 0x8F : 0xBF;
    return first < 0x80 ? 1 : first < 0xC2 ? 0 : first < 0xE0 ? 2 : first < 0xF0 ? 3 : first < 0xF5 ? 4 : 0;
}

/* Returns whether content is UTF-8 with a character beyond ASCII. The last character may be cut. */
static bool shows_utf8(const uint8_t *content, size_t len) {
    bool is_beyond = false;
    uint8_t least, most;
    for (size_t at = 0, length; at < len; at += length) {
        length = utf8_length(content[at], &least, &most);
        if (length == 0) return false;
        for (size_t i = 1; i < length && at + i < len; i++, least = 0x80, most = 0xBF) {
            if (content[at + i] < least || content[at + i] > most) return false;
        }
        if (length > 1 && length <= len - at) is_beyond = true;
    }
    return is_beyond;
}

/* Returns the language that is asked for, otherwise the one that the recording shows. Its first line names the terminal. An xterm's host and a
 * recording by asciinema are in UTF-8, and so is any other whose content is UTF-8 with a character beyond ASCII. */
static uint32_t language_of(const struct recording *it, const recording_head *head, const struct asked *asked) {
    bool is_named = asked->terminal == TERMINAL_AUTO && asked->encoding != ENCODING_DEC && head->terminal == 2;
    if (asked->terminal == TERMINAL_XTERM || is_named) return VT220_XTERM;
    if (asked->encoding == ENCODING_UTF8 || head->format == RECORDING_ASCIICAST) return VT220_UTF8;
    bool is_utf8 = asked->encoding == ENCODING_AUTO && it->count > 0 && shows_utf8(it->bytes, it->chunks[it->count - 1].end);
    return is_utf8 ? VT220_UTF8 : VT220_BYTES;
}

/* Writes a note on the size at which it is played, if that isn't the one of its first line. */
static void write_size_note(char *to, size_t len, const recording_head *head, struct size played) {
    bool is_same = head->columns == played.columns && head->rows == played.rows;
    if (head->columns > 0 && head->rows > 0 && !is_same) {
        snprintf(to, len, "; recorded at %ux%u, played on %ux%u", head->columns, head->rows, played.columns, played.rows);
    }
}

/* Prints a line on what is played in another way than it was recorded. `left` is how many changes of the size aren't carried out. */
static void note(const char *name, const struct recording *it, const recording_head *head, const recording_extent *extent, size_t left) {
    char notes[4][128] = {"", "", "", ""}, line[sizeof notes];
    struct size played = {it->size.rows, *it->front != 0 ? WIDE : it->size.columns};
    write_size_note(notes[0], sizeof notes[0], head, played);
    if (left == 1) snprintf(notes[1], sizeof notes[1], "; a change of its size isn't carried out");
    if (left > 1) snprintf(notes[1], sizeof notes[1], "; %zu changes of its size aren't carried out", left);
    if (!it->is_timed) snprintf(notes[2], sizeof notes[2], "; it has no times, and is played as over a line of 9600 baud");
    if (extent->broken_part != 0) {
        snprintf(notes[3], sizeof notes[3], "; %s breaks its format at byte %llu, and what follows isn't played",
                 extent->broken_part == 2 ? "its timing file" : "it", (unsigned long long)extent->broken_at);
    }
    snprintf(line, sizeof line, "%s%s%s%s", notes[0], notes[1], notes[2], notes[3]);
    if (line[0] != 0) fprintf(stderr, "vt220-play: %s: %s\n", name, line + 2);
}

void recording_read(struct recording *it, const struct asked *asked) {
    recording_head head;
    bool is_timed = asked->timing != NULL;
    struct file file = read_file(asked->file), timing = is_timed ? read_file(asked->timing) : (struct file){NULL, 0};
    if (recording_heading(file.bytes, file.len, is_timed, &head) != RECORDING_OK) fail(1, "out of memory");
    if (head.format == RECORDING_COMPRESSED) fail(1, "%s: it is compressed: decompress it first", asked->file);
    recording_extent extent = read_all_events(it, &file, &timing, is_timed);
    if (is_cast(&file) && (head.format == RECORDING_RAW || (it->events_count == 0 && extent.broken_part != 0))) {
        fail(1, "%s: it is by asciinema, of a version that isn't played: versions 1 to 3 are", asked->file);
    }
    free(file.bytes);
    free(timing.bytes);
    it->is_timed = is_timed || head.format == RECORDING_TTYREC || head.format == RECORDING_ASCIICAST;
    size_t left = keep_output(it, it->is_timed && asked->size.rows == 0);
    it->language = language_of(it, &head, asked);
    it->size = size_for(&head, asked);
    it->front = !is_wide(it, &head, asked) ? "" : it->language == VT220_XTERM ? "\033[?40h\033[?3h\033[?40l" : "\033[?3h";
    if (it->count == it->changes_count) fail(1, "%s: it has no output to play", asked->file);
    if (!it->is_timed) set_pace(it);
    note(asked->file, it, &head, &extent, left);
}

void recording_cut(struct recording *it, struct moment moment) {
    it->count = moment.count;
    if (it->count > 0 && it->chunks[it->count - 1].end > moment.position) it->chunks[it->count - 1].end = moment.position;
}

/* --- times and positions --- */

/* Returns how many chunks came before a time, or up to it. */
static size_t count_of(const struct recording *it, uint64_t micros, bool is_with) {
    size_t low = 0, high = it->count;
    while (low < high) {
        size_t middle = low + (high - low) / 2;
        if (it->chunks[middle].micros < micros || (is_with && it->chunks[middle].micros == micros)) low = middle + 1;
        else high = middle;
    }
    return low;
}

size_t chunks_at(const struct recording *it, uint64_t micros) {
    return count_of(it, micros, true);
}

size_t chunks_before(const struct recording *it, uint64_t micros) {
    return count_of(it, micros, false);
}

uint64_t duration_of(const struct recording *it) {
    return it->count > 0 ? it->chunks[it->count - 1].micros : 0;
}

/* Returns the moment at which all bytes up to a position have come. */
static struct moment moment_at(const struct recording *it, uint64_t position) {
    size_t i = 0;
    while (i < it->count && it->chunks[i].end < position) i++;
    if (position == 0) return (struct moment){0, 0, 0};
    return i < it->count ? (struct moment){it->chunks[i].micros, i + 1, position} : (struct moment){duration_of(it), it->count, SIZE_MAX};
}

uint64_t marker_next_to(const struct recording *it, uint64_t micros, bool is_after) {
    uint64_t found = is_after ? duration_of(it) : 0;
    for (size_t i = 0; i < it->events_count; i++) {
        uint64_t time = it->events[i].micros;
        if (it->events[i].kind != RECORDING_MARKER) continue;
        if (is_after ? time > micros && time < found : time < micros && time > found) found = time;
    }
    return found;
}

/* --- moments --- */

static bool decimals(const char **at, uint64_t *micros) {
    const char *begun = ++*at;
    if (!number(at, DECIMALS, micros)) return false;
    for (size_t i = (size_t)(*at - begun); i < DECIMALS; i++) *micros *= 10;
    return true;
}

/* Reads a time, and returns whether it is the whole text. */
bool time_of(const char *text, uint64_t *micros) {
    uint64_t seconds, parts = 0;
    if (!number(&text, SECONDS_DIGITS, &seconds)) return false;
    for (int i = 0; i < 2 && *text == ':'; i++) {
        uint64_t sixtieth;
        text++;
        if (!number(&text, 2, &sixtieth) || sixtieth >= 60) return false;
        seconds = 60 * seconds + sixtieth;
    }
    if (*text == '.' && !decimals(&text, &parts)) return false;
    *micros = SECOND * seconds + parts;
    return *text == 0;
}

/* Reads a number from 1 on after a word. */
static bool numbered(const char *text, const char *word, uint64_t *value) {
    size_t len = strlen(word);
    if (strncmp(text, word, len) != 0) return false;
    text += len;
    return number(&text, NUMBER_DIGITS, value) && *value > 0 && *text == 0;
}

/* Returns the moment of an event, or of a marker, by its number from 1 on. */
static struct moment moment_of_event(const struct recording *it, const char *option, const char *text, uint64_t wanted, bool is_marker) {
    size_t position = 0, count = 0, changes = 0;
    for (size_t i = 0; i < it->events_count; i++) {
        const recording_event *event = &it->events[i];
        bool is_output = event->kind == RECORDING_OUTPUT && event->length > 0;
        bool is_change = changes < it->changes_count && it->changes[changes].event == i;
        if (is_output) position += event->length;
        count += is_output || is_change;
        changes += is_change;
        if (!is_marker || event->kind == RECORDING_MARKER) wanted--;
        if (wanted == 0) return it->is_timed ? (struct moment){event->micros, count, position} : moment_at(it, position);
    }
    fail(1, "--%s %s: the recording doesn't have so many", option, text);
}

struct moment moment_of(const struct recording *it, const char *option, const char *text) {
    uint64_t value;
    const char *end = text;
    if (numbered(text, "event:", &value)) return moment_of_event(it, option, text, value, false);
    if (numbered(text, "marker:", &value)) return moment_of_event(it, option, text, value, true);
    if (time_of(text, &value)) return (struct moment){value, chunks_at(it, value), SIZE_MAX};
    if (!number(&end, NUMBER_DIGITS, &value) || strcmp(end, "b") != 0) {
        fail(2, "--%s %s: use seconds, as 12.5 or 12:31, bytes, as 4096b, event:N or marker:N", option, text);
    }
    return moment_at(it, value);
}
