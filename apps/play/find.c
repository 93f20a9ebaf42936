/* Searches all time for a text on the screen, and in the lines that scrolled off. A row whose cells don't change isn't read again. */
#ifndef _GNU_SOURCE
#define _GNU_SOURCE /* for memmem */
#endif
#include "../keep/utf8.h"
#include "play.h"
#include <stdio.h>
#include <stdlib.h>
#include <string.h>

enum { ROW_TEXT_MOST = 3 * VT220_MOST_COLUMNS + 2 /* the most bytes of the text of a row, with a space and LF */ };

static struct {
    struct reel reel;
    vt220 seen; /* as the terminal was when its rows were read */
    vt220_scratch scratch;
    char wanted[FIND_LIMIT]; /* the text, as the screen shows it */
    size_t wanted_len;
    char rows[VT220_MOST_ROWS][ROW_TEXT_MOST]; /* the text of each row, up to where the next one goes on */
    size_t lens[VT220_MOST_ROWS];
    char screen[VT220_MOST_ROWS * ROW_TEXT_MOST]; /* all rows */
    const char *found;                            /* where the text is in that, or null */
    uint32_t language;
    struct scrolled off; /* the lines that scrolled off in a chunk */
} it;

/* Sets what is looked for. In UTF-8 that is what is shown for each character, and a space after one of two cells. */
static void set_wanted(const char *text) {
    const uint8_t *at = (const uint8_t *)text;
    uint32_t typed;
    size_t cells = 1;
    for (it.wanted_len = 0; *at != 0 && it.wanted_len + UTF8_LIMIT < FIND_LIMIT;) {
        at = utf8_read(at, &typed);
        uint32_t glyph = it.language == VT220_BYTES ? typed : vt220_shown(typed, &cells);
        if (glyph != 0) it.wanted_len += utf8_put(glyph, it.wanted + it.wanted_len);
        if (glyph != 0 && cells == 2) it.wanted[it.wanted_len++] = ' ';
    }
}

static bool begin(const struct recording *recording, const char *text) {
    it.language = recording->language;
    set_wanted(text);
    return vt220_is_open(&it.reel.terminal) || reel_open(&it.reel);
}

static size_t characters(const char *text, size_t len) {
    size_t count = 0;
    for (size_t i = 0; i < len; i++) count += ((uint8_t)text[i] & 0xC0) != 0x80;
    return count;
}

/* Reads a row, from 1 on. A full one goes on in the next row. In UTF-8 another one has a space at its end, which may be the second cell of a
 * character. */
static void read_row(size_t row) {
    char *text = it.rows[row - 1];
    size_t len = 0;
    vt220_row_text(&it.reel.terminal, &it.scratch, row, (uint8_t *)text, ROW_TEXT_MOST, &len);
    bool is_full = characters(text, len - 1) == vt220_width(&it.reel.terminal);
    if (is_full) len--;
    if (!is_full && it.language != VT220_BYTES) memcpy(text + len++ - 1, " \n", 2);
    it.lens[row - 1] = len;
}

/* Looks for the text on the screen. Reads the rows that changed, or all. Returns false if allocation fails. */
static bool look(bool is_anew) {
    bool changed[VT220_MOST_COLUMNS], has_changed = is_anew;
    const vt220 *now = &it.reel.terminal;
    size_t rows = vt220_rows(now), width = vt220_width(now), len = 0;
    bool reads_all = is_anew || vt220_width(&it.seen) != width;
    if (vt220_scratch_fit(&it.scratch, now) != VT220_OK) return false;
    for (size_t row = 1; row <= rows; row++) {
        bool is_known = !reads_all && vt220_changes_of(&it.seen, now, row, changed, sizeof changed) == VT220_OK;
        if (is_known && memchr(changed, true, width) == NULL) continue;
        read_row(row);
        has_changed = true;
    }
    if (!has_changed) return true;
    for (size_t row = 0; row < rows; len += it.lens[row++]) memcpy(it.screen + len, it.rows[row], it.lens[row]);
    it.found = it.wanted_len > 0 ? memmem(it.screen, len, it.wanted, it.wanted_len) : NULL;
    return reel_copy(&it.seen, VT220_BYTES, &it.reel);
}

static void print_time(FILE *to, uint64_t micros) {
    fprintf(to, "%llu.%06llu", (unsigned long long)micros / 1000000, (unsigned long long)micros % 1000000);
}

/* Looks for the text in the lines that scrolled off in a chunk. Writes a line for each that has it, unless `to` is null. `count` counts the
 * lines. Returns whether any has it. */
static bool search_lines(uint64_t micros, size_t *count, FILE *to) {
    bool is_found = false;
    char *all = (char *)it.off.text;
    if (it.off.len == 0 || it.wanted_len == 0) return false;
    for (char *line = all, *end; line != all + it.off.len; line = end + 1) {
        end = memchr(line, '\n', (size_t)(all + it.off.len - line));
        if (it.language != VT220_BYTES) *end = ' '; /* which may be the second cell of a character */
        ++*count;
        char *at = memmem(line, (size_t)(end - line) + (it.language != VT220_BYTES), it.wanted, it.wanted_len);
        if (at == NULL) continue;
        is_found = true;
        if (to == NULL) continue;
        fputs("log\t", to);
        print_time(to, micros);
        fprintf(to, "\t%zu\t%zu\n", *count, characters(line, (size_t)(at - line)) + 1);
    }
    return is_found;
}

/* Plays up to so many chunks. Returns whether the text is on the screen then. */
static bool is_there_after(size_t count, bool is_anew, struct scrolled *off) {
    it.off.len = 0;
    return reel_seek(&it.reel, count, off) && look(is_anew) && it.found != NULL;
}

size_t find(const struct recording *recording, const char *text, size_t first, size_t end, bool is_last, bool *has_passed) {
    size_t found = NOWHERE, lines = 0;
    if (!begin(recording, text)) return NOWHERE;
    bool was_there = is_there_after(first, true, NULL);
    for (size_t i = first; i < end && (found == NOWHERE || is_last); i++) {
        bool is_there = is_there_after(i + 1, false, &it.off), is_in_lines = !is_there && !was_there && search_lines(0, &lines, NULL);
        if ((is_there && !was_there) || is_in_lines) {
            found = i;
            *has_passed = is_in_lines;
        }
        was_there = is_there;
    }
    return found;
}

/* --- the list of all places --- */

/* A span of time in which the text is on the screen, and its first place there. */
struct span {
    bool is_open;
    uint64_t begun;
    size_t row, col;
};

static void open_span(struct span *span, uint64_t micros) {
    size_t at = (size_t)(it.found - it.screen), row = 0;
    while (at >= it.lens[row]) at -= it.lens[row++];
    *span = (struct span){true, micros, row + 1, characters(it.rows[row], at) + 1};
}

/* Prints a span, and ends it. `ended` is null if it lasts to the end of the recording. */
static void close_span(struct span *span, const uint64_t *ended) {
    print_time(stdout, span->begun);
    putchar('\t');
    if (ended != NULL) print_time(stdout, *ended);
    else putchar('-');
    printf("\t%zu\t%zu\n", span->row, span->col);
    span->is_open = false;
}

bool find_all(const struct recording *recording, const char *text, size_t first) {
    struct span span = {0};
    char *lines = NULL;
    size_t size, count = 0;
    bool is_found = false;
    FILE *log = open_memstream(&lines, &size);
    if (log == NULL || !begin(recording, text)) fail(1, "out of memory");
    if (it.wanted_len == 0) return false;
    for (size_t i = 0; i < recording->count; i++) {
        uint64_t micros = recording->chunks[i].micros;
        it.off.len = 0;
        if (!reel_play(&it.reel, &it.off)) fail(1, "out of memory");
        bool is_in_lines = search_lines(micros, &count, i < first ? NULL : log);
        if (i < first) continue;
        is_found |= is_in_lines;
        if (!look(i == first)) fail(1, "out of memory");
        if (it.found != NULL && !span.is_open) open_span(&span, micros);
        if (it.found == NULL && span.is_open) close_span(&span, &micros);
        is_found |= span.is_open;
    }
    if (span.is_open) close_span(&span, NULL);
    if (fclose(log) != 0) fail(1, "out of memory");
    fwrite(lines, 1, size, stdout);
    free(lines);
    return is_found;
}
