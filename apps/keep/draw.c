/* Draws a terminal on standard output, which is another terminal of any kind and any size. vt220_draw writes what is drawn of a screen; the modes
 * of the keyboard, BEL and the lines of the log are written here.
 * On a smaller outer screen the part that has the cursor is shown, and a corner names that part. It is drawn as the terminal is that has this part
 * alone. On a larger one the remainder is blank; nothing is drawn beyond the most columns that a session may have.
 * outer.c writes a drawing as the outer terminal takes it. The next one is made when that is done. */
#include "keep.h"
#include "outer.h"
#include "utf8.h"
#include <stdarg.h>
#include <stdio.h>
#include <stdlib.h>
#include <string.h>

enum {
    PIECE = 64,                              /* more than a hint has, with its CUP and SGR, and than all that is written of the modes */
    ROW_LIMIT = UTF8_LIMIT * VT220_MOST_COLUMNS + PIECE /* the most bytes of a line of the log, with its CUP and EL */
};

static struct {
    size_t rows, cols;   /* of the screen that is drawn on; no more columns than a session may have */
    vt220 shown;         /* what is on it */
    bool is_drawn;       /* false if anything else is on it */
    const uint8_t *const *lines; /* the lines of the log that are on it; null if none are */
    vt220 part;          /* the part of the kept screen that is to be shown */
    vt220_scratch scratch;
    uint8_t *drawing;    /* with capacity for one of so many bytes, the most for a screen of this size */
    size_t limit;
    bool rings;          /* whether a bell is to be rung */
    bool has_keypad;     /* whether its keypad sends application sequences */
    bool has_brackets;   /* whether it sends pasted text in brackets */
    bool wants_brackets; /* whether it is to do so */
    size_t top, left;    /* how many rows and columns of the kept screen are above and left of it */
} outer;

/* --- the part of a screen that is shown --- */

/* Moves the part that is shown no further than needed to have the cursor in it; by half a screen if to the side. */
static size_t pan(size_t first, size_t shown, size_t all, size_t cursor, size_t step) {
    if (shown >= all) return 0;
    if (cursor <= first) first = cursor - 1 > step ? cursor - 1 - step : 0;
    if (cursor > first + shown) first = cursor - shown + step;
    return first + shown > all ? all - shown : first;
}

/* Changes the part by what a VT220 reads. */
static void change(const char *read, ...) __attribute__((format(printf, 1, 2)));
static void change(const char *read, ...) {
    char text[VT220_MOST_COLUMNS + PIECE];
    va_list words;
    va_start(words, read);
    int len = vsnprintf(text, sizeof text, read, words);
    va_end(words);
    vt220_feed(&outer.part, (const uint8_t *)text, (size_t)len, NULL, 0, NULL);
}

/* Brings the part to the upper left corner. All after it becomes spaces that look blank: on a reverse screen these have the attribute. */
static void cut(size_t rows, size_t width, bool is_reversed) {
    change("\033[!p\033[%dm", is_reversed ? 7 : 0);
    if (outer.top > 0) change("\033[1;1H\033[%zuM", outer.top);
    for (size_t row = 1; row <= rows; row++) {
        size_t kept = row <= outer.rows ? outer.cols : 0;
        if (outer.left > 0) change("\033[%zu;1H\033[%zuP", row, outer.left);
        if (kept < width) change("\033[%zu;%zuH%*s", row, kept + 1, (int)(width - kept), "");
    }
}

/* Writes which rows and columns are shown in the upper right corner, or in the lower one if the cursor is in the upper row. */
static void add_hint(size_t rows, size_t width, size_t cursor_row, bool is_reversed) {
    char hint[PIECE];
    size_t bottom = outer.top + outer.rows < rows ? outer.top + outer.rows : rows;
    size_t right = outer.left + outer.cols < width ? outer.left + outer.cols : width;
    int len = snprintf(hint, sizeof hint, "[%zu-%zu/%zu %zu-%zu/%zu]", outer.top + 1, bottom, rows, outer.left + 1, right, width);
    size_t across = outer.cols < width ? outer.cols : width;
    if (outer.rows < 2 || across < (size_t)len + 2) return;
    size_t row = cursor_row > 1 ? 1 : outer.rows < rows ? outer.rows : rows;
    change("\033[%zu;%zuH\033[%dm%s", row, across - (size_t)len + 1, is_reversed ? 0 : 7, hint);
}

/* Makes the part that the outer screen is to show, which is all of the terminal before. */
static void make_part(const vt220 *t, const vt220_mode_set *modes) {
    vt220_cursor_place cursor;
    size_t rows = vt220_rows(t), width = vt220_width(t);
    vt220_cursor(t, &cursor);
    outer.top = pan(outer.top, outer.rows, rows, cursor.row, 0);
    outer.left = pan(outer.left, outer.cols, width, cursor.col, outer.cols / 2);
    if (outer.rows >= rows && outer.cols >= width) return;
    cut(rows, width, modes->decscnm);
    add_hint(rows, width, cursor.row - outer.top, modes->decscnm);
    change("\033[%zu;%zuH\033[?25%c", cursor.row - outer.top, cursor.col - outer.left, modes->dectcem ? 'h' : 'l');
}

/* --- the size --- */

/* Makes room for drawings of a screen of the present size. Returns false if allocation fails. */
static bool make_room(void) {
    size_t limit = vt220_limit(&outer.part, VT220_OF_DRAW);
    uint8_t *room = realloc(outer.drawing, limit);
    if (room == NULL) return false;
    outer.drawing = room;
    outer.limit = limit;
    return vt220_scratch_fit(&outer.scratch, &outer.part) == VT220_OK && outer_reserve(limit + (outer.rows + 1) * ROW_LIMIT);
}

/* Copies the terminal to the part. If its size isn't that of before, all is drawn again. Returns false if allocation fails. */
static bool take(const vt220 *t) {
    if (vt220_copy(&outer.part, t) != VT220_SIZE) return true;
    draw_again();
    size_t rows = vt220_rows(t), width = vt220_width(t);
    bool is_fit = vt220_resize(&outer.part, rows, width) == VT220_OK && vt220_resize(&outer.shown, rows, width) == VT220_OK && make_room();
    return is_fit && vt220_copy(&outer.part, t) == VT220_OK;
}

/* --- drawing --- */

static void draw_modes(const vt220_mode_set *modes) {
    if (outer.rings) outer_say("\a");
    outer.rings = false;
    if (outer.has_keypad != modes->keypad_application) outer_say(modes->keypad_application ? "\033=" : "\033>");
    outer.has_keypad = modes->keypad_application;
    if (outer.has_brackets != outer.wants_brackets) outer_say(outer.wants_brackets ? "\033[?2004h" : "\033[?2004l");
    outer.has_brackets = outer.wants_brackets;
}

bool draw(const vt220 *t) {
    vt220_mode_set modes;
    size_t len;
    if (!take(t)) return false;
    vt220_modes(t, &modes);
    draw_modes(&modes);
    make_part(t, &modes);
    vt220_draw(outer.is_drawn ? &outer.shown : NULL, &outer.part, &outer.scratch, outer.drawing, outer.limit, &len);
    outer_put(outer.drawing, len);
    vt220_copy(&outer.shown, &outer.part);
    outer.is_drawn = true;
    outer.lines = NULL;
    outer_write();
    return true;
}

size_t draw_rows(void) {
    return outer.rows;
}

/* Draws a line as far as it fits. No control character is written. */
static void draw_line(size_t row, const uint8_t *line) {
    char text[PIECE];
    snprintf(text, sizeof text, "\033[%zu;1H\033[K", row);
    outer_say(text);
    for (size_t col = 1; line != NULL && *line != '\n' && col <= outer.cols; col++) {
        uint32_t glyph;
        line = utf8_read(line, &glyph);
        outer_put(text, utf8_put(glyph < ' ' || (glyph >= 0x7F && glyph < 0xA0) ? '?' : glyph, text));
    }
}

static void draw_log(const uint8_t *const *lines, size_t count, const char *hint) {
    char text[2 * PIECE];
    outer_say("\033[0m\033[?25l");
    for (size_t row = 1; row <= outer.rows; row++) draw_line(row, row <= count ? lines[row - 1] : NULL);
    if (outer.cols < strlen(hint) + 2) return;
    snprintf(text, sizeof text, "\033[1;%zuH\033[7m%s\033[0m", outer.cols - strlen(hint) + 1, hint);
    outer_say(text);
}

void draw_lines(const uint8_t *const *lines, size_t count, const char *hint) {
    if (outer.rings) outer_say("\a");
    outer.rings = false;
    if (outer.lines != lines) draw_log(lines, count, hint);
    outer.lines = lines;
    outer.is_drawn = false;
    outer_write();
}

/* What is on the outer screen counts as unknown. */
void draw_again(void) {
    outer.is_drawn = false;
    outer.lines = NULL;
}

void draw_bell(void) {
    outer.rings = true;
}

void draw_brackets(bool on) {
    outer.wants_brackets = on;
}

/* --- the outer screen --- */

/* Takes in a new size of the outer screen. All of it is then drawn again. Returns false if allocation fails. */
bool draw_resize(void) {
    draw_again();
    outer_size(&outer.rows, &outer.cols);
    if (outer.cols > VT220_MOST_COLUMNS) outer.cols = VT220_MOST_COLUMNS;
    return make_room();
}

/* Opens what draws. Returns false if allocation fails. */
static bool open_all(void) {
    if (vt220_is_open(&outer.shown)) return true;
    return vt220_open(&outer.shown) == VT220_OK && vt220_open(&outer.part) == VT220_OK;
}

/* Takes the outer terminal, whose line is then raw. Returns false if allocation fails. */
bool draw_enter(void) {
    return outer_take(0, "\033>\033[?2004l" OUTER_LEAVING) && open_all() && draw_resize();
}

/* Restores the outer terminal's screen, cursor, keypad, pasting and line. A drawing that has begun is completed, unless the outer terminal
 * takes nothing for longer than `patience`. */
void draw_leave(void) {
    char leaving[PIECE];
    snprintf(leaving, sizeof leaving, "%s%s%s", outer.has_keypad ? "\033>" : "", OUTER_LEAVING, outer.has_brackets ? "\033[?2004l" : "");
    outer_release(leaving, patience);
    outer.has_keypad = outer.has_brackets = false;
}
