/* The log of the session, shown in place of its screen while a client scrolls back. What is shown is as it was when the client asked:
 * the lines that had scrolled off, and the screen. */
#include "keep.h"
#include <stdio.h>
#include <stdlib.h>
#include <string.h>

static struct {
    enum { OFF, WAITING, ON } state;
    uint8_t *bytes; /* the lines that came, and after them the screen */
    size_t len, room;
    uint8_t screen[TEXT_MOST];
    size_t screen_len;
    const uint8_t **lines;
    size_t count, top; /* how many lines there are, and which one is in the first row */
    uint8_t held[VT220_TYPED_LIMIT]; /* the beginning of a key whose end hasn't come */
    size_t held_len;
    bool is_to_page; /* the log is to be shown in a pager */
} it;

bool scroll_is_on(void) {
    return it.state == ON;
}

void scroll_leave(void) {
    draw_again();
    free(it.bytes);
    free(it.lines);
    it.bytes = NULL;
    it.lines = NULL;
    it.len = it.room = it.count = it.held_len = it.screen_len = 0;
    it.state = OFF;
}

void scroll_wait(void) {
    if (it.state == OFF) it.state = WAITING;
}

static size_t last_top(void) {
    return it.count > draw_rows() ? it.count - draw_rows() : 0;
}

/* Adds bytes to the log. If allocation fails, it is given up. */
static void append(const uint8_t *bytes, size_t len) {
    if (len == 0) return;
    if (it.len + len > it.room) {
        size_t room = 2 * (it.len + len);
        uint8_t *more = realloc(it.bytes, room);
        if (more == NULL) {
            scroll_leave();
            return;
        }
        it.bytes = more;
        it.room = room;
    }
    memcpy(it.bytes + it.len, bytes, len);
    it.len += len;
}

/* Finds the lines. The view begins one page above the screen. */
static void begin(void) {
    append(it.screen, it.screen_len);
    if (it.len == 0) scroll_leave();
    if (it.state == OFF) return;
    for (size_t at = 0; at < it.len; at++) it.count += it.bytes[at] == '\n';
    it.lines = malloc((it.count + 1) * sizeof *it.lines);
    if (it.lines == NULL) {
        scroll_leave();
        return;
    }
    size_t n = 0;
    for (const uint8_t *at = it.bytes; n < it.count; at = (const uint8_t *)memchr(at, '\n', (size_t)(it.bytes + it.len - at)) + 1) it.lines[n++] = at;
    it.state = ON;
    it.top = last_top() > draw_rows() ? last_top() - draw_rows() : 0;
}

void scroll_take(char letter, const uint8_t *bytes, size_t len) {
    if (it.state != WAITING) return;
    if (letter == FRAME_SCREEN && len <= sizeof it.screen) {
        memcpy(it.screen, bytes, len);
        it.screen_len = len;
    } else if (letter == FRAME_LINES) {
        append(bytes, len);
    } else if (letter == FRAME_LOGGED) {
        begin();
    }
}

/* The keys that move, and the one that opens a pager. A number is a count of lines; a page is one line less than the screen. */
static bool move(const uint8_t *key, size_t len) {
    if (len == 1 && *key == '/') return it.is_to_page = true;
    long page = draw_rows() > 1 ? (long)draw_rows() - 1 : 1, by = 0, top = (long)it.top, most = (long)last_top();
    char final = (char)key[len - 1];
    if (len < 3 || key[0] != 0x1B) return false;
    if (final == 'A') by = -1;
    else if (final == 'B') by = 1;
    else if (final == 'H' || (final == '~' && key[2] == '1')) by = -top;
    else if (final == 'F' || (final == '~' && key[2] == '4')) by = most - top;
    else if (final == '~' && key[2] == '5') by = -page;
    else if (final == '~' && key[2] == '6') by = page;
    else return false;
    top += by;
    it.top = (size_t)(top < 0 ? 0 : top > most ? most : top);
    return true;
}

/* Takes what is typed: keys that move, or any other key, which returns to the screen and isn't sent. What comes after that key is the
 * program's. */
size_t scroll_type(const uint8_t *typed, size_t len) {
    uint8_t all[sizeof it.held + 1];
    const size_t given = len;
    for (; len > 0 && it.state == ON; typed++, len--) {
        memcpy(all, it.held, it.held_len);
        all[it.held_len++] = *typed;
        /* The key ESC alone and the beginning of a longer key are told apart by what follows in the same read. */
        bool is_beginning = it.held_len == 1 && *typed == 0x1B && len > 1;
        size_t n = is_beginning ? 0 : keys_length(all, it.held_len);
        memcpy(it.held, all, it.held_len < sizeof it.held ? it.held_len : sizeof it.held);
        if (n == 0 && it.held_len < sizeof it.held) continue;
        bool moves = n == it.held_len && move(all, n);
        it.held_len = 0;
        if (!moves) scroll_leave();
    }
    return given - len;
}

bool scroll_is_to_page(void) {
    bool is_so = it.state == ON && it.is_to_page;
    it.is_to_page = false;
    return is_so;
}

const uint8_t *scroll_log(size_t *len) {
    *len = it.len;
    return it.bytes;
}

void scroll_draw(void) {
    char hint[64];
    size_t rows = draw_rows(), most = last_top();
    if (it.top > most) it.top = most;
    size_t shown = it.count - it.top < rows ? it.count - it.top : rows;
    snprintf(hint, sizeof hint, "[%zu-%zu/%zu]", it.top + 1, it.top + shown, it.count);
    draw_lines(it.lines + it.top, shown, hint);
}
