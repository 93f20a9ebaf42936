/* The size of a session: the one for which its clients' windows ask, and how its terminals get it.
 *
 * A session follows the smallest of the windows, its rows and its columns each. So every client sees all of it. A client that only shows the
 * session doesn't count. If nobody is attached, the size stays. So does a VT220's size, in which DECCOLM changes the width, until a window
 * asks for another one. */
#include "session.h"

enum { LEAST_ROWS = 2, LEAST_COLUMNS = 2 };

static size_t within(size_t number, size_t least, size_t most) {
    return number < least ? least : number > most ? most : number;
}

struct window nearest_size(size_t rows, size_t columns) {
    return (struct window){(uint16_t)within(rows, LEAST_ROWS, VT220_MOST_ROWS), (uint16_t)within(columns, LEAST_COLUMNS, VT220_MOST_COLUMNS)};
}

bool is_size(const struct window *size) {
    struct window nearest = nearest_size(size->rows, size->columns);
    return nearest.rows == size->rows && nearest.columns == size->columns;
}

void set_size(struct window size) {
    the.size = size;
    the.is_vt220 = size.rows == VT220_ROWS && size.columns == NARROW;
}

bool open_like(vt220 *t, uint32_t language) {
    if (vt220_open_as(t, language, the.size.rows, the.size.columns) != VT220_OK) return false;
    return the.is_vt220 || vt220_resize(t, the.size.rows, the.size.columns) == VT220_OK;
}

/* Finds the size for which the windows ask. Returns false if they ask for none: no client counts, or there is one that knows no sizes. */
static bool find_size(struct window *wanted) {
    size_t rows = VT220_MOST_ROWS, columns = VT220_MOST_COLUMNS, count = 0;
    for (size_t i = 0; i < CLIENT_LIMIT; i++) {
        const struct client *c = the.clients[i];
        if (c == NULL || c->state != ATTACHED) continue;
        if (c->version < PROTOCOL_SIZE) return false;
        if (c->flags & FLAG_READ_ONLY) continue;
        if (c->window.rows < rows) rows = c->window.rows;
        if (c->window.columns < columns) columns = c->window.columns;
        count++;
    }
    *wanted = nearest_size(rows, columns);
    return count > 0;
}

/* Opens a copy of a terminal, and brings it to a size. Returns false if allocation fails. */
static bool open_resized(vt220 *made, const vt220 *from, struct window size) {
    return open_like(made, the.language) && vt220_copy(made, from) == VT220_OK && vt220_resize(made, size.rows, size.columns) == VT220_OK;
}

/* Keeps the rows that leave the main page at the top when it gets so many rows. It goes by its own cursor: while the alternate page is shown,
 * by the place that was saved on it. The terminal isn't used after that. */
static void log_leaving(size_t rows) {
    static const uint8_t show_main[] = "\030\033[?47l";
    static uint8_t line[ROW_TEXT_MOST];
    vt220_language_state kept = {0};
    vt220_cursor_place cursor;
    vt220_saved_record saved;
    size_t len;
    vt220_cursor(&the.terminal, &cursor);
    vt220_language(&the.terminal, &kept);
    if (kept.alternate) {
        vt220_feed(&the.terminal, show_main, sizeof show_main - 1, NULL, 0, NULL);
        vt220_saved(&the.terminal, &saved);
    }
    size_t last = kept.alternate ? saved.row : cursor.row;
    for (size_t row = 1; row + rows <= last; row++) {
        if (vt220_row_text(&the.terminal, &the.scratch, row, line, sizeof line, &len) == VT220_OK) log_append(line, len);
    }
}

/* Closes the terminals and puts others in their place. */
static void exchange(const vt220 *terminal, const vt220 *settled, const vt220_scratch *scratch) {
    vt220_close(&the.terminal);
    vt220_close(&the.settled);
    vt220_scratch_close(&the.scratch);
    the.terminal = *terminal;
    the.settled = *settled;
    the.scratch = *scratch;
}

/* Gives a client what it needs for a session of this size. One that is attached gets a repaint next. Returns false if allocation fails. */
static bool fit_client(struct client *c) {
    if (!make_room(c, frame_most())) return false;
    if (c->state != ATTACHED) return true;
    vt220_close(&c->shown);
    c->needs_repaint = true;
    return open_like(&c->shown, VT220_BYTES);
}

/* Changes the size. If allocation fails, nothing has changed, or a client is dropped. */
static void resize_session(struct window size) {
    vt220 terminal = VT220_INIT, settled = VT220_INIT;
    vt220_scratch scratch = VT220_INIT;
    bool is_made = open_resized(&terminal, &the.terminal, size) && open_resized(&settled, &the.settled, size);
    if (!is_made || vt220_scratch_fit(&scratch, &terminal) != VT220_OK) {
        vt220_close(&terminal);
        vt220_close(&settled);
        return;
    }
    log_leaving(size.rows);
    exchange(&terminal, &settled, &scratch);
    the.size = size;
    the.is_vt220 = false;
    the.changes++;
    set_line_size();
    publish_size();
    for (size_t i = 0; i < CLIENT_LIMIT; i++) {
        if (the.clients[i] != NULL && !fit_client(the.clients[i])) the.clients[i]->deadline = 0;
    }
}

void resize_program(struct window size) {
    struct pollfd polled = {the.master, POLLIN, 0};
    if (the.is_over || !is_size(&size) || (size.rows == the.size.rows && size.columns == the.size.columns)) return;
    for (int i = 0; i < DRAIN_LIMIT && poll(&polled, 1, 0) > 0 && read_program(); i++) {}
    resize_session(size);
}

void follow_windows(void) {
    struct window wanted;
    if (the.is_fixed || the.is_over || !find_size(&wanted)) return;
    if (wanted.rows != the.size.rows || wanted.columns != the.size.columns) resize_session(wanted);
}
