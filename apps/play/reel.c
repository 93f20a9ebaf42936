/* The terminal after each chunk of a recording: that of all bytes and changes of the size up to there. So it doesn't depend on how a seek got
 * there. A seek plays from the last checkpoint, which is a terminal, or goes on from where it is. */
#include "play.h"
#include <stdlib.h>
#include <string.h>

enum { POINTS = 128, LEAST = 65536 /* the fewest bytes from one checkpoint to the next */ };

static struct {
    const struct recording *of;
    size_t every; /* the fewest bytes from one checkpoint to the next */
    struct reel points[POINTS + 1];
    size_t count;
} kept;

/* Returns how many bytes so many chunks have. */
static size_t bytes_of(size_t count) {
    return count > 0 ? kept.of->chunks[count - 1].end : 0;
}

/* Opens a terminal of the size after so many changes. Returns false if allocation fails. */
static bool open_after(vt220 *t, uint32_t language, size_t changes) {
    struct size size = changes > 0 ? kept.of->changes[changes - 1].size : kept.of->size;
    if (vt220_open_as(t, language, size.rows, size.columns) != VT220_OK) return false;
    return changes == 0 || vt220_resize(t, size.rows, size.columns) == VT220_OK;
}

/* A terminal of another size is opened anew: one that was resized can't get a VT220's size back. */
bool reel_copy(vt220 *to, uint32_t language, const struct reel *from) {
    if (vt220_copy(to, &from->terminal) == VT220_OK) return true;
    vt220_close(to);
    return open_after(to, language, from->changes) && vt220_copy(to, &from->terminal) == VT220_OK;
}

/* Brings a reel to where another one is. Returns false if allocation fails. */
static bool restore(struct reel *reel, const struct reel *from) {
    reel->count = from->count;
    reel->changes = from->changes;
    return reel_copy(&reel->terminal, kept.of->language, from);
}

/* Makes a checkpoint, if there is memory for it. */
static void keep(const struct reel *reel) {
    if (kept.count <= POINTS && restore(&kept.points[kept.count], reel)) kept.count++;
}

void reel_begin(const struct recording *recording) {
    struct reel first = {.terminal = VT220_INIT};
    kept.of = recording;
    kept.every = bytes_of(recording->count) / POINTS + LEAST;
    if (!open_after(&first.terminal, recording->language, 0)) fail(1, "out of memory");
    vt220_feed(&first.terminal, (const uint8_t *)recording->front, strlen(recording->front), NULL, 0, NULL);
    keep(&first);
    vt220_close(&first.terminal);
    if (kept.count == 0) fail(1, "out of memory");
}

bool reel_open(struct reel *reel) {
    return restore(reel, &kept.points[0]);
}

/* Makes room for lines of a terminal that scroll off at once. Returns false if allocation fails. */
static bool make_room(struct scrolled *off, const vt220 *t) {
    size_t least = off->len + vt220_limit(t, VT220_OF_LINES);
    if (vt220_scratch_fit(&off->scratch, t) != VT220_OK) return false;
    if (off->size >= least) return true;
    uint8_t *more = realloc(off->text, 2 * least);
    if (more == NULL) return false;
    off->text = more;
    off->size = 2 * least;
    return true;
}

/* Plays bytes. Returns false if allocation fails. */
static bool feed(vt220 *t, const uint8_t *bytes, size_t len, struct scrolled *off) {
    if (off == NULL) {
        vt220_feed(t, bytes, len, NULL, 0, NULL);
        return true;
    }
    for (size_t at = 0, written; at < len; off->len += written) {
        if (!make_room(off, t)) return false;
        at += vt220_feed_log(t, &off->scratch, bytes + at, len - at, NULL, 0, NULL, off->text + off->len, off->size - off->len, &written);
    }
    return true;
}

/* Adds the rows that leave the main page at the top if the screen gets so many rows. It goes by its own cursor: while the alternate page is
 * shown, by the place that was saved on it. */
static bool add_leaving(const struct reel *reel, size_t rows, struct scrolled *off) {
    static const uint8_t show_main[] = "\030\033[?47l";
    vt220 page = VT220_INIT;
    vt220_language_state language;
    vt220_cursor_place cursor;
    vt220_saved_record saved;
    bool is_fine = reel_copy(&page, kept.of->language, reel);
    if (!is_fine) return false;
    vt220_language(&page, &language);
    vt220_cursor(&page, &cursor);
    if (language.alternate) {
        vt220_feed(&page, show_main, sizeof show_main - 1, NULL, 0, NULL);
        vt220_saved(&page, &saved);
    }
    size_t last = language.alternate ? saved.row : cursor.row;
    for (size_t row = 1, written; is_fine && row + rows <= last; row++) {
        is_fine = make_room(off, &page);
        if (is_fine && vt220_row_text(&page, &off->scratch, row, off->text + off->len, off->size - off->len, &written) == VT220_OK) off->len += written;
    }
    vt220_close(&page);
    return is_fine;
}

bool reel_play(struct reel *reel, struct scrolled *off) {
    const struct change *change = reel->changes < kept.of->changes_count ? &kept.of->changes[reel->changes] : NULL;
    size_t from = bytes_of(reel->count), end = bytes_of(reel->count + 1);
    if (!feed(&reel->terminal, kept.of->bytes + from, end - from, off)) return false;
    if (change != NULL && change->chunk == reel->count) {
        if (off != NULL && !add_leaving(reel, change->size.rows, off)) return false;
        if (vt220_resize(&reel->terminal, change->size.rows, change->size.columns) != VT220_OK) return false;
        reel->changes++;
    }
    reel->count++;
    return true;
}

bool reel_seek(struct reel *reel, size_t count, struct scrolled *off) {
    const struct reel *from = &kept.points[kept.count - 1];
    while (from->count > count) from--;
    bool goes_on = count >= reel->count && (off != NULL || from->count <= reel->count), is_fine = goes_on || restore(reel, from);
    while (is_fine && reel->count < count) {
        is_fine = reel_play(reel, off);
        if (is_fine && bytes_of(reel->count) >= bytes_of(kept.points[kept.count - 1].count) + kept.every) keep(reel);
    }
    return is_fine;
}
