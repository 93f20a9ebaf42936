/* vt220-play: plays a recording on the terminal in which it runs. Declarations of all parts. */
#ifndef PLAY_H
#define PLAY_H

#include "../../lib/c/recording.h"
#include "vt220.h"
#include <stdnoreturn.h>

/* --- play.c --- */

/* Prints the reason on standard error, and ends with this status. */
noreturn void fail(int status, const char *why, ...) __attribute__((format(printf, 2, 3)));

/* --- recording.c: what is played --- */

struct size {
    uint32_t rows, columns;
};

/* What came at once: bytes, or a change of the size, which has none. */
struct chunk {
    uint64_t micros; /* when it came, in microseconds after the beginning */
    size_t end;      /* the number of bytes up to its end */
};

struct change {
    size_t event, chunk; /* by their indexes */
    struct size size;
};

/* What the options ask for. */
struct asked {
    const char *file, *timing;
    enum { ENCODING_AUTO, ENCODING_DEC, ENCODING_UTF8 } encoding;
    enum { TERMINAL_AUTO, TERMINAL_VT220, TERMINAL_XTERM } terminal;
    struct size size; /* no rows if the recording decides */
};

struct recording {
    recording_event *events; /* as they were recorded */
    size_t events_count;
    uint8_t *bytes;          /* what the host sent */
    struct chunk *chunks;    /* as they are played, in the order of their times and their ends */
    size_t count;
    struct change *changes;  /* of the size, in the order of their chunks */
    size_t changes_count;
    struct size size;        /* at the beginning; that of a VT220's narrow screen is 24 rows of 80 columns */
    uint32_t language;       /* of the terminal that plays it */
    const char *front;       /* what that terminal is sent first */
    bool is_timed;
};

/* A moment of a recording. */
struct moment {
    uint64_t micros;
    size_t count, position; /* how many chunks and how many bytes came up to it; the last chunk may go on after it */
};

/* Reads a recording. Prints a line on what can't be played of it. Ends the program if nothing can. */
void recording_read(struct recording *it, const struct asked *asked);
/* Leaves out what comes after a moment. */
void recording_cut(struct recording *it, struct moment moment);
size_t chunks_at(const struct recording *it, uint64_t micros);     /* how many chunks came up to this time */
size_t chunks_before(const struct recording *it, uint64_t micros); /* and how many before it */
uint64_t duration_of(const struct recording *it);
/* Returns the time of the marker next to a time, after it or before it, and the end or the beginning if there is none. */
uint64_t marker_next_to(const struct recording *it, uint64_t micros, bool is_after);

bool time_of(const char *text, uint64_t *micros); /* reads 12.5, 12:31 or 1:02:03; false if it is no time */
bool size_of(const char *text, struct size *size); /* reads 120x40, columns and rows; false if it is no size of a screen */
/* Reads a moment as vt220 does: a time, 4096b, event:N or marker:N. Ends the program if it is none, or isn't there. */
struct moment moment_of(const struct recording *it, const char *option, const char *text);

/* --- reel.c: the terminal after each chunk of a recording --- */

struct reel {
    vt220 terminal;
    size_t count, changes; /* how many chunks, and how many changes of the size, it has played */
};

/* Lines that scrolled off the top of the screen, each with LF. All zero is empty. */
struct scrolled {
    uint8_t *text;
    size_t len, size;
    vt220_scratch scratch;
};

void reel_begin(const struct recording *recording); /* ends the program if allocation fails */
bool reel_open(struct reel *reel);                  /* at the beginning; false if allocation fails */
/* Plays up to so many chunks. Adds the lines that scroll off the top meanwhile, unless `off` is null. Returns false if allocation fails. */
bool reel_seek(struct reel *reel, size_t count, struct scrolled *off);
bool reel_play(struct reel *reel, struct scrolled *off); /* plays the next chunk, in the same way */
/* Brings a terminal, which may be closed, to the state and the size of a reel's. Returns false if allocation fails. */
bool reel_copy(vt220 *to, uint32_t language, const struct reel *from);

/* --- find.c: the search --- */

#define NOWHERE SIZE_MAX
enum { FIND_LIMIT = 4096 /* the bytes of a text that is searched for are fewer than half of these */ };

/* Returns the first chunk with an index from `first` up to `end` that brings a text on the screen, or the last one; NOWHERE if none does. If the text
 * came and scrolled off within that chunk, *has_passed is set. The text is in UTF-8. A character is found by what is shown for it. */
size_t find(const struct recording *recording, const char *text, size_t first, size_t end, bool is_last, bool *has_passed);
/* Prints a line for each span of time in which the text was on the screen, and for each line with it that scrolled off, from a chunk on. Returns
 * whether there are any. */
bool find_all(const struct recording *recording, const char *text, size_t first);

#endif
