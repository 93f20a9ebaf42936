/* The terminal in which a program runs that draws there: raw meanwhile, and restored however the program ends, but for SIGKILL. What is drawn
 * is gathered, and written as the terminal takes it. For vt220-keep and vt220-play. */
#ifndef OUTER_H
#define OUTER_H

#include <signal.h>
#include <stdbool.h>
#include <stddef.h>

/* The signals that came and weren't obeyed. */
struct outer_told {
    volatile sig_atomic_t to_go; /* the signal that is to end the program; 0 if there is none */
    volatile sig_atomic_t to_stop, was_continued, has_new_size;
};

extern struct outer_told outer_told;

bool outer_open(void);                        /* remembers how standard input is; false if it isn't a terminal */
void outer_hold_signals(sigset_t *open_mask); /* signals are handled only while this mask is in force */
void outer_set_raw(void);

/* Makes the terminal raw, and enters its alternate screen, with the cursor shown and no attributes. There is capacity for drawings of so many
 * bytes. A fault restores it by the bytes `leaving`. Returns false if allocation fails. */
bool outer_take(size_t capacity, const char *leaving);
bool outer_reserve(size_t capacity); /* capacity for drawings of so many bytes after what waits; false if allocation fails */
/* Writes what waits and `leaving`, unless the terminal takes nothing for so many milliseconds, and restores the line. */
void outer_release(const char *leaving, int patience);
void outer_stop(void); /* stops as a program without a handler for SIGTSTP does; the terminal is released before */
void outer_size(size_t *rows, size_t *cols);  /* 24 rows and 80 columns if it doesn't say */

void outer_put(const void *bytes, size_t len);
void outer_say(const char *text);
bool outer_is_done(void); /* all is written */
void outer_write(void);   /* writes as much as the terminal takes now */
int outer_line(void);     /* returns the file to wait for */

#define OUTER_LEAVING "\033[0m\033[?25h\033[?1049l"

#endif
