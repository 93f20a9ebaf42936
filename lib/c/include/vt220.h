/* vt220.h: a DEC VT220 terminal emulator core, for C11 and C++.
 *
 * You feed it the bytes that a host sends, in chunks of any size. You get the replies for the host, the screen as text,
 * cells or a picture, and bytes that rebuild the whole state on another terminal of this library. An example, in which
 * `bytes` are `size` bytes of a host:
 *
 *     vt220 t = VT220_INIT;
 *     vt220_scratch s = VT220_INIT;
 *     uint8_t replies[4096], text[VT220_TEXT_LIMIT];
 *     size_t len;
 *     if (vt220_open(&t) == VT220_OK && vt220_scratch_open(&s) == VT220_OK) {
 *         for (size_t at = 0; at < size;) {
 *             at += vt220_feed(&t, bytes + at, size - at, replies, sizeof replies, &len);
 *             write(host, replies, len);
 *         }
 *         vt220_text(&t, &s, text, sizeof text, &len);
 *         fwrite(text, 1, len, stdout);
 *     }
 *     vt220_scratch_close(&s);
 *     vt220_close(&t);
 *
 * Languages. What a host sends is chosen when a terminal is opened, and all calls serve it:
 *
 *   VT220_BYTES   the bytes of a VT220: 00 to 7F are ASCII and the C0 controls, 80 to 9F are the C1 controls, and A0 to
 *                 FF are characters of the DEC supplemental set. vt220_open opens such a terminal.
 *   VT220_UTF8    UTF-8. A VT220 has 204 characters. Any other character is shown as a similar one, or as U+2426
 *                 (vt220_shown). It takes as many cells as on other terminals. A character beyond ASCII causes no
 *                 reply. It ends an unfinished escape or control sequence, and is content in a control string. So
 *                 U+0080 to U+009F aren't controls. U+FFFD is in place of each ill-formed part (the Unicode Standard,
 *                 3.9).
 *   VT220_XTERM   what programs send if TERM is xterm or xterm-256color: UTF-8, and functions that a VT220 lacks. These
 *                 are CHA, HPA, HPR, VPA, VPR, CNL, CPL, CHT, CBT, SU, SD, REP, SCP, RCP, left and right margins (?69,
 *                 DECSLRM), and the alternate page (?47, ?1047, ?1048, ?1049). Colours have no effect. DECSTR and
 *                 DECSCL leave DECAWM set. DECCOLM has an effect only if ?40 is set. Everything else is as on a VT220,
 *                 and so are the replies.
 *
 * BEL changes only the count of vt220_bells. LEDs, printing, double-size lines and sequences of later terminals have no
 * effect. vt220-keys.h has the keyboard, which takes what vt220_modes writes.
 *
 * Sizes. vt220_open opens a terminal of a VT220's size, 24 rows of 80 columns, and DECCOLM makes it 132 columns wide.
 * vt220_open_as opens one of 2 to 255 rows and 2 to 255 columns. On a terminal of any other size, and on one that was
 * resized, DECCOLM leaves the width. All else is as on a VT220. A terminal that was resized to 24 by 80 hasn't a
 * VT220's size, for DECCOLM leaves its width. vt220_rows and vt220_width return the size, vt220_limit the sizes of
 * buffers, and vt220_resize changes it. The macros of limits, such as VT220_TEXT_LIMIT, are those of a VT220's size.
 *
 * The state. Each terminal has the state of a VT220, which the readers, vt220_text and vt220_update are about. A
 * terminal in UTF-8 also keeps the bytes of a character that isn't complete. One under TERM=xterm also keeps the page
 * that isn't shown, left and right margins, and whether DECCOLM has an effect, the alternate page is shown, and pasted
 * text is wanted in brackets. All of it is copied and reset with the terminal. vt220_language reads a part of it.
 *
 * Handles. You allocate a vt220 or a vt220_scratch as a struct. All zero means closed. An open handle owns memory until
 * you close it. Only vt220_open, vt220_open_as, vt220_resize, vt220_scratch_open and vt220_scratch_fit allocate. Any
 * call on a closed handle is safe, and reports it. A vt220 of a VT220's size takes 30 KB, and 56 KB under TERM=xterm.
 * Of another size it takes 6 KB and 8 bytes for each cell, and under TERM=xterm 8 bytes more for each cell.
 *
 * Scratch buffers. A vt220_scratch is a work buffer. One serves any number of terminals of one size, one call at a
 * time, and keeps nothing between calls. vt220_scratch_open opens one for a VT220's size, and vt220_scratch_fit makes
 * one serve the size of a terminal. That of a VT220's size has 690 KB of address space. Only the part that is used
 * becomes resident: 125 KB without pictures. Another one has up to 218 bytes for each cell.
 *
 * Output structs. The library writes each field of a struct that you pass, and needs nothing in it before. It sets
 * `reserved` to zero. A later version may give these bytes a meaning.
 *
 * Threads. A call that takes a `const vt220 *` doesn't write to it, so several threads may make such calls on one
 * handle at once. Any other call needs the handle for itself. Each thread needs its own scratch buffer.
 *
 * Not checked. The caller must see to these:
 *  - A handle is all zero, or as the library left it. You may move it with memcpy if you don't use the original again.
 *  - An array has the length that you pass. A pointer may be null if its length is 0. Another pointer may be null only
 *    if its call says so.
 *  - The arguments of a call don't overlap. The same terminal may be passed twice to a call that takes two.
 *  - malloc, realloc and free belong to one allocator. No call is made from a signal handler, nor in the forked child
 *    of a program with threads.
 *
 * Stack. A call uses at most 8 KB of stack, and vt220_update 96 KB if a screen has more than 24 rows or 132 columns.
 *
 * Processor. On x86-64 the library needs x86-64-v2 (SSE4.2, of 2009). On an older processor the open calls return
 * VT220_UNSUPPORTED. On aarch64 it needs nothing beyond ARMv8-A.
 *
 * Versions. A program and a library go together if the major version is the same, which the SONAME has, and the library
 * isn't older than the header. Version 0.3.0 is the first of which this holds.
 *
 * Rows, columns and margins count from 1. Sizes and lengths are in bytes; those of vt220_row are in cells.
 *
 * Proof. Each call here is a short function of C (lib/c/vt220.c) over a call of the core. What the core's calls write
 * and return, and the state that they leave, is proved. The C is tested: that a handle stays valid, closed handles,
 * null pointers, the same terminal twice, the sum of the bells, `reserved`, and `changed` after the width.
 * docs/PROMISES.md lists both.
 */
#ifndef VT220_H
#define VT220_H

#include <stdbool.h>
#include <stddef.h>
#include <stdint.h>

#ifdef __cplusplus
extern "C" {
#endif

/* The version of this header: 10000 * major + 100 * minor + patch. */
#define VT220_VERSION 400

/* The statuses, which calls of type uint32_t return. On an error nothing has changed. */
#define VT220_OK 0          /* success */
#define VT220_MEMORY 1      /* the allocation failed */
#define VT220_IN_USE 2      /* the handle is already open */
#define VT220_CLOSED 3      /* a terminal or the scratch buffer is closed */
#define VT220_PARTIAL 4     /* a terminal is inside a sequence: feed its remainder, or CAN (0x18), which only ends it */
#define VT220_ROOM 5        /* the output buffer is too small; *written is the size that is needed */
#define VT220_UNSUPPORTED 6 /* the processor is older than x86-64-v2 */
#define VT220_NO_ROW 7      /* there is no such row */
#define VT220_LANGUAGE 10   /* the terminal has another language than the call needs; 8 and 9 are of vt220-keys.h */
#define VT220_SIZE 11       /* two handles have different sizes */
#define VT220_NO_LANGUAGE 12 /* there is no such language */
#define VT220_NO_SIZE 13    /* there is no such size */

/* What a host sends. VT220_UTF8 | VT220_XTERM is VT220_XTERM. */
#define VT220_BYTES 0 /* a VT220's bytes */
#define VT220_UTF8 1  /* UTF-8 */
#define VT220_XTERM 2 /* what programs send under TERM=xterm or xterm-256color */

/* The kinds of an unfinished sequence. */
#define VT220_HELD_NOTHING 0 /* none: the terminal is between sequences */
#define VT220_HELD_ESCAPE 1  /* an escape sequence */
#define VT220_HELD_CONTROL 2 /* a control sequence */
#define VT220_HELD_STRING 3  /* a control string */

/* What vt220_limit returns the limit of. */
#define VT220_OF_TEXT 0     /* vt220_text */
#define VT220_OF_ROW_TEXT 1 /* vt220_row_text */
#define VT220_OF_SHOW 2     /* vt220_show */
#define VT220_OF_PICTURE 3  /* vt220_picture */
#define VT220_OF_DRAW 4     /* vt220_draw, if `to` has this size */
#define VT220_OF_UPDATE 5   /* vt220_update */
#define VT220_OF_REPAINT 6  /* vt220_repaint */
#define VT220_OF_LINES 7    /* the capacity for lines with which vt220_feed_log goes on */

#define VT220_ROWS 24              /* the rows of a VT220 */
#define VT220_COLUMNS 132          /* the most columns of a VT220 */
#define VT220_MOST_ROWS 255        /* the most rows of a terminal */
#define VT220_MOST_COLUMNS 255     /* the most columns of a terminal */
#define VT220_REPORT_LIMIT 10      /* the most bytes of replies for one byte of input */
#define VT220_TEXT_LIMIT 9528      /* the most bytes of a text */
#define VT220_ROW_TEXT_LIMIT 397   /* the most bytes of the text of a row */
#define VT220_UTF8_LINES_LIMIT 17468 /* the capacity for lines with which vt220_feed_log goes on in UTF-8 */
#define VT220_XTERM_LINES_LIMIT 19056 /* and under TERM=xterm */
#define VT220_SHOW_LIMIT 51000     /* the most bytes of a text with attributes */
#define VT220_PICTURE_LIMIT 659968 /* the most bytes of a picture */
#define VT220_PAINT_LIMIT 93512    /* the most bytes of a repaint */
#define VT220_XTERM_PAINT_LIMIT 187076 /* the most bytes of a repaint under TERM=xterm */
#define VT220_UPDATE_LIMIT 94152   /* the most bytes of an update */
#define VT220_DRAW_LIMIT 79270     /* the most bytes of a drawing */

/* A terminal. The fields are private. */
typedef struct vt220 {
    void *terminal;
    bool is_open;
    uint64_t bells;
} vt220;

/* A scratch buffer. The fields are private. */
typedef struct vt220_scratch {
    void *room;
    bool is_open;
} vt220_scratch;

/* A closed handle of any type: vt220 t = VT220_INIT; */
#ifdef __cplusplus
#define VT220_INIT {}
#else
#define VT220_INIT {0}
#endif

/* The cursor. */
typedef struct vt220_cursor_place {
    size_t row; /* 1 to the number of rows */
    size_t col; /* 1 to the width */
    bool wrap;  /* the last column was written, and the next character begins a new line */
    uint8_t reserved[15];
} vt220_cursor_place;

/* The scroll region. */
typedef struct vt220_margin_rows {
    size_t top;    /* its first row, from 1 */
    size_t bottom; /* its last row, below the first one */
    uint8_t reserved[16];
} vt220_margin_rows;

/* The modes; true if set. */
typedef struct vt220_mode_set {
    bool kam, irm, srm, lnm;
    bool decckm, decsclm, decscnm, decom, decawm, decarm, dectcem;
    bool keypad_application; /* DECKPAM */
    bool reports_8bit;       /* S8C1T */
    uint8_t reserved[19];
} vt220_mode_set;

/* A cell. `reverse` is the attribute of the cell alone: DECSCNM, which reverses the screen, is a mode. */
typedef struct vt220_cell {
    uint32_t glyph; /* its Unicode number; 0x20 if erased; never a control character */
    bool bold, underline, blink, reverse;
    bool is_protected; /* a selective erase leaves it */
    uint8_t reserved[3];
} vt220_cell;

/* The attributes with which the next character is written. */
typedef struct vt220_brush_look {
    bool bold, underline, blink, reverse;
    bool is_protected;
    uint8_t reserved[11];
} vt220_brush_look;

/* The graphic sets. */
typedef struct vt220_graphic_sets {
    uint8_t g0, g1, g2, g3; /* the final byte of the set in G0 to G3, as vt220(7) lists them: 'B' for ASCII */
    uint8_t gl;             /* which of these is in GL, 0 to 3 */
    uint8_t gr;             /* which of these is in GR, 1 to 3 */
    uint8_t single_shift;   /* 2 or 3 if a single shift to G2 or G3 is pending, otherwise 0 */
    uint8_t reserved[9];
} vt220_graphic_sets;

/* The tab stops of the columns 1 to 132, whatever the width. vt220_stops_of writes those of any size. */
typedef struct vt220_tab_stops {
    bool stop[VT220_COLUMNS]; /* stop[c - 1] for column c */
    uint8_t reserved[12];
} vt220_tab_stops;

/* The state that DECRC restores. */
typedef struct vt220_saved_record {
    size_t row;  /* 1 to the number of rows */
    size_t col;  /* 1 to the width */
    bool wrap;   /* as in vt220_cursor_place */
    bool origin; /* DECOM */
    bool bold, underline, blink, reverse;
    bool is_protected;
    uint8_t g0, g1, g2, g3; /* as in vt220_graphic_sets */
    uint8_t gl, gr;
    uint8_t reserved[19];
} vt220_saved_record;

/* The cells in which a row of one terminal differs from that of another, of at most 132 columns. vt220_changes_of
 * writes those of any size. */
typedef struct vt220_row_marks {
    size_t width;                /* how many cells the row has */
    bool changed[VT220_COLUMNS]; /* changed[c - 1] for column c; false after the width */
    uint8_t reserved[12];
} vt220_row_marks;

/* The language of a terminal, and what it keeps next to the state of a VT220. */
typedef struct vt220_language_state {
    uint32_t language;    /* VT220_BYTES, VT220_UTF8 or VT220_XTERM */
    uint8_t pending[3];   /* the bytes of a character of UTF-8 that isn't complete */
    uint8_t pending_len;  /* how many there are, 0 to 3 */
    bool alternate;       /* the alternate page is shown */
    bool bracketed_paste; /* the program wants pasted text between ESC [ 200 ~ and ESC [ 201 ~ (?2004) */
    uint8_t reserved[22];
} vt220_language_state;

/* Returns the version of the library, in the form of VT220_VERSION. */
uint32_t vt220_version(void);

/* Returns a short English text for a status. It is never null. */
const char *vt220_status_text(uint32_t status);

/* Opens a terminal for a VT220's bytes in its power-up state: 24 rows of 80 columns, all blank.
 * Returns VT220_OK, VT220_IN_USE, VT220_MEMORY or VT220_UNSUPPORTED. */
uint32_t vt220_open(vt220 *t);

/* Opens a terminal for a language and of a size in the same state. Nothing is pending. Under TERM=xterm the main page
 * is shown, and the alternate page is blank.
 *   language         VT220_BYTES, VT220_UTF8 or VT220_XTERM
 *   rows, columns    the size: 24 and 80 for that of a VT220, or 2 to 255 rows and 2 to 255 columns
 * Returns VT220_OK, VT220_IN_USE, VT220_MEMORY, VT220_UNSUPPORTED, VT220_NO_LANGUAGE or VT220_NO_SIZE. */
uint32_t vt220_open_as(vt220 *t, uint32_t language, size_t rows, size_t columns);

/* Changes the size of a terminal, as xterm does if its window changes, also inside a sequence. If the cursor would be
 * below the last row, so many rows leave at the top that it is in the last one. They go nowhere: read them before, with
 * vt220_row_text. The rows and columns that both screens have stay, and the others are blank. What DECSC saved moves up
 * with its row. Its place and the cursor are brought inside. The margins are those of the whole screen, and DECOM is
 * reset, unless the screen has as many rows and columns as before. Tab stops stay, and columns that come in have those of
 * power-up. Under TERM=xterm the main page goes by its own cursor, also while the alternate page is shown: by the place
 * that was saved on it. As many rows leave the alternate page while the main page is shown. The host isn't told: a
 * program with a pseudo-terminal sets its size (TIOCSWINSZ).
 *   rows, columns    2 to 255 rows and 2 to 255 columns; DECCOLM then leaves the width, also that of 24 by 80
 * Returns VT220_OK, VT220_CLOSED, VT220_MEMORY or VT220_NO_SIZE. */
uint32_t vt220_resize(vt220 *t, size_t rows, size_t columns);

/* Closes a terminal and frees its memory. Does nothing if it is closed. */
void vt220_close(vt220 *t);

/* Returns whether a terminal is open. */
bool vt220_is_open(const vt220 *t);

/* Opens a scratch buffer for terminals of a VT220's size.
 * Returns VT220_OK, VT220_IN_USE, VT220_MEMORY or VT220_UNSUPPORTED. */
uint32_t vt220_scratch_open(vt220_scratch *s);

/* Makes a scratch buffer serve terminals of the size of `t`, and opens it if it is closed. Does nothing if it serves
 * this size.
 * Returns VT220_OK, VT220_CLOSED if `t` is, or VT220_MEMORY, and then the scratch buffer serves what it served
 * before. */
uint32_t vt220_scratch_fit(vt220_scratch *s, const vt220 *t);

/* Closes a scratch buffer and frees its memory. Does nothing if it is closed. */
void vt220_scratch_close(vt220_scratch *s);

/* Returns whether a scratch buffer is open. */
bool vt220_scratch_is_open(const vt220_scratch *s);

/* Processes input from the host. Writes the replies to the front of `reports`, and their length to *written. Doesn't
 * modify the bytes of `reports` after them.
 *   bytes, len      the input
 *   reports, size   the buffer for replies
 *   written         receives the length of the replies; may be null
 * If `written` is null, the replies are dropped: vt220_feed(t, bytes, len, NULL, 0, NULL) processes all bytes.
 * `reports` and `size` aren't used then.
 * Returns how many bytes were processed. If these are fewer than len, fewer than VT220_REPORT_LIMIT bytes of `reports`
 * are free: send the replies and call again with the remainder. A buffer of VT220_REPORT_LIMIT bytes always takes at
 * least one byte, one of VT220_REPORT_LIMIT * len all of them, and one of 5 KB costs no speed. What is pending of UTF-8
 * at the end of the input isn't shown.
 * Returns 0 on a closed terminal: a loop that ends when all is processed must also end on 0. */
size_t vt220_feed(vt220 *t, const uint8_t *bytes, size_t len, uint8_t *reports, size_t size, size_t *written);

/* Processes input from the host, as vt220_feed does, and writes the lines that scroll off the top of the screen. A line
 * scrolls off if a line feed moves the rows between the margins up, and the top margin is row 1. A line feed is LF, VT,
 * FF, IND or NEL at the bottom margin, or a character that is written there when the wrap flag is set. Under TERM=xterm
 * SU scrolls off the rows that it moves past row 1, and on the alternate page nothing does. Nothing else scrolls a line
 * off. A line is written as by vt220_row_text.
 *   s                   a scratch buffer for this size
 *   bytes, len          the input
 *   reports, size       the buffer for replies; *written receives their length. A null `written` drops them, as in
 *                       vt220_feed
 *   lines, lines_size   the buffer for lines; *lines_written receives their length
 * Returns how many bytes were processed. If these are fewer than len, fewer than VT220_REPORT_LIMIT bytes of `reports`
 * are free, or too few of `lines`: empty both and call again with the remainder. Too few are fewer than vt220_limit
 * returns for VT220_OF_LINES: at a VT220's size VT220_ROW_TEXT_LIMIT, in UTF-8 VT220_UTF8_LINES_LIMIT, and under
 * TERM=xterm VT220_XTERM_LINES_LIMIT. Buffers of these sizes always take at least one byte. Buffers of 5 KB and 200 KB
 * cost no speed.
 * Returns 0 if a handle is closed or the scratch buffer is for another size: a loop that ends when all is processed
 * must also end on 0. */
size_t vt220_feed_log(vt220 *t, vt220_scratch *s, const uint8_t *bytes, size_t len, uint8_t *reports, size_t size,
                      size_t *written, uint8_t *lines, size_t lines_size, size_t *lines_written);

/* Returns the Unicode number of the glyph with which UTF-8 input shows a character. It is the character itself if a
 * VT220 has it.
 * Returns 0 if the character has no cell: a control, a combining mark.
 *   cells           receives how many cells the character takes: 0, 1 or 2; the second is a space. May be null
 * A number that isn't a character of Unicode counts as U+FFFD. */
uint32_t vt220_shown(uint32_t character, size_t *cells);

/* Returns how often BEL was carried out since vt220_open. A BEL inside a control string isn't. Copies and resets
 * don't change the count. Returns 0 on a closed terminal. */
uint64_t vt220_bells(const vt220 *t);

/* Resets a terminal to its power-up state, also inside a sequence, with all that its language keeps.
 * Returns VT220_OK or VT220_CLOSED. */
uint32_t vt220_reset(vt220 *t);

/* Brings `to` into the state of `from`, also if `from` is inside a sequence. Both are open before. `to` keeps its
 * language. What that keeps is copied, too: in UTF-8 what is pending of `from`, and under TERM=xterm its pages, for
 * which `from` has to have this language. The two have one size.
 * Returns VT220_OK, VT220_CLOSED, VT220_LANGUAGE or VT220_SIZE. */
uint32_t vt220_copy(vt220 *to, const vt220 *from);

/* Returns the most bytes of what a call writes for a terminal, at its present size and in its language.
 *   what    one of VT220_OF_..
 * Returns 0 on a closed terminal, or for another number. */
size_t vt220_limit(const vt220 *t, uint32_t what);

/* Writes the screen as text: a line of UTF-8 for each row, each without the spaces at its end, and LF.
 *   out, size   the output buffer; VT220_TEXT_LIMIT bytes are always enough at a VT220's size
 *   written     receives the length; 0 if a handle is closed, or the scratch buffer is for another size
 * Returns VT220_OK, VT220_ROOM, VT220_CLOSED or VT220_SIZE. */
uint32_t vt220_text(const vt220 *t, vt220_scratch *s, uint8_t *out, size_t size, size_t *written);

/* Writes one line of vt220_text, that of a row from 1 on, with its LF.
 *   out, size   the output buffer; VT220_ROW_TEXT_LIMIT bytes are always enough at a VT220's size
 *   written     receives the length; 0 if a handle is closed, there is no such row, or the scratch buffer is for
 *               another size
 * Returns VT220_OK, VT220_ROOM, VT220_CLOSED, VT220_SIZE or VT220_NO_ROW. */
uint32_t vt220_row_text(const vt220 *t, vt220_scratch *s, size_t row, uint8_t *out, size_t size, size_t *written);

/* Writes the screen as text with SGR sequences for the attributes, for modern terminals. The attributes are reset after
 * each line.
 *   out, size   the output buffer; VT220_SHOW_LIMIT bytes are always enough at a VT220's size
 *   written     receives the length; 0 if a handle is closed, or the scratch buffer is for another size
 * Returns VT220_OK, VT220_ROOM, VT220_CLOSED or VT220_SIZE. */
uint32_t vt220_show(const vt220 *t, vt220_scratch *s, uint8_t *out, size_t size, size_t *written);

/* Writes the screen as a picture: an SVG document.
 *   out, size   the output buffer; VT220_PICTURE_LIMIT bytes are always enough at a VT220's size
 *   written     receives the length; 0 if a handle is closed, or the scratch buffer is for another size
 * Returns VT220_OK, VT220_ROOM, VT220_CLOSED or VT220_SIZE. */
uint32_t vt220_picture(const vt220 *t, vt220_scratch *s, uint8_t *out, size_t size, size_t *written);

/* Writes the repaint: bytes that, fed to any terminal of the same language and size, whatever its state, leave it
 * exactly as `t` is. They are ASCII and cause no replies. What is pending of UTF-8 is left out: feed its bytes
 * (vt220_language) after them, and these are pending again. Two terminals of a language and size with nothing pending
 * are equal if and only if their bytes are. Terminals of others lack some of these functions.
 *   out, size   the output buffer; at a VT220's size VT220_PAINT_LIMIT bytes are always enough, and under TERM=xterm
 *               VT220_XTERM_PAINT_LIMIT
 *   written     receives the length; 0 if a handle is closed, the terminal is inside a sequence, or the scratch buffer
 *               is for another size
 * Returns VT220_OK, VT220_ROOM, VT220_CLOSED, VT220_SIZE or VT220_PARTIAL. */
uint32_t vt220_repaint(const vt220 *t, vt220_scratch *s, uint8_t *out, size_t size, size_t *written);

/* Writes the repaint for a terminal of a language. For VT220_BYTES and VT220_UTF8 it is that of the state of a VT220,
 * with the page that is shown, and rebuilds it on a terminal of either. So it shows a session under TERM=xterm on a
 * VT220. For VT220_XTERM it is vt220_repaint.
 *   language    VT220_BYTES or VT220_UTF8; VT220_XTERM if `t` has this language
 * Returns what vt220_repaint does, VT220_LANGUAGE if `t` isn't under TERM=xterm, or VT220_NO_LANGUAGE. *written is 0
 * then. */
uint32_t vt220_repaint_as(const vt220 *t, uint32_t language, vt220_scratch *s, uint8_t *out, size_t size,
                          size_t *written);

/* Writes an update: bytes that, fed to a terminal in the state of `shown`, leave it in exactly the state of `to`. They
 * cause no replies. Brings `shown` into the state of `to` as well, and doesn't modify `to`. `shown` isn't one under
 * TERM=xterm; `to` has any language, and of a session under TERM=xterm it is the page that is shown. The two have one
 * size.
 *   out, size   the output buffer; VT220_UPDATE_LIMIT bytes are always enough at a VT220's size
 *   written     receives the length, which is 0 if and only if the states are equal; 0 also if a handle is closed, a
 *               terminal is inside a sequence, or two of the handles have different sizes.
 * If width and tab stops are equal, an update has at most 28 * n + 230 bytes for n cells that differ, and 4 more from
 * 100 rows on. It is ASCII: graphic characters, and CUP, CUF, CUB, BS, CR, LF, ED, EL, IL, DL, SGR, DECSCA, DECSTBM,
 * HTS, TBC, SCS, locking and single shifts, DECSC, SM, RM, DECKPAM, DECKPNM, S7C1T, S8C1T, DECSTR and RIS. Doesn't
 * modify the bytes of `out` after it.
 * Returns VT220_OK, VT220_ROOM, VT220_CLOSED, VT220_SIZE, VT220_PARTIAL or VT220_LANGUAGE. */
uint32_t vt220_update(vt220 *shown, const vt220 *to, vt220_scratch *s, uint8_t *out, size_t size, size_t *written);

/* Writes a drawing: bytes that make a terminal of today, such as xterm, show the screen of `to`. That terminal reads
 * UTF-8, and has at least the rows and the columns of `to`. Its first rows are drawn on.
 *   shown       what that terminal shows: the terminal that was drawn on it last; NULL if it shows anything else
 *   out, size   the output buffer; VT220_DRAW_LIMIT bytes are always enough at a VT220's size
 *   written     receives the length, which is 0 if both show the same; 0 also if a handle is closed, or the scratch
 *               buffer is for another size
 * With NULL, or another width or number of rows, that terminal is erased first. Otherwise only the places that show
 * something else are written. The bytes are characters in UTF-8 and CUP, ED, SGR and DECTCEM. A reverse screen
 * (DECSCNM) is drawn by the attributes of its cells. What is shown, before and after, decides the bytes. At the end,
 * that terminal's cursor is where that of `to` is, and its attributes are reset. Modifies no terminal: vt220_copy keeps
 * what is shown now.
 * Returns VT220_OK, VT220_ROOM, VT220_CLOSED, or VT220_SIZE if the scratch buffer has another size than `to`. */
uint32_t vt220_draw(const vt220 *shown, const vt220 *to, vt220_scratch *s, uint8_t *out, size_t size, size_t *written);

/* Finds the cells of a row of `to`, from 1 on, for which `shown` has another cell or none. Call it before vt220_update,
 * and redraw these cells alone. If `shown` and `to` differ in their width (vt220_width), redraw the whole screen
 * instead: no mark names the cells of `shown` after the width of `to`. The cursor and DECSCNM aren't part of the cells.
 * Returns VT220_OK, VT220_CLOSED, VT220_NO_ROW, VT220_SIZE if the two have different sizes, or VT220_ROOM if they have
 * more than 132 columns. On an error *marks isn't modified. */
uint32_t vt220_row_changes(const vt220 *shown, const vt220 *to, size_t row, vt220_row_marks *marks);

/* Finds the same cells, at any size. changed[c - 1] receives whether column c differs, for each column of the row of
 * `to`.
 *   changed, size    the output array and its length; vt220_width(to) is enough
 * Returns VT220_OK, VT220_CLOSED, VT220_NO_ROW, VT220_SIZE if the two have different sizes, or VT220_ROOM. On an
 * error `changed` isn't modified. */
uint32_t vt220_changes_of(const vt220 *shown, const vt220 *to, size_t row, bool *changed, size_t size);

/* Writes the cells of a row, from 1 on, to the front of `cells`.
 *   cells, size   the output array and how many cells it has; vt220_width is enough
 * Returns how many cells were written, which is the width. Returns 0, and writes nothing, if the terminal is closed,
 * there is no such row, or the array is smaller than the width. */
size_t vt220_row(const vt220 *t, size_t row, vt220_cell *cells, size_t size);

/* Returns how many rows the screen has; 0 on a closed terminal. */
size_t vt220_rows(const vt220 *t);

/* Returns how many columns the screen has, on a VT220 80 or 132; 0 on a closed terminal. */
size_t vt220_width(const vt220 *t);

/* Writes the cursor's position and the wrap flag to *cursor.
 * Returns true, or false on a closed terminal, and then writes nothing. */
bool vt220_cursor(const vt220 *t, vt220_cursor_place *cursor);

/* Writes the first and the last row of the scroll region to *margins.
 * Returns true, or false on a closed terminal, and then writes nothing. */
bool vt220_margins(const vt220 *t, vt220_margin_rows *margins);

/* Writes the modes to *modes.
 * Returns true, or false on a closed terminal, and then writes nothing. */
bool vt220_modes(const vt220 *t, vt220_mode_set *modes);

/* Writes the attributes of the next character to *brush.
 * Returns true, or false on a closed terminal, and then writes nothing. */
bool vt220_brush(const vt220 *t, vt220_brush_look *brush);

/* Writes the graphic sets, and a pending single shift, to *sets.
 * Returns true, or false on a closed terminal, and then writes nothing. */
bool vt220_sets(const vt220 *t, vt220_graphic_sets *sets);

/* Writes the tab stops of the columns 1 to 132 to *stops.
 * Returns true, or false on a closed terminal or one with another number of stops, and then writes nothing. */
bool vt220_stops(const vt220 *t, vt220_tab_stops *stops);

/* Writes the tab stops to the front of `stops`: stops[c - 1] for column c. A VT220 has 132, whatever the width, and a
 * terminal of any other size one for each column.
 *   stops, size    the output array and its length; VT220_MOST_COLUMNS are always enough
 * Returns how many were written. Returns 0, and writes nothing, if the terminal is closed or the array is smaller. */
size_t vt220_stops_of(const vt220 *t, bool *stops, size_t size);

/* Writes the state that DECRC restores to *saved.
 * Returns true, or false on a closed terminal, and then writes nothing. */
bool vt220_saved(const vt220 *t, vt220_saved_record *saved);

/* Writes the language, and what the terminal keeps for it, to *language.
 * Returns true, or false on a closed terminal, and then writes nothing. */
bool vt220_language(const vt220 *t, vt220_language_state *language);

/* Returns whether the terminal is between sequences; false on a closed terminal. */
bool vt220_is_between(const vt220 *t);

/* Returns the kind of the unfinished sequence: one of VT220_HELD_..; VT220_HELD_NOTHING on a closed terminal. */
uint32_t vt220_held_kind(const vt220 *t);

/* Returns whether two terminals are in the same state of a VT220, hidden parts included; false if one is closed.
 * What their languages keep isn't compared: the repaints of two sessions under TERM=xterm are equal if and only if
 * both pages are. */
bool vt220_same_state(const vt220 *a, const vt220 *b);

#ifdef __cplusplus
}
#endif

#endif
