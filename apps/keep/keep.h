/* vt220-keep: a program keeps running without a terminal, and shows its screen to clients that attach. Declarations of all parts. */
#ifndef KEEP_H
#define KEEP_H

#ifndef _GNU_SOURCE
#define _GNU_SOURCE /* for struct ucred, openpty, ppoll and close_range */
#endif

#include "protocol.h"
#include "vt220-keys.h"
#include <limits.h>
#include <stdnoreturn.h>
#include <sys/types.h>

#define KEEP_VERSION "0.4.0" /* of vt220-keep, which has its own */

enum {
    NAME_LIMIT = 64,
    WHY_LIMIT = PATH_MAX + 512, /* a reason may begin with a path */
    NARROW = 80,                /* the columns of a VT220 at power-up */
    ROW_TEXT_MOST = 3 * VT220_MOST_COLUMNS + 1, /* the most bytes of the text of a row, at any size */
    TEXT_MOST = VT220_MOST_ROWS * ROW_TEXT_MOST /* and of that of a screen */
};

/* --- keep.c --- */

/* Prints the reason on standard error, and ends with this status. */
noreturn void fail(int status, const char *why, ...) __attribute__((format(printf, 2, 3)));
long long now(void); /* milliseconds of a clock that never jumps */
extern int patience; /* milliseconds for which a keeper and a client wait for each other, as KEEP_PATIENCE says */

/* --- folder.c: the directory of the sockets, and the sockets in it --- */

struct folder {
    int file;            /* the directory of this boot of this machine, in which the sockets are */
    char path[PATH_MAX]; /* the absolute path of the directory that contains it */
};

/* Which file a socket is, so that another one of its name isn't taken for it. */
struct identity {
    dev_t device;
    ino_t number;
};

bool refused(char *why, const char *words, ...) __attribute__((format(printf, 2, 3))); /* writes the reason; returns false */
bool is_name(const char *name);
struct folder open_folder(void); /* ends the program if it can't be opened */
bool try_folder(const char *path, struct folder *folder, char *why);
bool lock_folder(int folder); /* false if somebody else holds it for longer than `patience` */
void unlock_folder(int folder);
bool try_lock(int folder);  /* false if somebody else holds it */
bool is_locked(int folder); /* by somebody else */
int open_listener(int folder, const char *name, struct identity *made, char *why); /* -1, and why */
int connect_to(int folder, const char *name);                                       /* -1, and errno */
int existing(const struct folder *folder, const char *name);                         /* ends the program if there is none */
bool is_listening(int folder, const char *name);
bool is_free(int folder, const char *name, char *why); /* removes the socket of a killed keeper; the caller has the lock */
bool is_own(int folder, const char *name, const struct identity *made);
void remove_own(int folder, const char *name, const struct identity *made);
bool is_same_user(int socket);

/* --- wire.c: a client's side of the protocol --- */

struct hello {
    uint8_t version, lowest, highest;
    bool is_over, is_shown; /* the command has ended, and a client that was attached has shown that */
    uint32_t language;      /* of the session, as vt220_open_as takes it: known to a client that attaches or sends keys */
};

enum { WIRE_OK, WIRE_SILENT, WIRE_FULL, WIRE_OTHER_VERSION };

const char *encoding_name(uint32_t language);
const char *terminal_name(uint32_t language);
bool types_keys(char ask); /* whether a client that asks this is sent FRAME_ENCODING and FRAME_TERMINAL, if its version has them */
int wire_begin(int socket, char ask, uint8_t flags, struct hello *hello, char *why);
struct hello wire_greet(int socket, const char *name, char ask, uint8_t flags); /* ends the program unless the keeper will do what it is asked */
/* Ends the program if a keeper that closed the connection has ended. So has the session then, which is what was asked of a kill. */
void wire_look_for_end(const char *name, char ask);
/* Sends a request and reads the reply. Ends the program if there is none. `bytes` has FRAME_LIMIT bytes. */
size_t wire_ask(int socket, const char *name, char ask, const char *argument, uint8_t *bytes);
/* Asks the keeper to become the program that runs here. Ends the program if it doesn't. */
void wire_ask_upgrade(int socket, const char *name);
/* Asks for the log, and returns it whole: the lines, and then the screen. The caller frees it. Ends the program if there is none. */
uint8_t *wire_ask_log(int socket, const char *name, size_t *len, uint64_t *lost);

/* --- list.c --- */

void list_sessions(const struct folder *folder, bool is_for_scripts);
bool call_keepers(const struct folder *folder);

/* --- session.c: starts a keeper, which runs in the background --- */

struct beginning {
    const char *name, *locale;
    char **command;
    uint32_t language; /* of the program */
    struct window size;
    bool is_fixed;     /* the size follows no window */
};

/* --- size.c: sizes of a session --- */

struct window nearest_size(size_t rows, size_t columns); /* the size nearest to this one that a session may have */
bool is_size(const struct window *size);                /* whether a session may have it */

#define PUBLISH "publish" /* the command that `fleet host` becomes */
#define RESUME "resume" /* the command by which a keeper starts the program that replaces it; its arguments are numbers of files */

/* A session that the host daemon of this machine publishes. */
struct publication {
    const char *socket, *name; /* of the daemon; of the session in the store */
    bool takes_input;
    uint64_t every;     /* bytes between two checkpoints, at least */
    long long patience; /* milliseconds after a signal to end for which the store is waited for */
};

void start_session(const struct folder *folder, const struct beginning *beginning);
noreturn void publish_session(const struct folder *folder, const struct publication *wanted, struct beginning *beginning);
/* Goes on with the session whose state is in a file. If `told` is a file, only reports there whether that is possible. */
noreturn void resume_session(int state, int told);

/* --- keys.c: what is typed on the outer terminal, as the keys of a VT220 or of an xterm --- */

struct keys {
    uint8_t held[VT220_TYPED_LIMIT]; /* the beginning of a key whose end hasn't come */
    size_t held_len;
    uint32_t language; /* of the program that gets them */
    bool rings;      /* something was typed that a VT220 has no key for */
    bool can_scroll; /* PageUp with Shift, Alt or Ctrl isn't sent */
    bool scrolls;    /* it was typed */
};

enum { KEYS_GROWTH = 2 }; /* a key has at most this many times the bytes that were typed */

size_t keys_translate(struct keys *keys, const vt220 *t, const uint8_t *typed, size_t len, uint8_t *to);
size_t keys_length(const uint8_t *typed, size_t len);
size_t keys_flush(struct keys *keys, uint8_t *to); /* what is held isn't the beginning of a key */
/* Returns whether a word is a key's name but for one character. */
bool keys_meant(const struct keys *keys, const vt220 *t, const char *word, char *meant, size_t room);
size_t keys_named(const struct keys *keys, const vt220 *t, const char *name, uint8_t *to); /* 0 if there is no such key; at most VT220_KEY_LIMIT bytes */
int keys_detach(void); /* the key that detaches, as KEEP_KEY says */

/* --- scroll.c: the log, shown in place of the screen --- */

bool scroll_is_on(void);
void scroll_wait(void);                              /* the log was asked for */
void scroll_take(char letter, const uint8_t *bytes, size_t len); /* a frame of the log */
size_t scroll_type(const uint8_t *typed, size_t len); /* returns how many bytes it took: not those after the key that leaves */
void scroll_draw(void);
bool scroll_is_to_page(void);                /* the log is to be shown in a pager; true once */
const uint8_t *scroll_log(size_t *len);      /* all of it, and the screen */
void scroll_leave(void);

/* --- attach.c and send.c --- */

void attach_needs(const char *name); /* ends the program if a session of this name can't be attached here */
int attach(int socket, const char *name, bool is_read_only, bool removes); /* `removes`: the session of a command that has ended */
void send_keys_to(const struct folder *folder, const char *name, char **keys, bool is_text);
int shell_status(int ending);

/* --- draw.c: draws a terminal on the one that standard output is --- */

bool draw_enter(void);
bool draw_resize(void);
bool draw(const vt220 *t); /* only when all is written that was drawn before; false if allocation fails */
size_t draw_rows(void);
/* Draws lines of UTF-8 from the top, and this hint in a corner, unless these lines are drawn already. Each line has an LF. */
void draw_lines(const uint8_t *const *lines, size_t count, const char *hint);
void draw_again(void); /* other lines may be where those were that are drawn */
void draw_bell(void);
void draw_brackets(bool on); /* whether the outer terminal is to send pasted text in brackets */
void draw_leave(void);

#endif
