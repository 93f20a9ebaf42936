/* The keeper: a command on a pseudo-terminal, the terminal that plays what it writes, and the clients. What its parts share.
 *
 * Clients see `settled`, the newest state between sequences, so a client that attaches while the program is inside a
 * sequence gets a screen at once. For each client there is a terminal in the state that was sent to it. An update leads from
 * there to `settled`. It is made when its time has come and the last one is wholly written. So a slow client gets the newest
 * state, and no older states wait in a queue. After a change of the session's size this terminal is a new one, and a repaint leads there. */
#ifndef KEEP_SESSION_H
#define KEEP_SESSION_H

#include "keep.h"
#include <poll.h>
#include <stdio.h>

enum {
    ATTACHED_LIMIT = 32,
    LOOKING_LIMIT = 32, /* clients that are attached and only look */
    ASKING_LIMIT = 16,  /* clients that aren't attached; one more replaces the oldest, so silent ones block nobody */
    CLIENT_LIMIT = ATTACHED_LIMIT + LOOKING_LIMIT + ASKING_LIMIT,
    INTERVAL = 20,      /* milliseconds from one update of a client to its next */
    KILL_AFTER = 2000,  /* milliseconds that a command has to end after SIGHUP */
    LOCK_PAUSE = 10,    /* milliseconds between two looks at the lock of the directory, if somebody else holds it */
    PIECE = 4096,       /* the most bytes of one read of the program */
    DRAIN_LIMIT = 256,  /* the most chunks that are read once the command has ended, or before its line gets another size */
    INPUT_LIMIT = 8192, /* the most bytes of keys that wait for the program, and as many of reports */
    SMALL_FRAMES = 1024, /* capacity for the frames after an update */
    SINCE_LIMIT = 1024, /* the most bytes that are remembered of an unfinished sequence */
    SINCE_ENDS = 64     /* how many of its first and of its last bytes are kept if it is longer */
};

struct client {
    int socket;
    enum { ASKING, ATTACHED, SENDING, READING, WAITING, LEAVING } state; /* READING: it asked for the log. The numbers are handed over */
    char ask; /* 0 until it has asked */
    uint8_t version;       /* of the protocol; 0 if it isn't known */
    enum { BRACKETS_OFF, BRACKETS_ON, BRACKETS_UNKNOWN } brackets; /* what it was told of FRAME_PASTE; unknown after it was handed over */
    int program;           /* the file that it passed, a new program for the keeper; -1 if it passed none */
    uint8_t flags;
    bool rings;
    struct window window;  /* that of its terminal; nothing until it is told */
    enum { SEEN_BY_NONE, SEEN_BY_WATCHER, SEEN_BY_REMOVER } awaits_seen; /* whether it is to confirm the end. The numbers are handed over */
    bool needs_repaint;    /* it was handed over, and `shown` isn't what it shows */
    vt220 shown;           /* as the client's own terminal is when it has played all of `out` */
    unsigned long changes; /* how many changes of the screen `shown` has */
    bool wants_log;        /* it asked for the log, and isn't sent it yet */
    bool is_reading;       /* it is sent the log */
    uint64_t log_at, log_end; /* which part of the log it still has to be sent */
    uint64_t log_lost;     /* how many bytes of it were left out, since they were no longer kept when they were due */
    long long due;         /* when the next update may go */
    long long deadline;    /* when it is let go, done or not: it has `patience` to ask, and to take the last frames */
    long long came;
    long long again;       /* when the frame is tried again that waits for the lock of the directory; 0 if none does */
    long long gives_up;    /* when that frame is refused */
    size_t in_len;
    uint8_t in[FRAME_HEAD + KEYS_LIMIT];
    size_t at, len; /* `out` is written up to `at` */
    size_t limit;   /* `out` has capacity for a frame of so many bytes, and for small ones */
    uint8_t *out;
};

struct session {
    struct folder folder;
    char name[NAME_LIMIT + 1];
    struct identity socket;
    vt220 terminal, settled;
    uint32_t language; /* of the program, and of both terminals */
    vt220_scratch scratch;
    unsigned long changes; /* of `settled`, so far */
    uint8_t since[SINCE_LIMIT]; /* what was played since `settled`: the beginning of a sequence */
    size_t since_len;
    struct window size;    /* of both terminals; in a VT220's size DECCOLM may have made them wider */
    bool is_vt220;         /* they have a VT220's size, also after DECCOLM */
    bool is_fixed;         /* the size follows no window */
    size_t width;          /* of the terminal, as the program was told */
    int master, slave, listener; /* the program's terminal line, and where clients come in; -1 once closed */
    pid_t command;
    long long listens_at; /* the listener isn't looked at before this time */
    long long binds_at;   /* when the socket is looked at again, since somebody else held the lock; 0 if it needn't be */
    long long kill_at;    /* when the command is killed that was told to end */
    long long leave_at;   /* when the last screen is given up */
    long long linger;     /* for how long it is kept */
    int64_t began;
    bool is_over, is_seen, is_shown, is_given_up; /* seen: the session is to end; shown: a client that was attached has shown the end */
    struct ending ending;
    size_t keys, reports, waiting; /* how many bytes of each wait for the program */
    uint8_t input[2 * INPUT_LIMIT];
    bool is_report[2 * INPUT_LIMIT];
    struct client *clients[CLIENT_LIMIT];
    char title[256];
};

extern struct session the;

/* clients.c */
void let_in(long long time);
void let_go(size_t i);
void serve(struct client *c, long long time);
void hear(struct client *c);
bool hears(const struct client *c);
bool is_sent(const struct client *c);
bool waits_for_room(const struct client *c);
long long next_time(const struct client *c);
void ring_clients(void);
void tell_end(void);
void answer_waiting(void);
bool has_clients(void);
size_t frame_most(void);
bool make_room(struct client *c, size_t limit);
struct client *new_client(void);

/* program.c */
bool run_command(const struct beginning *beginning, char *why, int *status);
bool read_program(void);
void write_program(void);
bool add_input(const uint8_t *bytes, size_t len, bool is_report);
bool settle(void);
void set_line_size(void);
void remember(const uint8_t *bytes, size_t len);
void drain_program(void);
void hang_up(void);

/* log.c */
void log_append(const uint8_t *lines, size_t len);
void log_start(uint64_t place);
uint64_t log_begin(void);
uint64_t log_end(void);
size_t log_read(uint64_t *place, uint64_t end, uint8_t *to, size_t size, uint64_t *lost);

/* publish.c: a session that the host daemon of this machine publishes. Without one, its functions do nothing */
/* What an upgrade hands over of it. */
enum {
    ITEM_PUBLISHED = 'F', ITEM_DAEMON = 'A', ITEM_STORED_NAME = 'B', ITEM_WORD = 'O', ITEM_WRITTEN = 'U', ITEM_CHANGES = 'G', ITEM_TYPED = 'I'
};

void publish_begin(const struct publication *wanted, const struct beginning *beginning);
int publish_beginning(void);
bool publish_is_on(void);
void publish_bytes(const uint8_t *bytes, size_t len);
void publish_settled(void);
void publish_size(void);
bool publish_has_room(void);
void publish_end(void);
void publish_leave(void);
bool publish_is_done(void);
int publish_status(void);
struct pollfd publish_polled(long long *until);
void publish_turn(short events, long long time);
void publish_put(void (*put_item)(FILE *to, char letter, const void *bytes, size_t len), FILE *to);
bool publish_take(char letter, const uint8_t *bytes, size_t len);

/* size.c */
void resize_program(struct window size);          /* after what the program wrote before */
void set_size(struct window size);                /* that of terminals that are opened next */
bool open_like(vt220 *t, uint32_t language);      /* a terminal of the session's size; false if allocation fails */
void follow_windows(void);                        /* gives the session the size for which its clients' windows ask */

/* session.c */
bool open_terminals(uint32_t language);
void give_up(void);
void end_was_shown(bool removes);
bool rename_session(const char *name, char *why);

/* upgrade.c */
void upgrade(int program, char *why); /* becomes this program; returns only if it can't, and why */
bool take_over(int state, char *why);
void report_fit(int told, bool is_fine, const char *why);

#endif
