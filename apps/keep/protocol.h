/* What goes over a session's socket.
 *
 * A client begins with HELLO_LENGTH bytes, whose form is the same in every version of the protocol: "keep", the lowest and the
 * highest version that it speaks, what it asks, and flags. After that both sides send frames: a letter, the length as a
 * uint32_t of this machine, and that many bytes. The keeper's first frame is FRAME_HELLO. Its form is the same in every version, too:
 *
 *   byte 0    the version that both will speak, or 0 if there is none
 *   byte 1    the lowest version that the keeper speaks
 *   byte 2    the highest
 *   byte 3    0 while the command runs, 1 when it has ended, 2 when a client that was attached has shown that it has
 *   others    the version of the keeper's program, as text
 *
 * A keeper runs as long as its session, so it may be older than the client. A version of the protocol may therefore add asks and
 * frames, but never changes what one means. A client that speaks more than one version is served in the highest that both know.
 *
 * A client of a version before PROTOCOL_SIZE knows no size but a VT220's. While one is attached, the session keeps its size. What such a client
 * asks of a session of another size may be more than it can take. It is then told that version 0 is spoken, and PROTOCOL_SIZE as the lowest. */
#ifndef KEEP_PROTOCOL_H
#define KEEP_PROTOCOL_H

#include "frame.h"
#include "vt220.h"

enum {
    PROTOCOL_LOWEST = 1,
    PROTOCOL_HIGHEST = 7,
    PROTOCOL_LOG = 2,    /* since this version there is a log */
    PROTOCOL_UPGRADE = 3, /* since this version a keeper can become another program */
    PROTOCOL_ENCODING = 4, /* since this version a client knows whether keys are sent in UTF-8 */
    PROTOCOL_TERMINAL = 5, /* since this version a client knows whether keys are those of xterm */
    PROTOCOL_PASTE = 6,    /* since this version a client knows whether pasted text goes in brackets */
    PROTOCOL_SIZE = 7      /* since this version a client tells its window, and knows the session's size */
};
enum { HELLO_LENGTH = 8, HELLO_MAGIC = 4, HELLO_LOWEST = 4, HELLO_HIGHEST = 5, HELLO_ASK = 6, HELLO_FLAGS = 7 };

enum {
    ASK_ATTACH = 'a',
    ASK_DETACH = 'd',
    ASK_LIST = 'l',
    ASK_LOG = 'g', /* since version 2 */
    ASK_TEXT = 't',
    ASK_REPAINT = 'r',
    ASK_SEND = 's',  /* frames of keys follow, and FRAME_DONE */
    ASK_KILL = 'x',  /* answered when the session is over */
    ASK_RENAME = 'n', /* FRAME_NAME follows */
    ASK_UPGRADE = 'u' /* since version 3; FRAME_PROGRAM follows */
};
enum {
    FLAG_READ_ONLY = 1,
    FLAG_REMOVES = 2 /* of a client that attaches: if the command has ended, the session is over once this client has shown that */
};

/* The frames of a client. */
enum {
    FRAME_KEYS = 'K', /* for the program; the bytes of one frame stay together */
    FRAME_DONE = 'Q', /* no more keys follow */
    FRAME_LOG = 'G',  /* since version 2, of an attached client: it wants the log */
    FRAME_NAME = 'N', /* the new name */
    FRAME_PROGRAM = 'U', /* since version 3: it is empty, and a file is passed with it, the program to become */
    FRAME_WINDOW = 'W', /* since version 7, of a client that attaches: a struct window, that of its terminal. It comes first, and at each change */
    FRAME_SEEN = 'S'  /* the end of the command was shown. It counts if the client attached before the end, or with FLAG_REMOVES */
};

/* The frames of a keeper. */
enum {
    FRAME_HELLO = 'H',
    FRAME_ENCODING = 'C', /* since version 4, right after FRAME_HELLO, for a client that attaches or sends keys: 1 for UTF-8, otherwise 0 */
    FRAME_TERMINAL = 'X', /* since version 5, right after FRAME_ENCODING: 1 if the program has TERM=xterm-256color, otherwise 0 */
    FRAME_PLAY = 'P',     /* a repaint first, then updates: the client plays them on its terminal */
    FRAME_SIZE = 'Y',     /* since version 7: a struct window. The client resizes its terminal, and a repaint follows. Before, it has a VT220's size */
    FRAME_BELL = 'B',     /* the program rang the bell */
    FRAME_PASTE = 'V',    /* since version 6: 1 if the program wants pasted text in brackets (?2004), otherwise 0, as at the beginning */
    FRAME_SCREEN = 'T',   /* the log begins: the text of the screen, which follows the last line of the log */
    FRAME_LINES = 'L',    /* whole lines of the log, the oldest first */
    FRAME_LOGGED = 'Z',   /* the end of the log: empty, or how many bytes of it were left out, as a uint64_t. Older keepers don't tell */
    FRAME_ANSWER = 'A',   /* the reply to a request: a line, the text, the repaint */
    FRAME_REFUSED = 'R',  /* the reason for which a request was refused */
    FRAME_DETACHED = 'D', /* a client asked to detach all */
    FRAME_ENDED = 'E',    /* a struct ending */
    FRAME_FULL = 'F'      /* no more clients are let in, or none of this user */
};

struct ending {
    int32_t status; /* as waitpid writes it */
    int32_t unused;
    int64_t time; /* of the end, in seconds since 1970 */
};

struct window {
    uint16_t rows, columns;
};

enum {
    FRAME_LIMIT = 1954260,            /* of what a keeper sends: the limit of an update of the largest terminal */
    OLDER_LIMIT = VT220_UPDATE_LIMIT, /* and to a client that knows no sizes */
    LINES_LIMIT = OLDER_LIMIT,        /* of the lines of one frame */
    KEYS_LIMIT = 4096                 /* of what a client sends */
};

#endif
