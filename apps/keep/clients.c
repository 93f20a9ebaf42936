/* The keeper's side of its clients. */
#include "session.h"
#include <errno.h>
#include <limits.h>
#include <malloc.h>
#include <poll.h>
#include <stdio.h>
#include <stdlib.h>
#include <string.h>
#include <sys/socket.h>
#include <sys/wait.h>
#include <unistd.h>

enum { LISTEN_PAUSE = 1000 };

/* --- what goes to a client --- */

bool is_sent(const struct client *c) {
    return c->at == c->len;
}

/* Returns whether it waits for room in its socket: for the rest of `out`, or for more of the log after all of `out` was sent. */
bool waits_for_room(const struct client *c) {
    return !is_sent(c) || c->wants_log || c->is_reading;
}

/* Returns the most bytes of a frame for a client. An update of the session's terminal has the most of those about its screen. Lines of the log
 * may have more if the screen is small. */
size_t frame_most(void) {
    size_t update = vt220_limit(&the.terminal, VT220_OF_UPDATE);
    return update > LINES_LIMIT ? update : LINES_LIMIT;
}

/* Gives a client capacity for a frame of so many bytes. Returns false if allocation fails. */
bool make_room(struct client *c, size_t limit) {
    if (limit <= c->limit) return true;
    uint8_t *more = realloc(c->out, FRAME_HEAD + limit + SMALL_FRAMES);
    if (more == NULL) return false;
    c->out = more;
    c->limit = limit;
    return true;
}

/* Returns the address for the bytes of a frame. When all was sent, it first moves to the front, so that a whole update fits. */
static uint8_t *frame_room(struct client *c) {
    if (is_sent(c)) c->at = c->len = 0;
    return c->out + c->len + FRAME_HEAD;
}

static void put_frame(struct client *c, char letter, size_t len) {
    uint32_t length = (uint32_t)len;
    c->out[c->len] = (uint8_t)letter;
    memcpy(c->out + c->len + 1, &length, sizeof length);
    c->len += FRAME_HEAD + len;
}

static void put(struct client *c, char letter, const void *bytes, size_t len) {
    uint8_t *room = frame_room(c);
    if (c->len + len > c->limit + SMALL_FRAMES) return;
    if (len > 0) memcpy(room, bytes, len);
    put_frame(c, letter, len);
}

/* Adds nothing more for a client, and drops it when everything was sent. */
static void leave(struct client *c) {
    c->state = LEAVING;
    c->deadline = now() + patience;
}

static void refuse(struct client *c, const char *why) {
    put(c, FRAME_REFUSED, why, strlen(why));
    leave(c);
}

/* Adds the session's size if it isn't that of a VT220, and then a repaint, which leaves any terminal of this size in the state of `settled`. */
static void put_repaint(struct client *c) {
    if (!the.is_vt220) put(c, FRAME_SIZE, &the.size, sizeof the.size);
    uint8_t *room = frame_room(c), none[VT220_REPORT_LIMIT];
    size_t len = 0, reports;
    vt220_repaint_as(&the.settled, VT220_BYTES, &the.scratch, room, c->limit, &len);
    for (size_t at = 0; at < len;) at += vt220_feed(&c->shown, room + at, len - at, none, sizeof none, &reports);
    put_frame(c, FRAME_PLAY, len);
    c->changes = the.changes;
    c->needs_repaint = false;
}

static void put_update(struct client *c) {
    uint8_t *room = frame_room(c);
    size_t len = 0;
    vt220_update(&c->shown, &the.settled, &the.scratch, room, c->limit, &len);
    if (len > 0) put_frame(c, FRAME_PLAY, len);
    c->changes = the.changes;
}

/* Returns whether the program wants pasted text in brackets. */
static bool wants_brackets(void) {
    vt220_language_state kept;
    return vt220_language(&the.settled, &kept) && kept.bracketed_paste;
}

/* Returns whether a client isn't told yet whether the program wants pasted text in brackets. */
static bool needs_brackets(const struct client *c) {
    return c->version >= PROTOCOL_PASTE && c->brackets != wants_brackets();
}

static void put_brackets(struct client *c) {
    if (!needs_brackets(c)) return;
    c->brackets = wants_brackets() ? BRACKETS_ON : BRACKETS_OFF;
    put(c, FRAME_PASTE, &(uint8_t){c->brackets == BRACKETS_ON}, 1);
}

/* Begins the log: the text of the screen as it is now. Its lines follow in separate frames. */
static void put_screen(struct client *c) {
    uint8_t *room = frame_room(c);
    size_t len = 0;
    vt220_text(&the.terminal, &the.scratch, room, c->limit, &len);
    put_frame(c, FRAME_SCREEN, len);
    c->log_at = log_begin();
    c->log_end = log_end();
    c->log_lost = 0;
    c->wants_log = false;
    c->is_reading = true;
}

/* Adds the next lines of the log, or its end. */
static void put_lines(struct client *c) {
    uint8_t *room = frame_room(c);
    size_t len = log_read(&c->log_at, c->log_end, room, LINES_LIMIT, &c->log_lost);
    c->is_reading = len > 0;
    if (c->is_reading) put_frame(c, FRAME_LINES, len);
    else put(c, FRAME_LOGGED, &c->log_lost, c->log_lost > 0 ? sizeof c->log_lost : 0);
    if (!c->is_reading && c->state == READING) leave(c);
}

static void put_ending(struct client *c) {
    put(c, FRAME_ENDED, &the.ending, sizeof the.ending);
    leave(c);
}

static void send_on(struct client *c) {
    while (!is_sent(c)) {
        ssize_t n = send(c->socket, c->out + c->at, c->len - c->at, MSG_NOSIGNAL | MSG_DONTWAIT);
        if (n < 0 && errno == EINTR) continue;
        if (n < 0) {
            if (errno != EAGAIN) c->deadline = 0; /* it has closed */
            return;
        }
        c->at += (size_t)n;
    }
}

/* Sends the log to a client that asked for it, as fast as it reads. A client that reads nothing is dropped after some time. */
static void send_log(struct client *c, long long time) {
    while ((c->wants_log || c->is_reading) && is_sent(c) && c->deadline > 0) {
        if (c->is_reading) put_lines(c);
        else put_screen(c);
        if (c->state == READING) c->deadline = time + patience;
        send_on(c);
    }
}

static bool has_news(const struct client *c) {
    return c->changes != the.changes || c->rings || c->needs_repaint || needs_brackets(c);
}

/* Does what is due for a client at this time. */
void serve(struct client *c, long long time) {
    send_on(c);
    send_log(c, time);
    if (c->state == ATTACHED && is_sent(c)) {
        bool is_due = time >= c->due || the.is_over;
        if (is_due && has_news(c)) {
            if (c->needs_repaint) put_repaint(c);
            else if (c->changes != the.changes) put_update(c);
            put_brackets(c);
            if (c->rings) put(c, FRAME_BELL, NULL, 0);
            c->rings = false;
            c->due = time + INTERVAL;
        }
        if (the.is_over) {
            put_ending(c);
            c->awaits_seen = SEEN_BY_WATCHER;
        }
    }
    send_on(c);
}

void ring_clients(void) {
    for (size_t i = 0; i < CLIENT_LIMIT; i++) {
        if (the.clients[i] != NULL && the.clients[i]->state == ATTACHED) the.clients[i]->rings = true;
    }
}

/* Gives each client some time for the last frames, since the command has ended. */
void tell_end(void) {
    for (size_t i = 0; i < CLIENT_LIMIT; i++) {
        if (the.clients[i] != NULL) the.clients[i]->deadline = now() + patience;
    }
}

/* Replies to the clients that asked for the end: the session is over, and its name is free. */
void answer_waiting(void) {
    for (size_t i = 0; i < CLIENT_LIMIT; i++) {
        struct client *c = the.clients[i];
        if (c == NULL || c->state != WAITING) continue;
        put(c, FRAME_ANSWER, NULL, 0);
        leave(c);
    }
}

/* --- what a client asks --- */

/* Returns how many clients are attached: of those that only look, or of the others. */
static size_t count_attached(bool only_look) {
    size_t count = 0;
    for (size_t i = 0; i < CLIENT_LIMIT; i++) {
        const struct client *c = the.clients[i];
        count += c != NULL && c->state == ATTACHED && ((c->flags & FLAG_READ_ONLY) != 0) == only_look;
    }
    return count;
}

/* Attaches a client. The session then follows its window, too, so its first screen has this size. */
static void admit(struct client *c) {
    bool only_looks = (c->flags & FLAG_READ_ONLY) != 0;
    if (count_attached(only_looks) >= (only_looks ? LOOKING_LIMIT : ATTACHED_LIMIT) || !open_like(&c->shown, VT220_BYTES)) {
        put(c, FRAME_FULL, NULL, 0);
        leave(c);
        return;
    }
    c->state = ATTACHED;
    c->deadline = LLONG_MAX;
    follow_windows();
    if (c->deadline == 0) return; /* no memory for this size */
    put_repaint(c);
    put_brackets(c);
    if (!the.is_over) return;
    put_ending(c);
    c->awaits_seen = c->flags & FLAG_REMOVES ? SEEN_BY_REMOVER : SEEN_BY_NONE; /* otherwise it only looks: the session and its log stay */
}

static void detach_all(void) {
    for (size_t i = 0; i < CLIENT_LIMIT; i++) {
        struct client *c = the.clients[i];
        if (c == NULL || c->state != ATTACHED) continue;
        put(c, FRAME_DETACHED, NULL, 0);
        leave(c);
    }
}

static size_t write_line(char *to) {
    char end[64] = "-\t-";
    if (the.is_over) snprintf(end, sizeof end, "%lld\t%d", (long long)the.ending.time, shell_status(the.ending.status));
    return (size_t)snprintf(to, SMALL_FRAMES, "%s\t%zu\t%zu\t%zu\t%ld\t%lld\t%s\t%s\t%s\t%s", the.is_over ? "ended" : "running",
                            vt220_rows(&the.terminal), vt220_width(&the.terminal), count_attached(false) + count_attached(true), (long)the.command, (long long)the.began, end, the.title,
                            encoding_name(the.language), terminal_name(the.language));
}

static void answer(struct client *c) {
    uint8_t *room = frame_room(c);
    size_t len = 0;
    if (c->ask == ASK_DETACH) {
        detach_all();
    } else if (c->ask == ASK_LIST) {
        len = write_line((char *)room);
    } else if (c->ask == ASK_TEXT) {
        vt220_text(&the.terminal, &the.scratch, room, c->limit, &len);
    } else if (c->ask == ASK_REPAINT) {
        vt220_repaint_as(&the.settled, VT220_BYTES, &the.scratch, room, c->limit, &len);
    } else {
        refuse(c, "this vt220-keep doesn't know what is asked");
        return;
    }
    put_frame(c, FRAME_ANSWER, len);
    leave(c);
}

/* Returns whether a client that knows no sizes can take what it asks. */
static bool suits_older(char ask) {
    if (ask == ASK_ATTACH) return the.is_vt220;
    if (ask == ASK_REPAINT) return frame_most() <= OLDER_LIMIT;
    return (ask != ASK_TEXT && ask != ASK_LOG) || vt220_limit(&the.terminal, VT220_OF_TEXT) <= OLDER_LIMIT;
}

/* Replies which version is spoken, and what a client that types keys has to know. Returns whether there is such a version. */
static bool greet(struct client *c) {
    uint8_t highest = c->in[HELLO_HIGHEST], lowest = PROTOCOL_LOWEST;
    if (highest < PROTOCOL_SIZE && !suits_older(c->ask)) lowest = PROTOCOL_SIZE;
    bool is_known = c->in[HELLO_LOWEST] <= PROTOCOL_HIGHEST && highest >= lowest;
    c->version = !is_known ? 0 : highest < PROTOCOL_HIGHEST ? highest : PROTOCOL_HIGHEST;
    uint8_t told[4 + sizeof KEEP_VERSION - 1] = {c->version, lowest, PROTOCOL_HIGHEST, the.is_over + the.is_shown};
    memcpy(told + 4, KEEP_VERSION, sizeof KEEP_VERSION - 1);
    put(c, FRAME_HELLO, told, sizeof told);
    if (types_keys(c->ask) && c->version >= PROTOCOL_ENCODING) put(c, FRAME_ENCODING, &(uint8_t){the.language != VT220_BYTES}, 1);
    if (types_keys(c->ask) && c->version >= PROTOCOL_TERMINAL) put(c, FRAME_TERMINAL, &(uint8_t){the.language == VT220_XTERM}, 1);
    return is_known;
}

/* Returns whether a frame must come before what is asked can be done. */
static bool awaits_frame(const struct client *c) {
    return c->ask == ASK_RENAME || c->ask == ASK_UPGRADE || (c->ask == ASK_ATTACH && c->version >= PROTOCOL_SIZE);
}

/* Reads the client's first bytes, and begins or does what it asks. */
static void begin(struct client *c) {
    c->ask = (char)c->in[HELLO_ASK];
    c->flags = c->in[HELLO_FLAGS];
    bool is_known = greet(c);
    c->in_len -= HELLO_LENGTH;
    memmove(c->in, c->in + HELLO_LENGTH, c->in_len);
    if (!is_known) {
        leave(c);
    } else if (awaits_frame(c)) {
        return;
    } else if (c->ask == ASK_ATTACH) {
        admit(c);
    } else if (c->ask == ASK_SEND) {
        c->state = SENDING;
        c->deadline = LLONG_MAX;
    } else if (c->ask == ASK_LOG && c->version >= PROTOCOL_LOG) {
        c->state = READING;
        c->wants_log = true;
    } else if (c->ask == ASK_KILL) {
        c->state = WAITING;
        c->deadline = LLONG_MAX;
        if (the.is_over) give_up();
        else hang_up();
    } else {
        answer(c);
    }
}

/* Serves a client from before version 1, which asks with one letter. Its list can show a line. Everything else is refused. */
static void begin_old(struct client *c) {
    static const char line[] = "is kept by a newer keep\n";
    if (c->in[0] == ASK_LIST) put(c, FRAME_ANSWER, line, sizeof line - 1);
    leave(c);
}

/* Somebody else holds the lock of the directory. Returns whether a client's frame is to be tried again later. */
static bool waits_for_lock(struct client *c) {
    long long time = now();
    if (c->again == 0) c->gives_up = time + patience / 2; /* the client waits for `patience` */
    c->again = time + LOCK_PAUSE;
    return time < c->gives_up;
}

/* Returns false if the frame is to be tried again. */
static bool take_name(struct client *c, const uint8_t *bytes, size_t len) {
    char name[NAME_LIMIT + 1] = {0}, why[WHY_LIMIT];
    if (len <= NAME_LIMIT) memcpy(name, bytes, len);
    if (strlen(name) != len || !is_name(name)) {
        refuse(c, "the new name isn't valid");
    } else if (is_locked(the.folder.file) && waits_for_lock(c)) {
        return false;
    } else if (!rename_session(name, why)) {
        refuse(c, why);
    } else {
        put(c, FRAME_ANSWER, NULL, 0);
        leave(c);
    }
    c->again = 0;
    return true;
}

/* Becomes the program that a client passed. The reply is part of the state, so it comes from the new program. */
static void upgrade_for(struct client *c) {
    char why[WHY_LIMIT];
    frame_room(c);
    size_t len = c->len;
    put(c, FRAME_ANSWER, NULL, 0);
    leave(c);
    upgrade(c->program, why);
    c->len = len;
    refuse(c, why);
}

/* A client's window is known, or has changed. The session follows it when the turn of the loop is over. */
static void take_window(struct client *c, const uint8_t *bytes) {
    memcpy(&c->window, bytes, sizeof c->window);
    if (c->state == ASKING) admit(c);
}

/* Handles a frame. Returns false if it is to be tried again: its keys don't fit into the queue now, or the directory is locked. */
static bool take_frame(struct client *c, char letter, const uint8_t *bytes, size_t len) {
    bool is_typing = c->state == SENDING || (c->state == ATTACHED && !(c->flags & FLAG_READ_ONLY));
    bool attaches = c->ask == ASK_ATTACH && (c->state == ASKING || c->state == ATTACHED);
    if (letter == FRAME_KEYS && is_typing && !the.is_over) return add_input(bytes, len, false);
    if (letter == FRAME_DONE && c->state == SENDING) {
        put(c, FRAME_ANSWER, NULL, 0);
        leave(c);
    } else if (letter == FRAME_NAME && c->state == ASKING && c->ask == ASK_RENAME) {
        return take_name(c, bytes, len);
    } else if (letter == FRAME_PROGRAM && c->state == ASKING && c->ask == ASK_UPGRADE) {
        upgrade_for(c);
    } else if (letter == FRAME_LOG && c->state == ATTACHED) {
        c->wants_log = true;
    } else if (letter == FRAME_WINDOW && attaches && c->version >= PROTOCOL_SIZE && len == sizeof c->window) {
        take_window(c, bytes);
    } else if (letter == FRAME_SEEN && c->awaits_seen != SEEN_BY_NONE) {
        end_was_shown(c->awaits_seen == SEEN_BY_REMOVER);
    }
    return true;
}

/* Handles the whole frames that came. A frame that is too long isn't one of this protocol. */
static void take_frames(struct client *c) {
    size_t at = 0;
    while (c->in_len - at >= FRAME_HEAD) {
        uint32_t len;
        memcpy(&len, c->in + at + 1, sizeof len);
        if (len > KEYS_LIMIT) c->deadline = 0;
        if (len > KEYS_LIMIT || c->in_len - at - FRAME_HEAD < len) break;
        if (!take_frame(c, (char)c->in[at], c->in + at + FRAME_HEAD, len)) break;
        at += FRAME_HEAD + len;
    }
    c->in_len -= at;
    memmove(c->in, c->in + at, c->in_len);
}

/* Returns whether more is read from a client. If not, keys wait in its socket, and then in the client. */
bool hears(const struct client *c) {
    return c->in_len < sizeof c->in;
}

/* Reads bytes of a client, and a file that is passed with them. */
static ssize_t receive(struct client *c) {
    union {
        struct cmsghdr head;
        char room[CMSG_SPACE(sizeof(int))];
    } passed;
    struct iovec bytes = {c->in + c->in_len, sizeof c->in - c->in_len};
    /* By this length there is room for one file, and the kernel closes any other. */
    struct msghdr message = {.msg_iov = &bytes, .msg_iovlen = 1, .msg_control = &passed, .msg_controllen = CMSG_LEN(sizeof(int))};
    ssize_t n = recvmsg(c->socket, &message, MSG_DONTWAIT | MSG_CMSG_CLOEXEC);
    const struct cmsghdr *head = n > 0 ? CMSG_FIRSTHDR(&message) : NULL;
    if (head != NULL && head->cmsg_level == SOL_SOCKET && head->cmsg_type == SCM_RIGHTS) {
        if (c->program >= 0) close(c->program);
        memcpy(&c->program, CMSG_DATA(head), sizeof c->program);
    }
    return n;
}

void hear(struct client *c) {
    ssize_t n = hears(c) ? receive(c) : -2;
    if (n == 0 || (n == -1 && errno != EAGAIN && errno != EINTR)) c->deadline = 0;
    if (n > 0) c->in_len += (size_t)n;
    if (c->state == ASKING && c->ask == 0 && c->in_len > 0) {
        size_t known = c->in_len < HELLO_MAGIC ? c->in_len : HELLO_MAGIC;
        if (memcmp(c->in, "keep", known) != 0) begin_old(c);
        else if (c->in_len >= HELLO_LENGTH) begin(c);
    }
    if (c->ask != 0) take_frames(c);
}

/* --- who comes and goes --- */

bool has_clients(void) {
    for (size_t i = 0; i < CLIENT_LIMIT; i++) {
        if (the.clients[i] != NULL) return true;
    }
    return false;
}

/* Finds a free entry. If too many clients aren't attached, the oldest of them is dropped. */
static size_t free_place(void) {
    size_t others = 0, oldest = CLIENT_LIMIT, i = 0;
    for (size_t k = 0; k < CLIENT_LIMIT; k++) {
        struct client *c = the.clients[k];
        if (c == NULL || c->state == ATTACHED) continue;
        others++;
        if (oldest == CLIENT_LIMIT) oldest = k;
        struct client *first = the.clients[oldest];
        bool is_better = c->state == first->state ? c->came < first->came : c->state == ASKING;
        if (is_better) oldest = k;
    }
    if (others >= ASKING_LIMIT) let_go(oldest);
    while (i < CLIENT_LIMIT && the.clients[i] != NULL) i++;
    return i;
}

/* Returns a client with capacity for what is sent to it, or null if allocation fails. */
struct client *new_client(void) {
    struct client *c = calloc(1, sizeof *c);
    if (c == NULL || make_room(c, frame_most())) return c;
    free(c);
    return NULL;
}

void let_in(long long time) {
    int socket = accept4(the.listener, NULL, NULL, SOCK_CLOEXEC);
    if (socket < 0) {
        /* No more files, or no memory: the next try is later, so that this loop doesn't spin. */
        if (errno != EAGAIN && errno != EINTR && errno != ECONNABORTED) the.listens_at = time + LISTEN_PAUSE;
        return;
    }
    size_t i = is_same_user(socket) ? free_place() : CLIENT_LIMIT;
    struct client *c = i < CLIENT_LIMIT ? new_client() : NULL;
    if (c == NULL) {
        static const char full[FRAME_HEAD] = {FRAME_FULL};
        send(socket, full, sizeof full, MSG_NOSIGNAL | MSG_DONTWAIT);
        close(socket);
        return;
    }
    c->socket = socket;
    c->program = -1;
    c->came = time;
    c->deadline = time + patience;
    the.clients[i] = c;
}

void let_go(size_t i) {
    struct client *c = the.clients[i];
    if (c->state == ATTACHED) hear(c); /* what it typed before it went */
    close(c->socket);
    if (c->program >= 0) close(c->program);
    vt220_close(&c->shown);
    free(c->out);
    free(c);
    the.clients[i] = NULL;
    if (!has_clients()) malloc_trim(0); /* a keeper may live for months after a crowd */
}

/* Returns the time at which something is due for a client, or LLONG_MAX. */
long long next_time(const struct client *c) {
    bool is_behind = c->state == ATTACHED && is_sent(c) && has_news(c);
    long long due = is_behind ? c->due : c->again != 0 ? c->again : LLONG_MAX;
    return due < c->deadline ? due : c->deadline;
}
