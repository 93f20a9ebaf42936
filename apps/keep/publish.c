/* Publishes a session: the host daemon of this machine stores what the program writes, and passes keys, signals and sizes on to it. The daemon alone
 * knows the store. apps/fleet/fleet/wire.py describes the frames.
 *
 * A position is a count of the bytes that the program has written. A change of the size has a position among them, as if it was a byte. A checkpoint
 * is a position and bytes that rebuild the terminal there. What the store may lack is held here, and some of what it has: it may go back. If it went
 * back further, a checkpoint takes the place of what isn't held any more.
 *
 * Nothing here waits for the daemon. If more than UNSTORED isn't stored, the program is made to wait. */
#include "session.h"
#include <errno.h>
#include <fcntl.h>
#include <inttypes.h>
#include <signal.h>
#include <stdio.h>
#include <stdlib.h>
#include <string.h>
#include <sys/socket.h>
#include <sys/un.h>
#include <unistd.h>

enum {
    CHUNK = 16384,     /* the most bytes of an entry of the store */
    UNSTORED = 4 << 20, /* bytes that aren't stored; then the program is made to wait */
    HELD = 1 << 20,    /* stored bytes that are held */
    TYPED = 4096,      /* the most bytes of one input */
    ID_LENGTH = 17,    /* of what precedes an input: its stream, and the two numbers of its id */
    STREAMS = 2,       /* keys; signals and sizes */
    AGAIN = 200,       /* milliseconds between two looks for a daemon */
    LATER = 1000,      /* and after one refused the session */
    SCREEN = 8,        /* capacity for a size, as 255x255 */
    IN_LIMIT = FRAME_HEAD + ID_LENGTH + TYPED,
    NO_STORE = 69      /* the exit status if there is no daemon, or if it can't store the end */
};

/* The frames of a keeper. */
enum { STATE = 'S', BYTES = 'B', RESIZED = 'Z', CHECKPOINT = 'P', JUMP = 'J', TAKEN = 'W', ENDED = 'E' };
/* The frames of a daemon. */
enum { NAMED = 'N', FROM = 'F', REFUSED = 'R', KEPT = 'A', INPUT = 'I', SIGNAL = 'X', SIZE = 'Y', STOP = 'T', DONE = 'D' };

struct bytes {
    uint8_t *at;
    size_t len, room;
};

struct entry_id {
    uint64_t moment, number;
};

struct change {
    uint64_t at; /* the position after it. Its place in `written` has a byte that isn't sent */
    char screen[SCREEN];
};

/* What an upgrade hands over as it is. */
struct published {
    bool is_on, takes_input, is_resized, is_done;
    char incarnation[64];     /* empty until the daemon has said it */
    char screen[SCREEN];      /* the size at the beginning */
    uint64_t base, kept;      /* positions: of the first byte that is held, and up to which the store has all */
    uint64_t settled, resized; /* of `the.settled`, and after the last change of the size */
    uint64_t every;           /* bytes between two checkpoints, at least */
    struct entry_id last[STREAMS]; /* of the last input of each stream */
    long long patience;       /* milliseconds after a signal to end for which the store is waited for */
    long long leave_at;       /* when that is over; 0 without such a signal */
};

static struct {
    struct published its;
    char *socket, *name, **command; /* of the daemon; of the session in the store */
    struct bytes written, changes;  /* from the position `base` on; the changes of the size among them, each a struct change */
    struct bytes typed;             /* what the program's line has no room for */
    uint64_t sent;                  /* the position up to which this daemon was sent all */
    uint64_t checked, checked_len;  /* the position and the length of the last checkpoint that it was sent */
    uint64_t heard, told;           /* inputs of this daemon, and how many it knows to be written to the program */
    bool owes_end, may_send;        /* it was told from which position on */
    int link;                       /* to the daemon; -1 if there is none */
    long long meets_at;             /* when the next one is looked for */
    struct bytes out;               /* frames for it, and how much of them is sent */
    size_t out_at, in_len;
    uint8_t in[IN_LIMIT];
    int refused;                    /* the exit status if the session never began */
} it = {.link = -1};

/* --- bytes --- */

static bool reserve(struct bytes *bytes, size_t more) {
    if (bytes->len + more <= bytes->room) return true;
    size_t room = bytes->len + bytes->len / 2 + more;
    uint8_t *at = realloc(bytes->at, room);
    if (at == NULL) return false;
    bytes->at = at;
    bytes->room = room;
    return true;
}

static bool add(struct bytes *bytes, const void *more, size_t len) {
    if (!reserve(bytes, len)) return false;
    if (len > 0) memcpy(bytes->at + bytes->len, more, len);
    bytes->len += len;
    return true;
}

/* Drops the first bytes. The capacity is given back once nothing is left. */
static void drop(struct bytes *bytes, size_t count) {
    bytes->len -= count;
    if (bytes->len > 0) {
        memmove(bytes->at, bytes->at + count, bytes->len);
        return;
    }
    free(bytes->at);
    *bytes = (struct bytes){0};
}

/* Returns the position after what the program wrote. */
static uint64_t end(void) {
    return it.its.base + it.written.len;
}

static struct change *change_at(size_t i) {
    return (struct change *)(void *)it.changes.at + i;
}

static void drop_before(uint64_t position) {
    if (position <= it.its.base) return;
    drop(&it.written, position - it.its.base);
    it.its.base = position;
    while (it.changes.len > 0 && change_at(0)->at <= position) drop(&it.changes, sizeof(struct change));
}

/* Adds bytes of the program. Without memory for them, nothing is held: a checkpoint follows. */
static void write_on(const void *bytes, size_t len) {
    if (add(&it.written, bytes, len)) return;
    drop_before(end());
    it.its.base += len;
}

/* --- what the keeper tells --- */

bool publish_is_on(void) {
    return it.its.is_on;
}

/* Returns whether a checkpoint is to take the place of what isn't held any more. */
static bool owes_jump(void) {
    return it.may_send && it.sent < it.its.base;
}

void publish_bytes(const uint8_t *bytes, size_t len) {
    if (!it.its.is_on) return;
    if (owes_jump() && it.written.len > UNSTORED) drop_before(end()); /* it comes after these, too */
    write_on(bytes, len);
}

/* `the.settled` is where all bytes lead that are here. */
void publish_settled(void) {
    it.its.settled = end();
}

void publish_size(void) {
    struct change change = {.at = end() + 1};
    if (!it.its.is_on) return;
    snprintf(change.screen, sizeof change.screen, "%ux%u", the.size.columns % 1000u, the.size.rows % 1000u);
    if (!add(&it.changes, &change, sizeof change)) drop_before(end()), it.its.base++;
    else write_on("", 1);
    it.its.resized = end();
    it.its.is_resized = true;
    if (the.since_len == 0) publish_settled();
}

/* Returns whether more of the program is to be read. */
bool publish_has_room(void) {
    return !it.its.is_on || owes_jump() || end() - it.its.kept < UNSTORED;
}

void publish_end(void) {
    it.owes_end = true;
}

/* Returns whether the session may leave: its end is stored, or nobody waits for that any more. */
bool publish_is_done(void) {
    return !it.its.is_on || it.its.is_done;
}

int publish_status(void) {
    return it.refused != 0 ? it.refused : shell_status(the.ending.status);
}

/* --- the daemon --- */

static void part(long long pause) {
    if (it.link >= 0) close(it.link);
    it.link = -1;
    it.meets_at = now() + pause;
}

/* Returns the position of `the.settled`: bytes that begin a character come after it. */
static uint64_t settled_at(void) {
    vt220_language_state kept = {0};
    vt220_language(&the.settled, &kept);
    return it.its.settled - kept.pending_len;
}

/* Returns whether a checkpoint can be made that leads on to what is held. */
static bool can_check(void) {
    uint64_t at = settled_at();
    return at >= it.its.base && at >= it.its.resized;
}

/* Returns the letter of the most urgent frame for the daemon; 0 if there is none. */
static char next_news(void) {
    if (it.link < 0 || !it.may_send) return 0;
    if (it.heard != it.told && it.typed.len == 0 && the.keys == 0) return TAKEN;
    if (owes_jump()) return can_check() ? JUMP : 0;
    if (it.changes.len > 0 && it.sent < end()) {
        for (size_t i = 0; i < it.changes.len / sizeof(struct change); i++) {
            if (change_at(i)->at == it.sent + 1) return RESIZED;
        }
    }
    if (it.sent < end()) return BYTES;
    uint64_t least = it.checked_len > it.its.every ? it.checked_len : it.its.every;
    if (it.sent - it.checked >= least && can_check() && settled_at() > it.checked) return CHECKPOINT;
    return the.is_over && it.owes_end ? ENDED : 0;
}

/* Adds a frame with a number for the daemon. */
static void put(char letter, uint64_t number, const void *bytes, size_t len) {
    uint32_t length = (uint32_t)(sizeof number + len);
    if (!reserve(&it.out, FRAME_HEAD + length)) {
        part(AGAIN);
        return;
    }
    add(&it.out, &letter, 1);
    add(&it.out, &length, sizeof length);
    add(&it.out, &number, sizeof number);
    add(&it.out, bytes, len);
}

static void put_checkpoint(char letter) {
    char screen[SCREEN] = "";
    size_t len = 0, limit = vt220_limit(&the.settled, VT220_OF_REPAINT);
    uint8_t *bytes = malloc(SCREEN + limit);
    if (it.its.is_resized) snprintf(screen, sizeof screen, "%ux%u", the.size.columns % 1000u, the.size.rows % 1000u);
    size_t head = strlen(screen) + 1;
    uint64_t at = settled_at();
    it.checked = at;
    if (letter == JUMP) it.sent = at;
    if (bytes != NULL && vt220_repaint(&the.settled, &the.scratch, bytes + head, limit, &len) == VT220_OK) {
        memcpy(bytes, screen, head);
        put(letter, at, bytes, head + len);
    } else {
        part(AGAIN);
    }
    it.checked_len = len;
    free(bytes);
}

/* Adds the bytes up to the next change of the size, at most CHUNK. */
static void put_bytes(void) {
    uint64_t until = it.sent + CHUNK < end() ? it.sent + CHUNK : end();
    for (size_t i = 0; i < it.changes.len / sizeof(struct change); i++) {
        uint64_t before = change_at(i)->at - 1;
        if (before > it.sent && before < until) until = before;
    }
    put(BYTES, until, it.written.at + (it.sent - it.its.base), until - it.sent);
    it.sent = until;
}

static void put_change(void) {
    size_t i = 0;
    while (change_at(i)->at != it.sent + 1) i++;
    put(RESIZED, ++it.sent, change_at(i)->screen, strlen(change_at(i)->screen));
}

static void put_end(void) {
    char status[16];
    put(ENDED, end(), status, (size_t)snprintf(status, sizeof status, "%d", shell_status(the.ending.status)));
    it.owes_end = false;
}

static void put_news(char letter) {
    switch (letter) {
    case TAKEN: put(TAKEN, it.told = it.heard, NULL, 0); break;
    case RESIZED: put_change(); break;
    case BYTES: put_bytes(); break;
    case ENDED: put_end(); break;
    default: put_checkpoint(letter);
    }
}

/* Adds what is held. */
static void put_state(void) {
    char *state = NULL;
    size_t len = 0;
    uint32_t length;
    FILE *to = open_memstream(&state, &len);
    if (to == NULL) return;
    fprintf(to, "5%c%s%c%s%c%d%c", 0, it.name, 0, it.its.incarnation, 0, it.its.takes_input, 0);
    fprintf(to, "%s%c%s%c%s%c", encoding_name(the.language), 0, terminal_name(the.language), 0, it.its.screen, 0);
    fprintf(to, "%" PRIu64 "%c%" PRIu64 "%c", it.its.base, 0, end(), 0);
    for (size_t i = 0; i < STREAMS; i++) fprintf(to, "%" PRIu64 "%c%" PRIu64 "%c", it.its.last[i].moment, 0, it.its.last[i].number, 0);
    for (char **word = it.command; *word != NULL; word++) fprintf(to, "%s%c", *word, 0);
    if (fclose(to) == 0) {
        length = (uint32_t)len;
        add(&it.out, &(char){STATE}, 1);
        add(&it.out, &length, sizeof length);
        add(&it.out, state, len);
    }
    free(state);
}

/* Looks for a daemon. Returns 0, or why there is none: EAGAIN if it has no room for another connection yet. */
static int meet_daemon(void) {
    struct sockaddr_un address = {.sun_family = AF_UNIX};
    snprintf(address.sun_path, sizeof address.sun_path, "%s", it.socket);
    it.link = socket(AF_UNIX, SOCK_STREAM | SOCK_CLOEXEC | SOCK_NONBLOCK, 0);
    if (it.link < 0 || connect(it.link, (struct sockaddr *)&address, sizeof address) != 0) {
        int why = errno;
        part(AGAIN);
        return why;
    }
    drop(&it.out, it.out.len);
    it.out_at = it.in_len = 0;
    it.heard = it.told = 0;
    it.may_send = false;
    put_state();
    return 0;
}

static void refuse(int status, const uint8_t *why, size_t len) {
    if (it.its.incarnation[0] != 0) { /* it comes again: no program is ended for that */
        part(LATER);
        return;
    }
    fprintf(stderr, "fleet: %.*s\n", (int)len, (const char *)why);
    it.refused = status != 0 ? status : 1;
}

static void signal_program(int number) {
    pid_t group = the.is_over ? -1 : tcgetpgrp(the.master);
    if (group > 1) killpg(group, number); /* 0 is nobody's there, and would be this process's own */
    if (!the.is_over) kill(the.command, number);
}

static void size_program(const uint8_t *bytes, size_t len) {
    char screen[SCREEN] = "", end_of_it;
    struct window size;
    if (len < sizeof screen) memcpy(screen, bytes, len);
    if (sscanf(screen, "%3hux%3hu%c", &size.columns, &size.rows, &end_of_it) == 2) resize_program(size);
}

/* Takes an input, a signal or a size, unless it was taken before. */
static void take(char letter, const uint8_t *bytes, size_t len) {
    struct entry_id id;
    if (len < ID_LENGTH || bytes[0] >= STREAMS) return;
    struct entry_id *last = &it.its.last[bytes[0]];
    memcpy(&id.moment, bytes + 1, sizeof id.moment);
    memcpy(&id.number, bytes + 9, sizeof id.number);
    bool is_new = id.moment > last->moment || (id.moment == last->moment && id.number > last->number);
    if (is_new && !the.is_over && letter == INPUT && !add(&it.typed, bytes + ID_LENGTH, len - ID_LENGTH)) {
        part(AGAIN); /* without memory for it, it isn't taken: the daemon sends it again */
        return;
    }
    if (is_new) *last = id;
    if (letter == INPUT) it.heard++;
    if (!is_new || the.is_over) return;
    if (letter == SIGNAL && len > ID_LENGTH) signal_program(bytes[ID_LENGTH]);
    else if (letter == SIZE) size_program(bytes + ID_LENGTH, len - ID_LENGTH);
}

/* The store has the bytes up to a position, and wants those after it. */
static void go_on_from(uint64_t position) {
    it.sent = position < end() ? position : end();
    it.its.kept = it.sent > it.its.base ? it.sent : it.its.base;
    it.checked = it.checked_len = 0;
    it.may_send = true;
    it.owes_end = the.is_over;
}

static void note_kept(uint64_t position) {
    if (position > it.its.kept) it.its.kept = position < end() ? position : end();
    if (it.its.kept - it.its.base > 2 * (uint64_t)HELD) drop_before(it.its.kept - HELD);
}

static void heed(char letter, const uint8_t *bytes, size_t len) {
    uint64_t number = 0;
    if (len >= sizeof number) memcpy(&number, bytes, sizeof number);
    switch (letter) {
    case NAMED: snprintf(it.its.incarnation, sizeof it.its.incarnation, "%.*s", (int)len, (const char *)bytes); break;
    case FROM: go_on_from(number); break;
    case REFUSED: if (len > sizeof number) refuse((int)number, bytes + sizeof number, len - sizeof number); break;
    case KEPT: note_kept(number); break;
    case STOP: hang_up(); break;
    case DONE: it.its.is_done = true; break;
    default: take(letter, bytes, len);
    }
}

static void hear_daemon(void) {
    ssize_t n = recv(it.link, it.in + it.in_len, sizeof it.in - it.in_len, 0);
    if (n < 0 && (errno == EAGAIN || errno == EINTR)) return;
    if (n > 0) it.in_len += (size_t)n;
    size_t at = 0;
    for (uint32_t len; it.link >= 0 && it.in_len - at >= FRAME_HEAD; at += FRAME_HEAD + len) {
        memcpy(&len, it.in + at + 1, sizeof len);
        if (len > sizeof it.in - FRAME_HEAD) n = 0;
        if (n == 0 || it.in_len - at - FRAME_HEAD < len) break;
        heed((char)it.in[at], it.in + at + FRAME_HEAD, len);
    }
    it.in_len -= at;
    memmove(it.in, it.in + at, it.in_len);
    if (n <= 0 && it.link >= 0) part(AGAIN);
}

static void tell_daemon(void) {
    for (char letter; it.out.len == 0 && (letter = next_news()) != 0;) put_news(letter);
    while (it.link >= 0 && it.out.len > 0) {
        ssize_t n = send(it.link, it.out.at + it.out_at, it.out.len - it.out_at, MSG_NOSIGNAL);
        if (n < 0 && errno == EINTR) continue;
        if (n <= 0) return; /* there is no room, or it has ended: what it said last is still read */
        it.out_at += (size_t)n;
        if (it.out_at == it.out.len) drop(&it.out, it.out.len), it.out_at = 0;
    }
}

/* --- the keeper's loop --- */

/* Returns what is waited for, and brings the time forward up to which it is. */
struct pollfd publish_polled(long long *until) {
    bool sends = it.out.len > 0 || next_news() != 0;
    if (it.its.is_on && it.link < 0 && !it.its.is_done && it.meets_at < *until) *until = it.meets_at;
    if (it.its.leave_at != 0 && the.is_over && it.its.leave_at < *until) *until = it.its.leave_at;
    return (struct pollfd){it.link, (short)(POLLIN | (sends ? POLLOUT : 0)), 0};
}

void publish_turn(short events, long long time) {
    if (!it.its.is_on) return;
    if (it.link >= 0 && events & (POLLIN | POLLHUP | POLLERR)) hear_daemon();
    if (it.link < 0 && !it.its.is_done && time >= it.meets_at) meet_daemon();
    size_t room = the.is_over ? it.typed.len : INPUT_LIMIT - the.keys, len = it.typed.len < room ? it.typed.len : room;
    if (len > 0 && (the.is_over || add_input(it.typed.at, len, false))) drop(&it.typed, len);
    tell_daemon();
    if (it.its.leave_at == 0 || !the.is_over || it.its.is_done || time < it.its.leave_at) return;
    fputs("fleet: the store is away, and has no end of the session\n", stderr);
    it.refused = NO_STORE;
    it.its.is_done = true;
}

/* The keeper was told to end. */
void publish_leave(void) {
    if (it.its.is_on && it.its.leave_at == 0) it.its.leave_at = now() + it.its.patience;
}

/* Returns 1 once the daemon has named the session, -1 if it never will, and 0 otherwise: the next daemon is waited for, if this one ends. */
int publish_beginning(void) {
    return it.refused != 0 ? -1 : it.its.incarnation[0] != 0;
}

void publish_begin(const struct publication *wanted, const struct beginning *beginning) {
    it.its = (struct published){.is_on = true, .takes_input = wanted->takes_input, .every = wanted->every, .patience = wanted->patience};
    snprintf(it.its.screen, sizeof it.its.screen, "%ux%u", beginning->size.columns % 1000u, beginning->size.rows % 1000u);
    it.socket = strdup(wanted->socket);
    it.name = strdup(wanted->name);
    it.command = beginning->command;
    int why = meet_daemon();
    if (why == EAGAIN) fputs("fleet: the host daemon has no room yet; the session waits\n", stderr);
    if (why == 0 || why == EAGAIN) return;
    fprintf(stderr, "fleet: there is no host daemon at %s; fleet daemon is one\n", it.socket);
    it.refused = NO_STORE;
}

/* --- an upgrade --- */

/* Writes what is published, as items: a letter, a length, and so many bytes. */
void publish_put(void (*put_item)(FILE *to, char letter, const void *bytes, size_t len), FILE *to) {
    if (!it.its.is_on) return;
    put_item(to, ITEM_PUBLISHED, &it.its, sizeof it.its);
    put_item(to, ITEM_DAEMON, it.socket, strlen(it.socket) + 1);
    put_item(to, ITEM_STORED_NAME, it.name, strlen(it.name) + 1);
    for (char **word = it.command; *word != NULL; word++) put_item(to, ITEM_WORD, *word, strlen(*word) + 1);
    put_item(to, ITEM_WRITTEN, it.written.at, it.written.len);
    put_item(to, ITEM_CHANGES, it.changes.at, it.changes.len);
    put_item(to, ITEM_TYPED, it.typed.at, it.typed.len);
}

static bool take_text(char **to, const uint8_t *bytes, size_t len) {
    bool is_text = len > 0 && bytes[len - 1] == 0;
    *to = is_text ? strdup((const char *)bytes) : NULL;
    return *to != NULL;
}

static bool take_word(const uint8_t *bytes, size_t len) {
    size_t count = 0;
    while (it.command != NULL && it.command[count] != NULL) count++;
    char **more = realloc(it.command, (count + 2) * sizeof *more);
    if (more == NULL) return false;
    it.command = more;
    more[count + 1] = NULL;
    return take_text(&more[count], bytes, len);
}

bool publish_take(char letter, const uint8_t *bytes, size_t len) {
    switch (letter) {
    case ITEM_PUBLISHED: if (len == sizeof it.its) memcpy(&it.its, bytes, len); return len == sizeof it.its;
    case ITEM_DAEMON: return take_text(&it.socket, bytes, len);
    case ITEM_STORED_NAME: return take_text(&it.name, bytes, len);
    case ITEM_WORD: return take_word(bytes, len);
    case ITEM_WRITTEN: return add(&it.written, bytes, len);
    case ITEM_CHANGES: return add(&it.changes, bytes, len);
    case ITEM_TYPED: return add(&it.typed, bytes, len);
    default: return false;
    }
}
