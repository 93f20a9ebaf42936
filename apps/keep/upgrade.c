/* Replaces the program of a keeper while the command runs.
 *
 * The keeper writes its state to a file in memory. A child process runs the new program on this state, and reports whether that program
 * can go on with it. If it can, the keeper becomes the new program by exec, and otherwise it goes on as it is. By exec it stays the
 * parent of the command, whose status no other process gets. It also keeps its process ID, the signals that wait, and its open files:
 * the pseudo-terminal, its socket, and those of its clients. Nothing is read or written meanwhile.
 *
 * The state is a heading, and then items, which have the form of frames: a letter, a length, and so many bytes. The heading has the number
 * of this form. It is another one if anything here changes, and a program refuses a form that it doesn't know. */
#include "session.h"
#include <errno.h>
#include <fcntl.h>
#include <poll.h>
#include <signal.h>
#include <stdio.h>
#include <stdlib.h>
#include <string.h>
#include <sys/mman.h>
#include <sys/stat.h>
#include <sys/wait.h>
#include <unistd.h>

/* Since form 2 there is ITEM_ENCODING, since form 3 ITEM_TERMINAL, since form 4 ITEM_SIZE and ITEM_WINDOW, and since form 5 what publish.c has. A session is written in the lowest
 * form that has all of it, so that a program that knows no higher one can go on with it. */
enum { FORM_LOWEST = 1, FORM_ENCODING = 2, FORM_TERMINAL = 3, FORM_SIZE = 4, FORM = 5 };

static const char fits[] = "can go on"; /* what the new program reports; anything else is the reason why it can't */

struct heading {
    char magic[12];
    uint32_t form;
};

static const char magic[] = "keep: state";

enum {
    ITEM_SESSION = 'S', /* a struct handed_session */
    ITEM_NAME = 'N',
    ITEM_FOLDER = 'D', /* the path of its directory */
    ITEM_TITLE = 'T',
    ITEM_SIZE = 'W',   /* a struct handed_size, if the size isn't a VT220's, it is fixed, or windows are handed over */
    ITEM_ENCODING = 'E', /* a struct handed_pending of `settled`, if the session is in UTF-8 */
    ITEM_TERMINAL = 'X', /* instead of it, and empty, if the command has TERM=xterm-256color */
    ITEM_SCREEN = 'P', /* the repaint of `settled`, and with ITEM_TERMINAL then what is pending */
    ITEM_SINCE = 'H',  /* what was played since then, inside a sequence */
    ITEM_KEYS = 'K',   /* what waits for the program; several items, in their order */
    ITEM_REPORTS = 'R',
    ITEM_LINES = 'L',  /* whole lines of the log; several items */
    ITEM_CLIENT = 'C', /* a struct handed_client, and what came from the client and isn't handled, and what isn't sent to it */
    ITEM_WINDOW = 'V', /* a struct window, that of this client, if there is ITEM_SIZE. Otherwise it is that of a VT220 */
    ITEM_END = 'Z'
};

struct handed_session {
    int32_t folder, listener, master, slave, command;
    uint8_t is_over, is_seen, is_shown, unused;
    uint64_t device, number; /* of its socket */
    uint64_t log_begin;
    int64_t began, linger, kill_at, leave_at;
    struct ending ending;
};

struct handed_size {
    struct window size;
    uint8_t is_vt220, is_fixed;
};

/* The bytes of a character that isn't complete, and how many there are. */
struct handed_pending {
    uint8_t bytes[3], len;
};

struct handed_client {
    int32_t socket;
    uint8_t state, ask, flags, rings, awaits_seen, wants_log, is_reading;
    uint8_t version; /* 0 in the state of a program that knows no version 6 */
    uint32_t in_len, out_len;
    uint64_t log_at, log_end;
    int64_t deadline, came;
};

/* --- the state is written --- */

static void put_head(FILE *to, char letter, size_t len) {
    uint32_t length = (uint32_t)len;
    fputc(letter, to);
    fwrite(&length, sizeof length, 1, to);
}

static void put_item(FILE *to, char letter, const void *bytes, size_t len) {
    put_head(to, letter, len);
    if (len > 0) fwrite(bytes, 1, len, to);
}

static void put_session(FILE *to) {
    const struct handed_session it = {
        .folder = the.folder.file, .listener = the.listener, .master = the.master, .slave = the.slave, .command = the.command,
        .is_over = the.is_over, .is_seen = the.is_seen, .is_shown = the.is_shown, .device = the.socket.device, .number = the.socket.number, .log_begin = log_begin(),
        .began = the.began, .linger = the.linger, .kill_at = the.kill_at, .leave_at = the.leave_at, .ending = the.ending};
    put_item(to, ITEM_SESSION, &it, sizeof it);
    put_item(to, ITEM_NAME, the.name, strlen(the.name));
    put_item(to, ITEM_FOLDER, the.folder.path, strlen(the.folder.path));
    put_item(to, ITEM_TITLE, the.title, strlen(the.title));
}

/* Returns whether a client's window is the one that a client has of which none is handed over. */
static bool has_usual_window(const struct client *c) {
    bool counts = c->state == ATTACHED && c->version >= PROTOCOL_SIZE;
    return !counts || (c->window.rows == VT220_ROWS && c->window.columns == NARROW);
}

/* Returns whether sizes are handed over. */
static bool has_sizes(void) {
    bool has_all = the.is_vt220 && !the.is_fixed;
    for (size_t i = 0; i < CLIENT_LIMIT && has_all; i++) has_all = the.clients[i] == NULL || has_usual_window(the.clients[i]);
    return !has_all;
}

static void put_size(FILE *to) {
    const struct handed_size it = {the.size, the.is_vt220, the.is_fixed};
    if (has_sizes()) put_item(to, ITEM_SIZE, &it, sizeof it);
}

static vt220_language_state kept_by(const vt220 *t) {
    vt220_language_state kept = {0};
    vt220_language(t, &kept);
    return kept;
}

/* Returns the bytes that rebuild a terminal: a repaint, and then what is pending. The caller frees them. Returns null if the terminal is inside a
 * sequence, or allocation fails. */
static uint8_t *paint(const vt220 *t, size_t *len) {
    vt220_language_state kept = kept_by(t);
    size_t limit = vt220_limit(t, VT220_OF_REPAINT);
    uint8_t *out = malloc(limit + sizeof kept.pending);
    if (out == NULL || vt220_repaint(t, &the.scratch, out, limit, len) != VT220_OK) {
        free(out);
        return NULL;
    }
    memcpy(out + *len, kept.pending, kept.pending_len);
    *len += kept.pending_len;
    return out;
}

/* Returns whether two terminals have the same pages. CAN ends a sequence that they are inside of, which leaves nothing of it. */
static bool has_same_pages(vt220 *t, vt220 *other) {
    size_t len = 0, others_len = 0;
    vt220_feed(t, (const uint8_t *)"\030", 1, NULL, 0, NULL);
    vt220_feed(other, (const uint8_t *)"\030", 1, NULL, 0, NULL);
    uint8_t *bytes = paint(t, &len), *others = paint(other, &others_len);
    bool is_same = bytes != NULL && others != NULL && len == others_len && memcmp(bytes, others, len) == 0;
    free(bytes);
    free(others);
    return is_same;
}

/* Returns whether bytes of ITEM_SCREEN, and then those that were played since `settled`, lead to the terminal's state. They don't if the middle
 * of a long sequence wasn't kept. */
static bool leads_here(vt220 *other, vt220 *copy, const uint8_t *bytes, size_t len) {
    vt220_feed(other, bytes, len, NULL, 0, NULL);
    vt220_feed(other, the.since, the.since_len, NULL, 0, NULL);
    vt220_language_state kept = kept_by(&the.terminal), others = kept_by(other);
    bool is_same = vt220_same_state(other, &the.terminal) && memcmp(&kept, &others, sizeof kept) == 0;
    return is_same && vt220_copy(copy, &the.terminal) == VT220_OK && has_same_pages(copy, other);
}

/* Writes the terminal. Returns false if what is written doesn't lead to its state. */
static bool put_terminal(FILE *to, char *why) {
    vt220 other = VT220_INIT, copy = VT220_INIT;
    vt220_language_state kept = kept_by(&the.settled);
    size_t len = 0;
    uint8_t *bytes = paint(&the.settled, &len);
    struct handed_pending pending = {.len = kept.pending_len};
    memcpy(pending.bytes, kept.pending, sizeof pending.bytes);
    if (the.language == VT220_XTERM) put_item(to, ITEM_TERMINAL, "", 0);
    else if (the.language == VT220_UTF8) put_item(to, ITEM_ENCODING, &pending, sizeof pending);
    put_item(to, ITEM_SCREEN, bytes, bytes != NULL && the.language == VT220_UTF8 ? len - pending.len : len);
    put_item(to, ITEM_SINCE, the.since, the.since_len);
    bool is_open = open_like(&other, the.language) && open_like(&copy, the.language);
    bool is_same = is_open && bytes != NULL && leads_here(&other, &copy, bytes, len);
    vt220_close(&other);
    vt220_close(&copy);
    free(bytes);
    if (!is_open) return refused(why, "out of memory");
    if (bytes == NULL) return refused(why, "its terminal can't be written as bytes");
    return is_same || refused(why, "the command is inside a long control sequence; try again later");
}

/* Writes what waits for the program, an item for each run of keys or of reports. */
static void put_input(FILE *to) {
    for (size_t at = 0, n; at < the.waiting; at += n) {
        for (n = 1; at + n < the.waiting && the.is_report[at + n] == the.is_report[at]; n++) {}
        put_item(to, the.is_report[at] ? ITEM_REPORTS : ITEM_KEYS, the.input + at, n);
    }
}

static void put_log(FILE *to) {
    static uint8_t lines[LINES_LIMIT];
    uint64_t place = log_begin(), lost = 0;
    for (size_t len; (len = log_read(&place, log_end(), lines, sizeof lines, &lost)) > 0;) put_item(to, ITEM_LINES, lines, len);
}

static void put_client(FILE *to, const struct client *c) {
    const struct handed_client it = {
        .socket = c->socket, .state = (uint8_t)c->state, .ask = (uint8_t)c->ask, .flags = c->flags, .rings = c->rings,
        .awaits_seen = c->awaits_seen, .wants_log = c->wants_log, .is_reading = c->is_reading, .version = c->version, .in_len = (uint32_t)c->in_len,
        .out_len = (uint32_t)(c->len - c->at), .log_at = c->log_at, .log_end = c->log_end, .deadline = c->deadline, .came = c->came};
    put_head(to, ITEM_CLIENT, sizeof it + it.in_len + it.out_len);
    fwrite(&it, sizeof it, 1, to);
    fwrite(c->in, 1, it.in_len, to);
    fwrite(c->out + c->at, 1, it.out_len, to);
    if (has_sizes()) put_item(to, ITEM_WINDOW, &c->window, sizeof c->window);
}

static bool put_state(FILE *to, char *why) {
    struct heading heading = {.form = publish_is_on() ? FORM : has_sizes() ? FORM_SIZE : the.language == VT220_XTERM ? FORM_TERMINAL : FORM_ENCODING};
    memcpy(heading.magic, magic, sizeof magic);
    fwrite(&heading, sizeof heading, 1, to);
    put_session(to);
    put_size(to);
    if (!put_terminal(to, why)) return false;
    put_input(to);
    publish_put(put_item, to);
    put_log(to);
    for (size_t i = 0; i < CLIENT_LIMIT; i++) {
        if (the.clients[i] != NULL) put_client(to, the.clients[i]);
    }
    put_item(to, ITEM_END, "", 0);
    return (fflush(to) == 0 && !ferror(to)) || refused(why, "its state can't be written: %s", strerror(errno));
}

/* Returns a new file in memory with the state, or null and why. */
static FILE *write_state(char *why) {
    int file = memfd_create("keep", MFD_CLOEXEC);
    FILE *to = file < 0 ? NULL : fdopen(file, "w");
    if (to == NULL) refused(why, "its state can't be written: %s", strerror(errno));
    if (to == NULL && file >= 0) close(file);
    if (to == NULL || put_state(to, why)) return to;
    fclose(to);
    return NULL;
}

/* --- the new program --- */

/* Lets the files that belong to the state stay open over exec, or not. */
static void keep_files(int state, bool are_kept) {
    const int files[] = {state, the.folder.file, the.listener, the.master, the.slave};
    int flags = are_kept ? 0 : FD_CLOEXEC;
    for (size_t i = 0; i < sizeof files / sizeof *files; i++) fcntl(files[i], F_SETFD, flags); /* of -1 it fails */
    for (size_t i = 0; i < CLIENT_LIMIT; i++) {
        if (the.clients[i] != NULL) fcntl(the.clients[i]->socket, F_SETFD, flags);
    }
}

/* Becomes another program, which takes the state over. Returns only if that fails, with errno. The file `told`, if there is one, is for what
 * the program reports: it is only tried. */
static void become(int program, int state, int told) {
    char state_word[16], told_word[16];
    char *words[] = {"vt220-keep", RESUME, state_word, told < 0 ? NULL : told_word, NULL};
    snprintf(state_word, sizeof state_word, "%d", state);
    snprintf(told_word, sizeof told_word, "%d", told);
    keep_files(state, true);
    if (told >= 0) fcntl(told, F_SETFD, 0);
    fexecve(program, words, environ);
    int error = errno;
    keep_files(state, false);
    errno = error;
}

/* Reads what a program reports, up to its end. Returns false if that takes longer than `patience`. */
static bool read_report(int from, char *report) {
    size_t len = 0;
    ssize_t n = 1;
    for (long long end = now() + patience, time; (time = now()) < end && n != 0 && len < WHY_LIMIT - 1;) {
        struct pollfd polled = {from, POLLIN, 0};
        if (poll(&polled, 1, (int)(end - time)) <= 0) continue;
        n = read(from, report + len, WHY_LIMIT - 1 - len);
        if (n > 0) len += (size_t)n;
    }
    report[len] = 0;
    for (char *at = report; *at != 0; at++) *at = *at >= ' ' && *at <= '~' ? *at : '?';
    return n == 0;
}

/* Runs a program on the state in a child process. Returns whether it can go on with the state; if not, also why. */
static bool is_fit(int program, int state, char *why) {
    char report[WHY_LIMIT];
    int told[2], error = 0;
    if (pipe2(told, O_CLOEXEC) != 0) return refused(why, "cannot create a pipe: %s", strerror(errno));
    pid_t child = fork();
    if (child == 0) {
        become(program, state, told[1]);
        dprintf(told[1], "it can't be run: %s", strerror(errno));
        _exit(1);
    }
    if (child < 0) error = errno;
    close(told[1]);
    bool has_ended = read_report(told[0], report);
    close(told[0]);
    if (child > 0) {
        kill(child, SIGKILL);
        while (waitpid(child, NULL, 0) < 0 && errno == EINTR) {}
    }
    if (error != 0) return refused(why, "cannot start a process: %s", strerror(error));
    if (strcmp(report, fits) == 0) return true;
    return refused(why, "the new program can't go on with it: %.300s", *report != 0 ? report : has_ended ? "it ends at once" : "it doesn't answer");
}

void upgrade(int program, char *why) {
    bool can_go_on = program >= 0 && !the.is_given_up;
    if (!can_go_on) refused(why, program < 0 ? "no new program came" : "it has ended");
    FILE *state = can_go_on ? write_state(why) : NULL;
    if (state == NULL) return;
    if (is_fit(program, fileno(state), why)) {
        become(program, fileno(state), -1);
        refused(why, "the new program can't be run: %s", strerror(errno));
    }
    fclose(state);
}

/* --- the state is taken over --- */

/* Returns whether a file is open. It isn't kept over a later exec. */
static bool take_file(int file) {
    return fcntl(file, F_SETFD, FD_CLOEXEC) == 0;
}

static bool take_session(const uint8_t *bytes, size_t len) {
    struct handed_session it;
    if (len != sizeof it) return false;
    memcpy(&it, bytes, sizeof it);
    the.folder.file = it.folder;
    the.listener = it.listener;
    the.master = it.master;
    the.slave = it.slave;
    the.command = it.command;
    the.is_over = it.is_over;
    the.is_seen = it.is_seen;
    the.is_shown = it.is_shown;
    the.socket = (struct identity){(dev_t)it.device, (ino_t)it.number};
    the.began = it.began;
    the.linger = it.linger;
    the.kill_at = it.kill_at;
    the.leave_at = it.leave_at;
    the.ending = it.ending;
    log_start(it.log_begin);
    bool has_line = the.is_over || (take_file(the.master) && take_file(the.slave));
    return has_line && take_file(the.folder.file) && take_file(the.listener);
}

static bool take_size(const uint8_t *bytes, size_t len) {
    struct handed_size it;
    if (len != sizeof it) return false;
    memcpy(&it, bytes, sizeof it);
    set_size(it.size);
    the.is_vt220 = the.is_vt220 && it.is_vt220;
    the.is_fixed = it.is_fixed;
    return is_size(&it.size) && open_terminals(the.language);
}

/* What is pending once the screen is there. */
static struct handed_pending taken;

static bool take_encoding(const uint8_t *bytes, size_t len) {
    if (len != sizeof taken) return false;
    memcpy(&taken, bytes, len);
    return taken.len <= sizeof taken.bytes && open_terminals(VT220_UTF8);
}

static bool take_screen(const uint8_t *bytes, size_t len) {
    vt220_feed(&the.settled, bytes, len, NULL, 0, NULL);
    vt220_feed(&the.settled, taken.bytes, taken.len, NULL, 0, NULL);
    return vt220_copy(&the.terminal, &the.settled) == VT220_OK;
}

static bool take_text(char *to, size_t room, const uint8_t *bytes, size_t len) {
    if (len >= room) return false;
    memcpy(to, bytes, len);
    to[len] = 0;
    return true;
}

/* The client that was taken over last. */
static struct client *last_taken;

/* Takes a client over. One that is attached gets a repaint when everything was sent that waits for it. */
static bool take_client(const uint8_t *bytes, size_t len) {
    struct handed_client it;
    size_t i = 0;
    while (i < CLIENT_LIMIT && the.clients[i] != NULL) i++;
    struct client *c = i < CLIENT_LIMIT && len >= sizeof it ? new_client() : NULL;
    if (c == NULL) return false;
    memcpy(&it, bytes, sizeof it);
    the.clients[i] = c;
    if (it.in_len > sizeof c->in || len != sizeof it + it.in_len + it.out_len || !make_room(c, it.out_len)) return false;
    c->socket = it.socket;
    c->program = -1;
    c->state = it.state;
    c->ask = (char)it.ask;
    c->flags = it.flags;
    c->rings = it.rings;
    c->awaits_seen = it.awaits_seen;
    c->wants_log = it.wants_log;
    c->is_reading = it.is_reading;
    c->version = it.version;
    c->brackets = BRACKETS_UNKNOWN;
    c->log_at = it.log_at;
    c->log_end = it.log_end;
    c->deadline = it.deadline;
    c->came = it.came;
    c->in_len = it.in_len;
    c->len = it.out_len;
    memcpy(c->in, bytes + sizeof it, it.in_len);
    memcpy(c->out, bytes + sizeof it + it.in_len, it.out_len);
    c->window = (struct window){VT220_ROWS, NARROW};
    c->needs_repaint = c->state == ATTACHED;
    last_taken = c;
    return take_file(c->socket) && c->state <= LEAVING && (c->state != ATTACHED || open_like(&c->shown, VT220_BYTES));
}

static bool take_window(const uint8_t *bytes, size_t len) {
    if (last_taken == NULL || len != sizeof last_taken->window) return false;
    memcpy(&last_taken->window, bytes, len);
    return true;
}

static bool take_item(char letter, const uint8_t *bytes, size_t len) {
    switch (letter) {
    case ITEM_SESSION: return take_session(bytes, len);
    case ITEM_NAME: return take_text(the.name, sizeof the.name, bytes, len);
    case ITEM_FOLDER: return take_text(the.folder.path, sizeof the.folder.path, bytes, len);
    case ITEM_TITLE: return take_text(the.title, sizeof the.title, bytes, len);
    case ITEM_SIZE: return take_size(bytes, len);
    case ITEM_ENCODING: return take_encoding(bytes, len);
    case ITEM_TERMINAL: return open_terminals(VT220_XTERM);
    case ITEM_SCREEN: return take_screen(bytes, len);
    case ITEM_SINCE: remember(bytes, len); vt220_feed(&the.terminal, bytes, len, NULL, 0, NULL); return true;
    case ITEM_KEYS: return add_input(bytes, len, false);
    case ITEM_REPORTS: return add_input(bytes, len, true);
    case ITEM_LINES: log_append(bytes, len); return true;
    case ITEM_CLIENT: return take_client(bytes, len);
    case ITEM_WINDOW: return take_window(bytes, len);
    default: return publish_take(letter, bytes, len);
    }
}

/* Takes items up to ITEM_END, which is the last one. */
static bool take_items(const uint8_t *bytes, size_t len) {
    for (size_t at = 0; len - at >= FRAME_HEAD;) {
        uint32_t n;
        memcpy(&n, bytes + at + 1, sizeof n);
        char letter = (char)bytes[at];
        at += FRAME_HEAD;
        if (letter == ITEM_END) return at == len;
        if (n > len - at || !take_item(letter, bytes + at, n)) return false;
        at += n;
    }
    return false;
}

/* Takes over the state in a file. Returns false if that can't be done, and why. */
bool take_over(int state, char *why) {
    struct stat it;
    struct heading heading;
    if (!open_terminals(VT220_BYTES)) return refused(why, "out of memory");
    if (fstat(state, &it) != 0 || (size_t)it.st_size < sizeof heading) return refused(why, "there is no state");
    size_t len = (size_t)it.st_size;
    uint8_t *bytes = mmap(NULL, len, PROT_READ, MAP_PRIVATE, state, 0);
    if (bytes == MAP_FAILED) return refused(why, "its state can't be read: %s", strerror(errno));
    memcpy(&heading, bytes, sizeof heading);
    bool is_state = memcmp(heading.magic, magic, sizeof magic) == 0, is_known = is_state && heading.form >= FORM_LOWEST && heading.form <= FORM;
    bool is_fine = is_known && take_items(bytes + sizeof heading, len - sizeof heading);
    munmap(bytes, len);
    close(state);
    if (is_state && !is_known) return refused(why, "its state has form %u, and the new program knows the forms %d to %d", heading.form, FORM_LOWEST, FORM);
    if (!is_fine) return refused(why, "its state can't be read");
    the.width = vt220_width(&the.terminal);
    return true;
}

/* Reports whether the state was taken over. */
void report_fit(int told, bool is_fine, const char *why) {
    dprintf(told, "%s", is_fine ? fits : why);
}
