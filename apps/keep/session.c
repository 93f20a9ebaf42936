/* The keeper: how it starts, its loop, and how it ends. */
#include "session.h"
#include <errno.h>
#include <fcntl.h>
#include <limits.h>
#include <poll.h>
#include <signal.h>
#include <stdio.h>
#include <stdlib.h>
#include <string.h>
#include <sys/prctl.h>
#include <sys/socket.h>
#include <sys/wait.h>
#include <time.h>
#include <unistd.h>
#include "command.h"

enum { LINGER = 86400, SHOWN_LINGER = 3600 * 1000, NO_STORE = 69 };

struct session the = {.master = -1, .slave = -1, .listener = -1, .size = {VT220_ROWS, NARROW}, .is_vt220 = true};

static volatile sig_atomic_t has_child_ended, is_told_to_end, is_told_to_bind;

static void on_signal(int number) {
    if (number == SIGCHLD) has_child_ended = 1;
    else if (number == SIGUSR1) is_told_to_bind = 1;
    else is_told_to_end = 1;
}

/* --- the socket --- */

static void set_name(const char *name) {
    char title[NAME_LIMIT + 8];
    snprintf(the.name, sizeof the.name, "%s", name);
    snprintf(title, sizeof title, "keep:%s", name);
    prctl(PR_SET_NAME, title); /* its first 15 characters; `vt220-keep list` knows keepers by it */
}

/* Makes the socket again if it was removed. If another session has the name by now, this one gets a longer name. */
static void mend_socket(void) {
    char why[WHY_LIMIT], other[NAME_LIMIT + 1];
    struct folder folder;
    struct identity made;
    if (the.listener < 0 || !try_folder(the.folder.path, &folder, why)) return;
    int listener = -1;
    bool is_fine = is_own(folder.file, the.name, &the.socket);
    the.binds_at = !is_fine && is_locked(folder.file) ? now() + LOCK_PAUSE : 0;
    if (is_fine || the.binds_at != 0) {
        close(folder.file);
        return;
    }
    snprintf(other, sizeof other, "%.50s.%d", the.name, (int)the.command);
    listener = open_listener(folder.file, the.name, &made, why);
    if (listener < 0 && (listener = open_listener(folder.file, other, &made, why)) >= 0) set_name(other);
    if (listener < 0 || fchdir(folder.file) != 0) {
        close(folder.file);
        return;
    }
    close(the.listener);
    close(the.folder.file);
    the.listener = listener;
    the.folder.file = folder.file;
    the.socket = made;
}

bool rename_session(const char *name, char *why) {
    if (!try_lock(the.folder.file)) {
        snprintf(why, WHY_LIMIT, "another vt220-keep holds the lock of the directory");
        return false;
    }
    bool is_mine = is_own(the.folder.file, the.name, &the.socket);
    bool is_done = is_mine && is_free(the.folder.file, name, why) && renameat(the.folder.file, the.name, the.folder.file, name) == 0;
    unlock_folder(the.folder.file);
    if (!is_mine) snprintf(why, WHY_LIMIT, the.is_given_up ? "the session has ended" : "its socket was taken away; vt220-keep list has it made again");
    if (is_done) set_name(name);
    return is_done;
}

/* Ends the session of a command that has ended. The name is free before any client is informed. */
void give_up(void) {
    if (the.is_given_up) return;
    the.is_given_up = true;
    remove_own(the.folder.file, the.name, &the.socket);
    close(the.listener);
    the.listener = -1;
    answer_waiting();
}

/* A client has shown the end. If it was attached, the log stays for an hour, or until the name is used: the client showed the last screen alone. */
void end_was_shown(bool removes) {
    long long until = now() + SHOWN_LINGER;
    if (removes) the.is_seen = true;
    if (!the.is_shown && until < the.leave_at) the.leave_at = until;
    the.is_shown = true;
}

/* --- the loop --- */

static void look_for_end(void) {
    int status;
    has_child_ended = 0;
    if (the.is_over || waitpid(the.command, &status, WNOHANG) != the.command) return;
    drain_program();
    the.is_over = true;
    the.ending = (struct ending){.status = status, .time = time(NULL)};
    the.leave_at = now() + the.linger;
    tell_end();
    publish_end();
    if (the.kill_at != 0) the.is_seen = true; /* who ended it knows */
}

static void earlier(long long *until, long long time) {
    if (time < *until) *until = time;
}

/* Waits for an event up to a time; LLONG_MAX for any. */
static void wait_until(long long until, struct pollfd *polled, nfds_t count, const sigset_t *open_mask) {
    long long time = now(), rest = until <= time ? 0 : until - time;
    struct timespec timeout = {rest / 1000, rest % 1000 * 1000000};
    if (ppoll(polled, count, until == LLONG_MAX ? NULL : &timeout, open_mask) >= 0) return;
    for (nfds_t i = 0; i < count; i++) polled[i].revents = 0;
    if (errno != EINTR) is_told_to_end = has_child_ended = 2; /* it can't go on, and no signal will be seen */
}

enum { FIRST = 3 }; /* of the clients' places among what is waited for */

/* Waits for an event: of the listener, of the program, of the host daemon, and of each client that is here, in this order. */
static void wait_for_event(struct pollfd *polled, const size_t *place, const sigset_t *open_mask) {
    long long until = LLONG_MAX;
    nfds_t count = FIRST;
    bool is_resting = now() < the.listens_at;
    polled[0] = (struct pollfd){is_resting ? -1 : the.listener, POLLIN, 0};
    polled[1] = (struct pollfd){the.master, (short)((publish_has_room() ? POLLIN : 0) | (the.waiting > 0 ? POLLOUT : 0)), 0};
    polled[2] = publish_polled(&until);
    if (is_resting) earlier(&until, the.listens_at);
    if (the.binds_at != 0) earlier(&until, the.binds_at);
    if (the.kill_at != 0 && !the.is_over) earlier(&until, the.kill_at);
    if (the.is_over && !the.is_given_up && !publish_is_on()) earlier(&until, the.leave_at);
    for (size_t i = 0; i < CLIENT_LIMIT; i++) {
        struct client *c = the.clients[i];
        if (c == NULL) continue;
        polled[place[i]] = (struct pollfd){c->socket, (short)((hears(c) ? POLLIN : 0) | (waits_for_room(c) ? POLLOUT : 0)), 0};
        earlier(&until, next_time(c));
        count = place[i] + 1;
    }
    wait_until(until, polled, count, open_mask);
}

static void obey_signals(long long time) {
    if (has_child_ended) look_for_end();
    if (is_told_to_bind || (the.binds_at != 0 && time >= the.binds_at)) mend_socket();
    if (is_told_to_end == 2 && !the.is_over) kill(-the.command, SIGKILL);
    if (is_told_to_end) publish_leave();
    if (is_told_to_end && the.is_over && publish_is_done()) give_up();
    else if (is_told_to_end) hang_up();
    is_told_to_end = is_told_to_bind = 0;
    if (the.kill_at != 0 && time >= the.kill_at && !the.is_over) {
        kill(-the.command, SIGKILL);
        the.kill_at = time + KILL_AFTER;
    }
}

/* Reads from a client, and does what is due for it. A client that has to confirm the end is dropped when it has. */
static void attend(size_t i, short events, long long time) {
    struct client *c = the.clients[i];
    if (events & (POLLIN | POLLHUP | POLLERR)) hear(c);
    else if (c->in_len > 0) hear(c); /* keys for which there was no room */
    if (events & POLLERR || (events & POLLHUP && !hears(c))) c->deadline = 0;
    if (c->deadline > 0) serve(c, time);
}

static bool is_done(const struct client *c, long long time) {
    bool is_served = c->state == LEAVING && is_sent(c) && (c->awaits_seen == SEEN_BY_NONE || the.is_seen || the.is_shown);
    return c->deadline <= time || is_served;
}

static void turn(const sigset_t *open_mask) {
    struct pollfd polled[FIRST + CLIENT_LIMIT];
    size_t place[CLIENT_LIMIT], count = FIRST;
    for (size_t i = 0; i < CLIENT_LIMIT; i++) place[i] = the.clients[i] != NULL ? count++ : 0;
    wait_for_event(polled, place, open_mask);
    if (polled[1].revents & POLLOUT) write_program();
    if (polled[1].revents & (POLLIN | POLLHUP | POLLERR)) read_program();
    long long time = now();
    obey_signals(time);
    publish_turn(polled[2].revents, time);
    for (size_t i = 0; i < CLIENT_LIMIT; i++) {
        if (place[i] != 0) attend(i, polled[place[i]].revents, time);
    }
    bool may_leave = publish_is_on() ? publish_is_done() : the.is_seen || time >= the.leave_at;
    if (the.is_over && may_leave) give_up();
    for (size_t i = 0; i < CLIENT_LIMIT; i++) {
        if (place[i] != 0 && is_done(the.clients[i], time)) let_go(i);
    }
    follow_windows();
    if (the.listener >= 0 && polled[0].revents & POLLIN) let_in(time);
}

/* --- the start --- */

/* These signals come in ppoll alone. Every other one that would end a keeper and that can be ignored is. */
static void hold_signals(void) {
    static const int caught[] = {SIGCHLD, SIGTERM, SIGHUP, SIGINT, SIGQUIT, SIGUSR1};
    static const int ignored[] = {SIGPIPE, SIGUSR2, SIGALRM,   SIGVTALRM, SIGPROF, SIGXCPU, SIGXFSZ,
                                  SIGIO,   SIGPWR,  SIGSTKFLT, SIGTSTP,   SIGTTIN, SIGTTOU};
    struct sigaction action = {.sa_handler = on_signal};
    sigset_t held;
    sigemptyset(&held);
    for (size_t i = 0; i < sizeof caught / sizeof *caught; i++) {
        sigaddset(&held, caught[i]);
        sigaction(caught[i], &action, NULL);
    }
    for (size_t i = 0; i < sizeof ignored / sizeof *ignored; i++) signal(ignored[i], SIG_IGN);
    sigprocmask(SIG_SETMASK, &held, NULL);
}

/* Writes the command and its arguments in one line, without control characters. */
static void set_title(char **command) {
    size_t len = 0;
    for (; *command != NULL; command++) {
        for (const char *at = *command; *at != 0 && len < sizeof the.title - 2; at++) {
            the.title[len++] = (uint8_t)*at >= ' ' && *at != 0x7F ? *at : '?'; /* `list` looks at the others */
        }
        if (command[1] != NULL && len < sizeof the.title - 2) the.title[len++] = ' ';
    }
}

/* Returns how many milliseconds the last screen is kept if the command ends while nobody is attached; -1 if KEEP_LINGER is wrong. */
static long long linger(void) {
    const char *named = getenv("KEEP_LINGER");
    char *end;
    if (named == NULL || *named == 0) return LINGER * 1000LL;
    long long seconds = strtoll(named, &end, 10);
    return *end != 0 || seconds < 0 || seconds > 366LL * LINGER ? -1 : seconds * 1000;
}

struct report {
    int status;
    char why[WHY_LIMIT];
};

/* Opens the terminals for a language, in the session's size. Closes those that are open. Returns false if allocation fails. */
bool open_terminals(uint32_t language) {
    the.language = language;
    vt220_close(&the.terminal);
    vt220_close(&the.settled);
    return open_like(&the.terminal, language) && open_like(&the.settled, language) && vt220_scratch_fit(&the.scratch, &the.terminal) == VT220_OK;
}

/* Opens everything that a keeper needs, and runs the command. Returns false if that fails. */
static bool begin(const struct beginning *beginning, struct report *report) {
    set_name(beginning->name);
    set_title(beginning->command);
    the.linger = linger();
    the.began = time(NULL);
    report->status = the.linger < 0 ? 2 : 1;
    if (the.linger < 0) snprintf(report->why, WHY_LIMIT, "KEEP_LINGER='%.100s': give a number of seconds, at most a year", getenv("KEEP_LINGER"));
    if (the.linger < 0) return false;
    the.listener = open_listener(the.folder.file, the.name, &the.socket, report->why);
    if (the.listener < 0) return false;
    set_size(beginning->size);
    the.is_fixed = beginning->is_fixed;
    bool is_open = open_terminals(beginning->language);
    if (!is_open) snprintf(report->why, WHY_LIMIT, "out of memory");
    if (is_open && run_command(beginning, report->why, &report->status)) return true;
    remove_own(the.folder.file, the.name, &the.socket);
    return false;
}

static noreturn void go_on(void) {
    sigset_t open_mask;
    sigemptyset(&open_mask);
    while (!the.is_given_up || has_clients() || !publish_is_done()) turn(&open_mask);
    exit(publish_is_on() ? publish_status() : 0);
}

static noreturn void keep(const struct beginning *beginning, int told) {
    struct report report = {0};
    setsid();
    hold_signals();
    if (!begin(beginning, &report)) {
        if (write(told, &report, sizeof report) < 0) _exit(2);
        _exit(1);
    }
    close(told);
    int null = open("/dev/null", O_RDWR | O_CLOEXEC);
    for (int i = 0; i < 3 && null >= 0; i++) dup2(null, i);
    if (null > 2) close(null);
    if (fchdir(the.folder.file) != 0) is_told_to_end = 1; /* by its working directory `vt220-keep list` knows it */
    settle();
    go_on();
}

/* Waits until the daemon has named the session. Returns false if there is none, it refuses, or this process is told to end. */
static bool is_named(void) {
    sigset_t open_mask;
    sigemptyset(&open_mask);
    int beginning = publish_beginning();
    while (beginning == 0 && !is_told_to_end) {
        long long until = LLONG_MAX;
        struct pollfd polled = publish_polled(&until);
        wait_until(until, &polled, 1, &open_mask);
        publish_turn(polled.revents, now());
        beginning = publish_beginning();
    }
    return beginning > 0 && !is_told_to_end;
}

/* Returns a name for the socket of a session that has any name in the store. */
static const char *local_name(const char *stored) {
    static char name[NAME_LIMIT + 1];
    char why[WHY_LIMIT];
    size_t len = 0;
    for (; *stored != 0 && len < NAME_LIMIT - 14; stored++) {
        bool is_fit = is_name((char[]){'n', *stored, 0});
        if (is_fit || ((uint8_t)*stored & 0xC0) != 0x80) name[len++] = is_fit ? *stored : '_';
    }
    name[len] = 0;
    if (!is_name(name)) name[0] = '_';
    if (!is_free(the.folder.file, name, why)) snprintf(name + len, sizeof name - len, ".%d", (int)getpid());
    return name;
}

noreturn void publish_session(const struct folder *folder, const struct publication *wanted, struct beginning *beginning) {
    struct report report = {0};
    the.folder = *folder;
    hold_signals();
    publish_begin(wanted, beginning);
    if (!is_named()) exit(publish_status() != 0 ? publish_status() : NO_STORE);
    beginning->name = local_name(wanted->name);
    if (!begin(beginning, &report)) {
        if (report.status != COMMAND_NOT_FOUND && report.status != COMMAND_NO_RUN) fail(report.status, "%s", report.why);
        publish_bytes((const uint8_t *)report.why, strlen(report.why));
        publish_bytes((const uint8_t *)"\r\n", 2);
        the.is_over = true;
        the.ending.status = report.status << 8;
        publish_end();
    }
    if (fchdir(the.folder.file) != 0) is_told_to_end = 1;
    if (!the.is_over) settle();
    go_on();
}

noreturn void resume_session(int state, int told) {
    char why[WHY_LIMIT] = "", name[NAME_LIMIT + 1];
    bool is_fine = take_over(state, why);
    if (told >= 0) report_fit(told, is_fine, why);
    if (!is_fine) fail(1, "%s", why);
    if (told >= 0) exit(0);
    memcpy(name, the.name, sizeof name);
    set_name(name);
    hold_signals();
    look_for_end();
    go_on();
}

void start_session(const struct folder *folder, const struct beginning *beginning) {
    struct report report = {0};
    int pipes[2];
    size_t len = 0;
    the.folder = *folder;
    if (pipe2(pipes, O_CLOEXEC) != 0) fail(1, "cannot create a pipe: %s", strerror(errno));
    pid_t child = fork();
    if (child < 0) fail(1, "cannot start a process: %s", strerror(errno));
    if (child == 0) {
        close(pipes[0]);
        keep(beginning, pipes[1]);
    }
    close(pipes[1]);
    for (ssize_t n = 1; n != 0 && len < sizeof report;) {
        n = read(pipes[0], (char *)&report + len, sizeof report - len);
        if (n > 0) len += (size_t)n;
        if (n < 0 && errno != EINTR) n = 0;
    }
    close(pipes[0]);
    if (len == sizeof report) {
        waitpid(child, NULL, 0);
        fail(report.status, "%s", report.why);
    }
}
