/* Finds the sessions: by their sockets, and, if a socket was taken away, by their keepers.
 *
 * A keeper's working directory is that of its socket, so /proc shows which processes keep sessions here. It makes its
 * socket again on SIGUSR1. That signal ends a process that doesn't handle it, so it goes only to one that certainly is a
 * keeper: it is this user's, its name begins with "keep:", it is in that directory, and it catches SIGUSR1. */
#include "keep.h"
#include <ctype.h>
#include <dirent.h>
#include <errno.h>
#include <fcntl.h>
#include <limits.h>
#include <signal.h>
#include <stdio.h>
#include <stdlib.h>
#include <string.h>
#include <sys/stat.h>
#include <sys/syscall.h>
#include <time.h>
#include <unistd.h>

enum { REBIND_PATIENCE = 1000, FIELDS = 9 };

/* --- keepers --- */

static size_t read_file(pid_t pid, const char *name, char *to, size_t room) {
    char path[64];
    snprintf(path, sizeof path, "/proc/%d/%s", (int)pid, name);
    int file = open(path, O_RDONLY | O_CLOEXEC);
    ssize_t len = file < 0 ? 0 : read(file, to, room - 1);
    if (file >= 0) close(file);
    to[len < 0 ? 0 : len] = 0;
    return len < 0 ? 0 : (size_t)len;
}

/* Returns whether the working directory of a process is this one, or a removed one with the same path. */
static bool is_inside(pid_t pid, const struct folder *folder) {
    char path[64], own[64], there[PATH_MAX + 16], here[PATH_MAX + 16];
    struct stat his, mine;
    snprintf(path, sizeof path, "/proc/%d/cwd", (int)pid);
    if (stat(path, &his) == 0 && fstat(folder->file, &mine) == 0 && his.st_dev == mine.st_dev && his.st_ino == mine.st_ino) return true;
    snprintf(own, sizeof own, "/proc/self/fd/%d", folder->file);
    ssize_t there_len = readlink(path, there, sizeof there), here_len = readlink(own, here, sizeof here);
    static const char gone[] = " (deleted)";
    bool is_longer = here_len > 0 && there_len == here_len + (ssize_t)sizeof gone - 1;
    return is_longer && memcmp(there, here, (size_t)here_len) == 0 && memcmp(there + here_len, gone, sizeof gone - 1) == 0;
}

static bool is_keeper(pid_t pid, const struct folder *folder) {
    char text[4096], path[64];
    struct stat it;
    unsigned long long caught = 0;
    snprintf(path, sizeof path, "/proc/%d", (int)pid);
    if (stat(path, &it) != 0 || it.st_uid != geteuid()) return false;
    if (read_file(pid, "comm", text, sizeof text) == 0 || strncmp(text, "keep:", 5) != 0) return false;
    if (!is_inside(pid, folder) || read_file(pid, "status", text, sizeof text) == 0) return false;
    const char *at = strstr(text, "\nSigCgt:");
    if (at != NULL) caught = strtoull(at + 8, NULL, 16);
    return caught >> (SIGUSR1 - 1) & 1;
}

/* Opens a process, so that its number can't become another's. (The C library has a call for this since version 2.36.) */
static int open_process(pid_t pid) {
    return (int)syscall(SYS_pidfd_open, pid, 0);
}

/* Counts the keepers of this directory. If wanted, signals each to check its socket. */
static size_t keepers(const struct folder *folder, bool is_told) {
    size_t count = 0;
    DIR *processes = opendir("/proc");
    if (processes == NULL) return 0;
    for (struct dirent *it; (it = readdir(processes)) != NULL;) {
        pid_t pid = isdigit((unsigned char)*it->d_name) ? (pid_t)atol(it->d_name) : 0;
        if (pid <= 0) continue;
        int process = open_process(pid);
        if (process >= 0 && is_keeper(pid, folder)) {
            count++;
            if (is_told) syscall(SYS_pidfd_send_signal, process, SIGUSR1, NULL, 0);
        }
        if (process >= 0) close(process);
    }
    closedir(processes);
    return count;
}

/* --- sockets --- */

static int is_session(const struct dirent *it) {
    return is_name(it->d_name);
}

static size_t session_names(int folder, struct dirent ***names) {
    int count = scandirat(folder, ".", names, is_session, alphasort);
    if (count < 0) fail(1, "cannot read the directory of the sockets: %s", strerror(errno));
    return (size_t)count;
}

static bool is_socket(int folder, const char *name) {
    struct stat it;
    return fstatat(folder, name, &it, AT_SYMLINK_NOFOLLOW) == 0 && S_ISSOCK(it.st_mode) && it.st_uid == geteuid();
}

static size_t sockets(int folder) {
    struct dirent **names;
    size_t count = 0, all = session_names(folder, &names);
    for (size_t i = 0; i < all; free(names[i++])) count += is_socket(folder, names[i]->d_name) && is_listening(folder, names[i]->d_name);
    free(names);
    return count;
}

/* Signals keepers to make their sockets again if these were removed. Returns whether there may be any. */
bool call_keepers(const struct folder *folder) {
    struct timespec pause = {0, 10000000};
    size_t wanted = keepers(folder, false);
    if (wanted <= sockets(folder->file)) return false;
    keepers(folder, true);
    for (long long end = now() + REBIND_PATIENCE; now() < end && sockets(folder->file) < wanted;) nanosleep(&pause, NULL);
    return true;
}

int existing(const struct folder *folder, const char *name) {
    if (!is_name(name)) {
        fail(2, "invalid session name '%s': use 1-%d letters, digits, '.', '_' or '-', not starting with '.' or '-'", name, NAME_LIMIT);
    }
    int socket = connect_to(folder->file, name), error = errno;
    if (socket < 0 && error == ENOENT && call_keepers(folder)) {
        socket = connect_to(folder->file, name);
        error = errno;
    }
    if (socket < 0 && error == ECONNREFUSED) fail(1, "no such session: %s (its keeper was killed)", name);
    if (socket < 0 && error == ENOENT) fail(1, "no such session: %s", name);
    if (socket < 0) fail(1, "%s: %s", name, error == EAGAIN ? "doesn't answer" : error == ENOTSOCK ? "isn't a session" : strerror(error));
    return socket;
}

/* --- the list --- */

static const char *day_and_time(const char *seconds, char *to, size_t room) {
    time_t when = (time_t)atoll(seconds);
    struct tm parts;
    if (localtime_r(&when, &parts) == NULL || strftime(to, room, "%Y-%m-%d %H:%M", &parts) == 0) snprintf(to, room, "-");
    return to;
}

/* A keeper's line: state, rows, columns, clients, process, start, end, exit status, words, encoding, terminal; with tabs between them. A list
 * for the eye doesn't have the last two. */
static void show(const char *name, char *line, bool is_for_scripts) {
    char *field[FIELDS], began[32], ended[32], state[80];
    if (is_for_scripts) {
        printf("%s\t%s\n", name, line);
        return;
    }
    for (size_t i = 0; i < FIELDS; i++) field[i] = line != NULL ? strsep(&line, "\t") : "-";
    if (strcmp(field[0], "ended") == 0) {
        snprintf(state, sizeof state, "ended with status %.8s, %s", field[7], day_and_time(field[6], ended, sizeof ended));
    } else {
        snprintf(state, sizeof state, "%3.3sx%-3.3s  %.4s attached  %.10s", field[2], field[1], field[3], field[4]);
    }
    printf("%-15s %s  %s  %s\n", name, state, day_and_time(field[5], began, sizeof began), field[8]);
}

static void show_fault(const char *name, const char *why, bool is_for_scripts) {
    if (is_for_scripts) printf("%s\tsilent\t-\t-\t-\t-\t-\t-\t-\t%s\n", name, why);
    else printf("%-15s %s\n", name, why);
}

/* Replaces each byte by ? that is neither a tab nor of a character of UTF-8, and each control character. */
static void mask(uint8_t *line, size_t len) {
    for (size_t at = 0, n; at < len; at += n) {
        uint8_t first = line[at];
        n = first < 0x80 ? 1 : keys_length(line + at, len - at);
        bool is_ascii = first == '\t' || (first >= ' ' && first <= '~'), is_control = first == 0xC2 && n == 2 && line[at + 1] < 0xA0;
        if (n == 0) n = 1;
        if (!is_ascii && (n == 1 || is_control)) memset(line + at, '?', n);
    }
}

static void ask(int socket, const char *name, bool is_for_scripts) {
    static uint8_t line[FRAME_LIMIT + 1];
    char letter, why[WHY_LIMIT] = "doesn't answer";
    struct hello hello;
    size_t len;
    int result = wire_begin(socket, ASK_LIST, 0, &hello, why);
    if (result == WIRE_OK && hello.is_shown) return; /* it has ended, and somebody knows */
    if (result == WIRE_OK && wire_receive(socket, &letter, line, FRAME_LIMIT, &len) && letter == FRAME_ANSWER) {
        line[len] = 0;
        mask(line, len);
        show(name, (char *)line, is_for_scripts);
    } else {
        show_fault(name, result == WIRE_FULL ? "takes no more clients" : why, is_for_scripts);
    }
}

static void list_one(int folder, const char *name, bool is_for_scripts) {
    char why[WHY_LIMIT];
    int socket = connect_to(folder, name), error = errno;
    if (socket >= 0) {
        ask(socket, name, is_for_scripts);
        close(socket);
    } else if (error == ECONNREFUSED && lock_folder(folder)) {
        is_free(folder, name, why);
        unlock_folder(folder);
    } else if (error != ENOENT && error != ECONNREFUSED) {
        show_fault(name, error == EAGAIN ? "doesn't answer" : strerror(error), is_for_scripts);
    }
}

/* No lock is held here while a keeper is asked or a line is printed, which both may take long. */
void list_sessions(const struct folder *folder, bool is_for_scripts) {
    struct dirent **names;
    call_keepers(folder);
    size_t count = session_names(folder->file, &names);
    for (size_t i = 0; i < count; free(names[i++])) {
        if (is_socket(folder->file, names[i]->d_name)) list_one(folder->file, names[i]->d_name, is_for_scripts);
    }
    free(names);
}
