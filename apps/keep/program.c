/* The keeper's side of the program: its pseudo-terminal, and the terminal that plays what it writes. */
#include "session.h"
#include "command.h"
#include <errno.h>
#include <signal.h>
#include <stdio.h>
#include <stdlib.h>
#include <string.h>
#include <sys/ioctl.h>
#include <unistd.h>

enum {
    LINES_ROOM = PIECE * VT220_ROW_TEXT_LIMIT /* more than vt220_feed_log needs at any size to go on */
};

/* --- what goes to the program --- */

/* Adds keys or reports to one queue, in the order in which they came. Each kind has a separate limit: a program that asks without
 * end and never reads can't block the keys, nor a paste the reports. Returns false if the limit doesn't allow all of them. */
bool add_input(const uint8_t *bytes, size_t len, bool is_report) {
    size_t *count = is_report ? &the.reports : &the.keys;
    if (*count + len > INPUT_LIMIT) return false;
    memcpy(the.input + the.waiting, bytes, len);
    memset(the.is_report + the.waiting, is_report, len);
    the.waiting += len;
    *count += len;
    return true;
}

void write_program(void) {
    ssize_t n = write(the.master, the.input, the.waiting);
    if (n <= 0) return;
    for (ssize_t i = 0; i < n; i++) --*(the.is_report[i] ? &the.reports : &the.keys);
    the.waiting -= (size_t)n;
    memmove(the.input, the.input + n, the.waiting);
    memmove(the.is_report, the.is_report + n, the.waiting);
}

/* --- what comes from the program --- */

/* Sets the window of the pseudo-terminal to the terminal's size. */
void set_line_size(void) {
    the.width = vt220_width(&the.terminal);
    struct winsize size = {.ws_row = (unsigned short)vt220_rows(&the.terminal), .ws_col = (unsigned short)the.width};
    ioctl(the.master, TIOCSWINSZ, &size);
}

/* Copies the terminal to `settled` if it is between sequences, and tells the program its width if DECCOLM has changed it. Returns whether it
 * is between sequences. */
bool settle(void) {
    bool is_between = vt220_is_between(&the.terminal);
    if (is_between) {
        if (!vt220_same_state(&the.settled, &the.terminal)) the.changes++;
        vt220_copy(&the.settled, &the.terminal);
        the.since_len = 0;
        publish_settled();
    }
    if (the.width != vt220_width(&the.terminal)) set_line_size();
    return is_between;
}

/* Remembers what was played since `settled`. If that is long, its middle is left out: the terminal keeps nothing of it if it is that of a
 * control string. */
void remember(const uint8_t *bytes, size_t len) {
    for (size_t n; len > 0; bytes += n, len -= n) {
        if (the.since_len == SINCE_LIMIT) {
            memcpy(the.since + SINCE_ENDS, the.since + SINCE_LIMIT - SINCE_ENDS, SINCE_ENDS);
            the.since_len = 2 * SINCE_ENDS;
        }
        n = len < SINCE_LIMIT - the.since_len ? len : SINCE_LIMIT - the.since_len;
        memcpy(the.since + the.since_len, bytes, n);
        the.since_len += n;
    }
}

/* Plays bytes of the program, sends the reports, and keeps the lines that scroll off. If the queue is full, all reports of a chunk are
 * dropped, since a program that asks and never reads must not stop its own screen. */
static void feed(const uint8_t *bytes, size_t len) {
    static uint8_t reports[PIECE * VT220_REPORT_LIMIT], lines[LINES_ROOM];
    for (size_t n = 1, written, lines_written; len > 0 && n > 0; bytes += n, len -= n) {
        n = vt220_feed_log(&the.terminal, &the.scratch, bytes, len, reports, sizeof reports, &written, lines, sizeof lines, &lines_written);
        add_input(reports, written, true);
        log_append(lines, lines_written);
    }
}

/* Plays a chunk. A BEL rings if the terminal carries it out, which it does except inside a control string. One ring for a
 * chunk is enough. A chunk without BEL costs only the search for it. */
static void play(const uint8_t *bytes, size_t len) {
    bool has_rung = false;
    for (size_t at = 0; at < len;) {
        const uint8_t *bell = has_rung ? NULL : memchr(bytes + at, 7, len - at);
        size_t end = bell != NULL ? (size_t)(bell - bytes) : len;
        feed(bytes + at, end - at);
        if (bell == NULL) break;
        has_rung = vt220_held_kind(&the.terminal) != VT220_HELD_STRING;
        feed(bell, 1);
        at = end + 1;
    }
    if (has_rung) ring_clients();
    publish_bytes(bytes, len);
    if (!settle()) remember(bytes, len);
}

/* Returns whether a byte begins a sequence: ESC, DCS, SOS, CSI, OSC, PM, APC. In UTF-8 all but ESC have two bytes, the first of which
 * is C2. */
static bool is_introducer(uint8_t byte) {
    if (the.language != VT220_BYTES) return byte == 0x1B || byte == 0xC2;
    return byte == 0x1B || byte == 0x90 || byte == 0x98 || byte == 0x9B || (byte >= 0x9D && byte <= 0x9F);
}

/* Plays a chunk of what the program writes. The last sequence, which may be unfinished, is played separately. Returns false if
 * there is no chunk. */
bool read_program(void) {
    static uint8_t piece[PIECE];
    ssize_t n = read(the.master, piece, sizeof piece);
    if (n <= 0) return false;
    size_t len = (size_t)n, cut = len;
    while (cut > 0 && !is_introducer(piece[cut - 1])) cut--;
    if (cut > 0) cut--;
    if (cut > 0) play(piece, cut);
    play(piece + cut, len - cut);
    return true;
}

/* Plays the last bytes of a command that has ended. Hangs up other processes that still have its pseudo-terminal open. */
void drain_program(void) {
    for (int i = 0; i < DRAIN_LIMIT && read_program(); i++) {}
    close(the.master);
    close(the.slave);
    the.master = the.slave = -1;
}

/* --- the command --- */

/* Sets the environment to the command's terminal, and removes that of the terminal on which `vt220-keep new` ran. If the terminal doesn't
 * read UTF-8, the C locale is needed: many bytes of UTF-8 are control characters there, and one can hide all that follows. */
static void set_environment(const void *of) {
    const struct beginning *beginning = of;
    static const char *const others[] = {
        "ABDUCO_SESSION", "ABDUCO_SOCKET", "ALACRITTY_LOG", "ALACRITTY_SOCKET", "ALACRITTY_WINDOW_ID", "COLORFGBG", "COLORTERM", "COLUMNS",
        "GNOME_TERMINAL_SCREEN", "GNOME_TERMINAL_SERVICE", "INSIDE_EMACS", "ITERM_PROFILE", "ITERM_SESSION_ID", "KITTY_PID",
        "KITTY_WINDOW_ID", "KONSOLE_DBUS_SERVICE", "KONSOLE_DBUS_SESSION", "KONSOLE_VERSION", "LC_TERMINAL", "LC_TERMINAL_VERSION",
        "LINES", "STY", "TERMCAP", "TERMINFO", "TERM_PROGRAM", "TERM_PROGRAM_VERSION", "TERM_SESSION_ID", "TMUX", "TMUX_PANE",
        "VTE_VERSION", "WEZTERM_PANE", "WINDOW", "WINDOWID", "XTERM_LOCALE", "XTERM_SHELL", "XTERM_VERSION", "ZELLIJ"};
    for (size_t i = 0; i < sizeof others / sizeof *others; i++) unsetenv(others[i]);
    setenv("TERM", beginning->language == VT220_XTERM ? "xterm-256color" : "vt220", 1);
    setenv("KEEP_SESSION", the.name, 1);
    setenv("KEEP_ENCODING", encoding_name(beginning->language), 1);
    const char *locale = beginning->locale != NULL ? beginning->locale : beginning->language != VT220_BYTES ? "" : "C";
    if (*locale != 0) setenv("LC_ALL", locale, 1);
}

/* Runs the command on a new pseudo-terminal. The keeper keeps the other side open as well, so that it never looks closed while the
 * command runs. Returns true when the command runs. Returns false if it can't be run: *status is then that of env(1). */
bool run_command(const struct beginning *beginning, char *why, int *status) {
    struct line line;
    the.width = beginning->size.columns;
    const struct winsize size = {.ws_row = beginning->size.rows, .ws_col = beginning->size.columns};
    int error = start_command(&line, beginning->command, &size, beginning->language != VT220_BYTES ? IUTF8 : 0, set_environment, beginning, status);
    if (error == 0) the.master = line.master, the.slave = line.slave, the.command = line.command;
    else if (*status == COMMAND_REFUSED) snprintf(why, WHY_LIMIT, "cannot open a pseudo-terminal: %s", strerror(error));
    else snprintf(why, WHY_LIMIT, "%.200s: %s", beginning->command[0], strerror(error));
    return error == 0;
}

/* Sends SIGHUP to the command. Processes that don't end are killed some time later. */
void hang_up(void) {
    if (the.is_over || the.kill_at != 0) return;
    the.kill_at = now() + KILL_AFTER;
    kill(-the.command, SIGHUP);
    kill(-the.command, SIGCONT);
}
