/* A client: plays what the keeper sends on its own emulated terminal, which then equals the keeper's. It draws that on the terminal
 * in which it runs, and sends the keys that are typed there. */
#include "keep.h"
#include "outer.h"
#include <errno.h>
#include <poll.h>
#include <signal.h>
#include <stdio.h>
#include <stdlib.h>
#include <string.h>
#include <sys/socket.h>
#include <sys/wait.h>
#include <time.h>
#include <unistd.h>

enum {
    TYPED_LIMIT = 1 << 20, /* the most bytes that wait here while the program reads nothing */
    TWICE = 300,           /* milliseconds in which the key that detaches may be pressed again */
    KEY_PATIENCE = 50      /* milliseconds until the rest of a function key must have come */
};

static struct {
    int socket;
    vt220 terminal;
    uint8_t frames[2 * (FRAME_HEAD + FRAME_LIMIT)]; /* what came and isn't played */
    size_t frames_len;
    uint8_t typed[TYPED_LIMIT + KEYS_GROWTH * KEYS_LIMIT]; /* keys that aren't sent */
    size_t typed_at, typed_len;
    uint8_t frame[FRAME_HEAD + KEYS_LIMIT]; /* the frame of keys that is being sent */
    size_t frame_at, frame_len;
    struct keys keys;
    uint8_t detach;        /* the key that detaches */
    long long pressed;     /* when it was pressed; 0 if it wasn't */
    long long held;        /* since when the beginning of a key waits for its end */
    bool is_read_only;
    uint8_t version;       /* of the protocol */
    bool asks;             /* the log is to be asked for */
    struct window window;  /* that the keeper was told last */
    bool has_window;       /* the keeper is to be told the window */
    bool is_behind;        /* whether there is something new to draw */
    char why;              /* the frame that ended it; 'k' for the key, 's' for a signal, 'm' if out of memory, '?' if the
                            * keeper is gone; 0 as long as it goes on */
    struct ending ending;
} it;

/* --- keys --- */

/* Asks for the log, if the keeper has one. */
static void scroll(void) {
    it.keys.scrolls = false;
    if (it.version < PROTOCOL_LOG) it.keys.rings = true;
    else it.asks = true;
}

static void type(const uint8_t *bytes, size_t len) {
    if (scroll_is_on() && len > 0) {
        size_t taken = scroll_type(bytes, len);
        it.is_behind = true;
        bytes += taken;
        len -= taken;
    }
    if (len == 0) return;
    size_t put = keys_translate(&it.keys, &it.terminal, bytes, len, it.typed + it.typed_len);
    it.held = it.keys.held_len > 0 ? now() : 0;
    if (it.keys.scrolls) scroll();
    if (!it.is_read_only) it.typed_len += put;
    if (it.keys.rings && !it.is_read_only) {
        draw_bell();
        it.is_behind = true;
    }
    it.keys.rings = false;
}

/* The detach key detaches when another key follows, or none for some time. Pressed twice, it is sent once. */
static void take_typed(const uint8_t *bytes, size_t len) {
    while (len > 0 && it.why == 0) {
        if (it.pressed != 0 && *bytes != it.detach) {
            it.why = 'k';
        } else if (it.pressed != 0) {
            it.pressed = 0;
            type(bytes++, 1);
            len--;
        } else {
            const uint8_t *key = memchr(bytes, it.detach, len);
            size_t n = key != NULL ? (size_t)(key - bytes) : len;
            type(bytes, n);
            if (key != NULL) it.pressed = now();
            n += key != NULL;
            bytes += n;
            len -= n;
        }
    }
}

static bool has_room(void) {
    if (it.typed_at > 0) {
        it.typed_len -= it.typed_at;
        memmove(it.typed, it.typed + it.typed_at, it.typed_len);
        it.typed_at = 0;
    }
    return it.typed_len < TYPED_LIMIT - KEYS_GROWTH * sizeof it.keys.held;
}

static void read_keys(void) {
    uint8_t bytes[KEYS_LIMIT];
    ssize_t n = read(STDIN_FILENO, bytes, sizeof bytes);
    if (n < 0 && (errno == EINTR || errno == EAGAIN)) return;
    if (n <= 0) it.why = 's'; /* the outer terminal has closed */
    else take_typed(bytes, (size_t)n);
}

static bool has_keys(void) {
    return it.frame_at < it.frame_len || it.typed_at < it.typed_len || it.asks || it.has_window;
}

static void put_frame(char letter, const void *bytes, uint32_t len) {
    it.frame[0] = (uint8_t)letter;
    memcpy(it.frame + 1, &len, sizeof len);
    memcpy(it.frame + FRAME_HEAD, bytes, len);
    it.frame_at = 0;
    it.frame_len = FRAME_HEAD + len;
}

static struct window window_here(void) {
    size_t rows, columns;
    outer_size(&rows, &columns);
    return (struct window){(uint16_t)rows, (uint16_t)columns}; /* as the line has them */
}

/* Has the keeper told the window, if it isn't the one that the keeper was told last. */
static void look_at_window(void) {
    struct window window = window_here();
    it.has_window = it.version >= PROTOCOL_SIZE && memcmp(&window, &it.window, sizeof window) != 0;
}

static void begin_frame(void) {
    if (it.has_window) {
        it.window = window_here();
        put_frame(FRAME_WINDOW, &it.window, sizeof it.window);
        it.has_window = false;
    } else if (it.asks) {
        put_frame(FRAME_LOG, "", 0);
        it.asks = false;
        scroll_wait();
    } else {
        uint32_t len = it.typed_len - it.typed_at < KEYS_LIMIT ? (uint32_t)(it.typed_len - it.typed_at) : KEYS_LIMIT;
        put_frame(FRAME_KEYS, it.typed + it.typed_at, len);
        it.typed_at += len;
    }
}

/* Sends keys. Those that the keeper can't read now wait here. If the keeper has ended, the next read shows it. */
static void send_keys(void) {
    while (has_keys()) {
        if (it.frame_at == it.frame_len) begin_frame();
        ssize_t n = send(it.socket, it.frame + it.frame_at, it.frame_len - it.frame_at, MSG_NOSIGNAL | MSG_DONTWAIT);
        if (n < 0 && errno == EINTR) continue;
        if (n < 0 && errno == EAGAIN) return;
        if (n < 0) it.typed_at = it.typed_len, it.asks = it.has_window = false;
        it.frame_at = n < 0 ? it.frame_len : it.frame_at + (size_t)n;
    }
}

/* --- frames --- */

/* Gives the terminal the session's size. A repaint follows, so what is shown until then doesn't matter. */
static void take_size(const uint8_t *bytes, size_t len) {
    struct window size = {0};
    if (len == sizeof size) memcpy(&size, bytes, len);
    uint32_t status = vt220_resize(&it.terminal, size.rows, size.columns);
    if (status != VT220_OK) it.why = status == VT220_MEMORY ? 'm' : '?';
}

static void take_frame(char letter, const uint8_t *bytes, size_t len) {
    if (letter == FRAME_SIZE) {
        take_size(bytes, len);
    } else if (letter == FRAME_PLAY) {
        vt220_feed(&it.terminal, bytes, len, NULL, 0, NULL);
        it.is_behind = true;
    } else if (letter == FRAME_BELL) {
        draw_bell();
        it.is_behind = true;
    } else if (letter == FRAME_PASTE) {
        draw_brackets(len == 1 && *bytes == 1);
        it.is_behind = true;
    } else if (letter == FRAME_SCREEN || letter == FRAME_LINES || letter == FRAME_LOGGED) {
        scroll_take(letter, bytes, len);
        it.is_behind = true;
    } else {
        if (letter == FRAME_ENDED && len == sizeof it.ending) memcpy(&it.ending, bytes, len);
        it.why = letter == FRAME_ENDED || letter == FRAME_DETACHED || letter == FRAME_FULL ? letter : '?';
    }
}

/* Handles the whole frames that came. */
static void take_frames(void) {
    size_t at = 0;
    while (it.why == 0 && it.frames_len - at >= FRAME_HEAD) {
        uint8_t *frame = it.frames + at;
        uint32_t len;
        memcpy(&len, frame + 1, sizeof len);
        if (len > FRAME_LIMIT) it.why = '?';
        if (len > FRAME_LIMIT || it.frames_len - at - FRAME_HEAD < len) break;
        take_frame((char)*frame, frame + FRAME_HEAD, len);
        at += FRAME_HEAD + len;
    }
    it.frames_len -= at;
    memmove(it.frames, it.frames + at, it.frames_len);
}

static void read_frames(int flags) {
    ssize_t n = recv(it.socket, it.frames + it.frames_len, sizeof it.frames - it.frames_len, flags);
    if (n < 0 && (errno == EINTR || (errno == EAGAIN && flags != 0))) return;
    if (n <= 0) {
        it.why = '?';
        return;
    }
    it.frames_len += (size_t)n;
    take_frames();
}

/* --- the loop --- */

static void take_terminal(void) {
    if (!draw_enter()) it.why = 'm';
    it.is_behind = true;
}

/* Runs the pager in a separate process, with the log as its input. */
static noreturn void become_pager(int log) {
    const char *pager = getenv("PAGER");
    sigset_t none;
    sigemptyset(&none);
    for (int number = 1; number < NSIG; number++) signal(number, SIG_DFL);
    sigprocmask(SIG_SETMASK, &none, NULL);
    if (dup2(log, STDIN_FILENO) < 0) _exit(126);
    execl("/bin/sh", "sh", "-c", pager != NULL && *pager != 0 ? pager : "less", (char *)NULL);
    _exit(127);
}

/* Shows the log in a pager, which can search it. Meanwhile Ctrl-C is the pager's. A pager that is stopped goes on at once, since nobody
 * else reads the keyboard. */
static void page_log(void) {
    size_t len;
    const uint8_t *log = scroll_log(&len);
    FILE *file = tmpfile();
    int status;
    if (file == NULL || fwrite(log, 1, len, file) != len || fflush(file) != 0 || lseek(fileno(file), 0, SEEK_SET) != 0) {
        if (file != NULL) fclose(file);
        draw_bell();
        return;
    }
    struct sigaction ignored = {.sa_handler = SIG_IGN}, interrupt, quit;
    draw_leave();
    sigaction(SIGINT, &ignored, &interrupt);
    sigaction(SIGQUIT, &ignored, &quit);
    pid_t pager = fork();
    if (pager == 0) become_pager(fileno(file));
    while (pager > 0 && (waitpid(pager, &status, WUNTRACED) < 0 ? errno == EINTR : WIFSTOPPED(status))) kill(pager, SIGCONT);
    /* A signal that is blocked waits even if it is ignored. To ignore it once more drops it. */
    sigaction(SIGINT, &ignored, NULL);
    sigaction(SIGQUIT, &ignored, NULL);
    sigaction(SIGINT, &interrupt, NULL);
    sigaction(SIGQUIT, &quit, NULL);
    fclose(file);
    take_terminal();
}

static void obey_signals(void) {
    if (outer_told.to_go) it.why = 's';
    if (outer_told.to_stop) {
        draw_leave();
        outer_stop();
        take_terminal();
    }
    if (outer_told.was_continued) outer_set_raw();
    if (outer_told.was_continued || outer_told.has_new_size) {
        if (!draw_resize()) it.why = 'm';
        it.is_behind = true;
        look_at_window();
    }
    outer_told.to_stop = outer_told.was_continued = outer_told.has_new_size = 0;
}

static void obey_clock(void) {
    long long time = now();
    if (it.pressed != 0 && time - it.pressed >= TWICE) it.why = 'k';
    if (it.held != 0 && time - it.held >= KEY_PATIENCE) {
        size_t put = keys_flush(&it.keys, it.typed + it.typed_len);
        if (!it.is_read_only) it.typed_len += put;
        it.held = 0;
    }
}

static void turn(const sigset_t *open_mask) {
    long long time = now(), rest = it.pressed != 0 ? it.pressed + TWICE - time : -1;
    if (it.held != 0 && (rest < 0 || it.held + KEY_PATIENCE - time < rest)) rest = it.held + KEY_PATIENCE - time;
    bool is_timed = it.pressed != 0 || it.held != 0;
    struct timespec timeout = {rest > 0 ? rest / 1000 : 0, rest > 0 ? rest % 1000 * 1000000 : 0};
    struct pollfd polled[3] = {
        {has_room() ? STDIN_FILENO : -1, POLLIN, 0},
        {it.socket, (short)(POLLIN | (has_keys() ? POLLOUT : 0)), 0},
        {outer_is_done() ? -1 : outer_line(), POLLOUT, 0},
    };
    if (ppoll(polled, 3, is_timed ? &timeout : NULL, open_mask) < 0) polled[0].revents = polled[1].revents = polled[2].revents = 0;
    obey_signals();
    if (polled[1].revents & (POLLIN | POLLHUP | POLLERR)) read_frames(MSG_DONTWAIT);
    if (polled[0].revents && it.why == 0) read_keys();
    if (scroll_is_to_page() && it.why == 0) page_log();
    obey_clock();
    send_keys();
    if (polled[2].revents) outer_write();
    if (it.is_behind && outer_is_done() && it.why == 0) {
        it.is_behind = false;
        if (scroll_is_on()) scroll_draw();
        else if (!draw(&it.terminal)) it.why = 'm';
    }
}

/* --- the end --- */

/* Returns the exit status of a command that has ended, as a shell has it. */
int shell_status(int ending) {
    return WIFSIGNALED(ending) ? 128 + WTERMSIG(ending) : WEXITSTATUS(ending);
}

/* Confirms the end to the keeper, and waits until the keeper has released the name. Then a new session can use it. */
static void confirm_end(void) {
    uint8_t rest[256];
    wire_patience(it.socket, patience);
    if (!wire_send(it.socket, FRAME_SEEN, "", 0)) return;
    while (recv(it.socket, rest, sizeof rest, 0) > 0) {}
}

/* Prints how it ended. Returns the command's status if the command has ended. */
static int say(const char *name) {
    switch (it.why) {
    case 'k':
    case FRAME_DETACHED: printf("vt220-keep: detached from %s\n", name); return 0;
    case 's': return 0;
    case 'm': fprintf(stderr, "vt220-keep: out of memory\n"); return 1;
    case FRAME_FULL: fprintf(stderr, "vt220-keep: %s takes no more clients\n", name); return 1;
    case FRAME_ENDED:
        if (WIFSIGNALED(it.ending.status)) {
            printf("vt220-keep: %s was ended by signal %d (%s)\n", name, WTERMSIG(it.ending.status), strsignal(WTERMSIG(it.ending.status)));
        } else {
            printf("vt220-keep: %s ended with status %d\n", name, WEXITSTATUS(it.ending.status));
        }
        return shell_status(it.ending.status);
    default: fprintf(stderr, "vt220-keep: %s is gone: its keeper has ended\n", name); return 1;
    }
}

/* Prints the screen as text, without the empty lines at its end. */
static void print_screen(void) {
    static uint8_t text[TEXT_MOST];
    vt220_scratch scratch = VT220_INIT;
    size_t len = 0;
    if (vt220_scratch_fit(&scratch, &it.terminal) != VT220_OK) return;
    vt220_text(&it.terminal, &scratch, text, sizeof text, &len);
    vt220_scratch_close(&scratch);
    while (len > 1 && text[len - 1] == '\n' && text[len - 2] == '\n') len--;
    if (len > 1) fwrite(text, 1, len, stdout);
}

/* Shows the last screen of a command that has ended as text, and how and when it ended. The session stays, unless `removes` is true. */
static int show_last(const char *name, bool removes) {
    char day[32] = "";
    wire_patience(it.socket, patience);
    while (it.why == 0) read_frames(0);
    if (it.why == FRAME_ENDED) {
        print_screen();
        time_t when = (time_t)it.ending.time;
        struct tm parts;
        bool has_day = localtime_r(&when, &parts) != NULL && strftime(day, sizeof day, "%Y-%m-%d %H:%M:%S", &parts) > 0;
        if (has_day && removes) printf("vt220-keep: ended on %s\n", day);
        else if (has_day) printf("vt220-keep: ended on %s, and kept with its log until vt220-keep kill %s\n", day, name);
    }
    int status = say(name);
    if (removes && fflush(stdout) == 0 && it.why == FRAME_ENDED) confirm_end();
    return status;
}

static int follow(const char *name) {
    sigset_t open_mask;
    while (it.why == 0 && !it.is_behind) read_frames(0); /* a keeper that takes no more clients sends no screen */
    if (it.why != 0 && it.why != FRAME_ENDED) return say(name);
    outer_hold_signals(&open_mask);
    look_at_window(); /* before this, no signal told of a change */
    if (!draw_enter()) it.why = 'm';
    while (it.why == 0) turn(&open_mask);
    draw_leave();
    /* The outer terminal shows what was there before, so what the command said last is printed there. */
    if (it.why == FRAME_ENDED) print_screen();
    int status = say(name);
    if (fflush(stdout) == 0 && it.why == FRAME_ENDED) confirm_end();
    return status;
}

void attach_needs(const char *name) {
    const char *inside = getenv("KEEP_SESSION"), *encoding = getenv("KEEP_ENCODING");
    bool reads_utf8 = encoding != NULL && strcmp(encoding, encoding_name(true)) == 0;
    if (inside != NULL && !reads_utf8) fail(1, "cannot attach to %s from inside session %s, whose terminal doesn't read UTF-8", name, inside);
    if (inside != NULL && strcmp(inside, name) == 0) fail(1, "cannot attach to %s from inside itself", name);
    if (!isatty(STDOUT_FILENO) || !outer_open()) fail(2, "attach needs a terminal");
}

int attach(int socket, const char *name, bool is_read_only, bool removes) {
    it.socket = socket;
    it.is_read_only = is_read_only;
    it.detach = (uint8_t)keys_detach();
    attach_needs(name);
    if (vt220_open(&it.terminal) != VT220_OK) fail(1, "out of memory");
    struct hello hello = wire_greet(socket, name, ASK_ATTACH, (is_read_only ? FLAG_READ_ONLY : 0) | (removes ? FLAG_REMOVES : 0));
    it.version = hello.version;
    it.keys.language = hello.language;
    it.keys.can_scroll = true;
    it.window = window_here();
    if (it.version >= PROTOCOL_SIZE) wire_send(socket, FRAME_WINDOW, &it.window, sizeof it.window); /* if it can't be sent, no frame comes */
    int status = hello.is_over ? show_last(name, removes) : follow(name);
    scroll_leave();
    vt220_close(&it.terminal);
    close(socket);
    return status;
}
