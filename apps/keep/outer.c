#ifndef _GNU_SOURCE
#define _GNU_SOURCE /* for cfmakeraw */
#endif
#include "outer.h"
#include <errno.h>
#include <fcntl.h>
#include <poll.h>
#include <stdint.h>
#include <stdlib.h>
#include <string.h>
#include <sys/ioctl.h>
#include <termios.h>
#include <unistd.h>

enum { ROWS = 24, COLUMNS = 80, FAULT_STACK = 65536, SPARE = 256 /* for what enters or leaves */ };

struct outer_told outer_told;

static struct {
    struct termios before; /* how standard input was */
    int line;              /* the file that is written, without waiting */
    char *out;             /* what is drawn; written up to `at` */
    size_t at, length;
    const char *leaving;   /* what a fault writes; null while the terminal is released */
} outer;

static const int ending_signals[] = {SIGTERM, SIGHUP,    SIGINT,  SIGQUIT, SIGALRM, SIGUSR1, SIGUSR2,
                                     SIGPIPE, SIGVTALRM, SIGPROF, SIGXCPU, SIGPWR,  SIGIO,   SIGSTKFLT};
static const int other_signals[] = {SIGWINCH, SIGCONT, SIGTSTP};
static const int faults[] = {SIGSEGV, SIGBUS, SIGFPE, SIGILL, SIGABRT, SIGTRAP, SIGSYS};

#define COUNT(array) (sizeof(array) / sizeof *(array))

static void on_signal(int number) {
    if (number == SIGWINCH) outer_told.has_new_size = 1;
    else if (number == SIGCONT) outer_told.was_continued = 1;
    else if (number == SIGTSTP) outer_told.to_stop = 1;
    else outer_told.to_go = number;
}

/* Restores the terminal. What waits there is dropped, so that it takes this. Then the fault has its usual effect. */
static void on_fault(int number) {
    if (outer.leaving != NULL) {
        tcflush(outer.line, TCOFLUSH);
        if (write(outer.line, outer.leaving, strlen(outer.leaving)) < 0) outer.leaving = NULL;
        tcsetattr(STDIN_FILENO, TCSANOW, &outer.before);
    }
    raise(number);
}

/* A fault may come of a stack that is full, so its handler has another one. */
static void catch_faults(void) {
    static uint8_t memory[FAULT_STACK];
    stack_t stack = {.ss_sp = memory, .ss_size = sizeof memory};
    struct sigaction action = {.sa_handler = on_fault, .sa_flags = (int)(SA_ONSTACK | SA_RESETHAND)};
    sigaltstack(&stack, NULL);
    for (size_t i = 0; i < COUNT(faults); i++) sigaction(faults[i], &action, NULL);
}

static void hold_signals(const int *numbers, size_t count, sigset_t *held) {
    struct sigaction action = {.sa_handler = on_signal};
    for (size_t i = 0; i < count; i++) {
        sigaddset(held, numbers[i]);
        sigaction(numbers[i], &action, NULL);
    }
}

void outer_hold_signals(sigset_t *open_mask) {
    sigset_t held;
    sigemptyset(&held);
    hold_signals(ending_signals, COUNT(ending_signals), &held);
    hold_signals(other_signals, COUNT(other_signals), &held);
    sigprocmask(SIG_BLOCK, &held, open_mask);
    for (int number = 1; number < NSIG; number++) {
        if (sigismember(&held, number) == 1) sigdelset(open_mask, number);
    }
    catch_faults();
}

bool outer_open(void) {
    return tcgetattr(STDIN_FILENO, &outer.before) == 0;
}

void outer_set_raw(void) {
    struct termios raw = outer.before;
    cfmakeraw(&raw);
    tcsetattr(STDIN_FILENO, TCSADRAIN, &raw);
}

bool outer_reserve(size_t capacity) {
    char *more = realloc(outer.out, outer.length + capacity + SPARE);
    if (more != NULL) outer.out = more;
    return more != NULL;
}

/* The terminal is opened again, so that only this program's writes don't wait. */
bool outer_take(size_t capacity, const char *leaving) {
    const char *name = ttyname(STDOUT_FILENO);
    if (outer.line == 0) outer.line = name != NULL ? open(name, O_WRONLY | O_NONBLOCK | O_NOCTTY | O_CLOEXEC) : -1;
    if (outer.line < 0) outer.line = STDOUT_FILENO;
    outer.at = outer.length = 0;
    if (!outer_reserve(capacity)) return false;
    outer.leaving = leaving;
    outer_set_raw();
    outer_say("\033[?1049h\033[0m\033[?25h");
    return true;
}

void outer_release(const char *leaving, int patience) {
    struct pollfd line = {outer.line, POLLOUT, 0};
    if (outer.out != NULL) {
        outer_say(leaving);
        do outer_write();
        while (!outer_is_done() && poll(&line, 1, patience) > 0);
    }
    outer.leaving = NULL;
    tcsetattr(STDIN_FILENO, TCSADRAIN, &outer.before);
}

void outer_stop(void) {
    struct sigaction normal = {.sa_handler = SIG_DFL}, before;
    sigset_t only, mask;
    sigemptyset(&only);
    sigaddset(&only, SIGTSTP);
    sigaction(SIGTSTP, &normal, &before);
    sigprocmask(SIG_UNBLOCK, &only, &mask);
    raise(SIGTSTP);
    sigprocmask(SIG_SETMASK, &mask, NULL);
    sigaction(SIGTSTP, &before, NULL);
}

void outer_size(size_t *rows, size_t *cols) {
    struct winsize size = {0};
    ioctl(outer.line, TIOCGWINSZ, &size);
    *rows = size.ws_row > 0 ? size.ws_row : ROWS;
    *cols = size.ws_col > 0 ? size.ws_col : COLUMNS;
}

void outer_put(const void *bytes, size_t len) {
    memcpy(outer.out + outer.length, bytes, len);
    outer.length += len;
}

void outer_say(const char *text) {
    outer_put(text, strlen(text));
}

bool outer_is_done(void) {
    return outer.at == outer.length;
}

int outer_line(void) {
    return outer.line;
}

/* If the terminal has closed, standard input shows that as well. */
void outer_write(void) {
    ssize_t n = outer.at < outer.length ? write(outer.line, outer.out + outer.at, outer.length - outer.at) : 0;
    if (n < 0 && errno != EAGAIN && errno != EINTR) outer.at = outer.length;
    if (n > 0) outer.at += (size_t)n;
    if (outer.at == outer.length) outer.at = outer.length = 0;
}
