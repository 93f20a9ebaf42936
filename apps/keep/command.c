/* Runs a command on a new pseudo-terminal. */
#ifndef _GNU_SOURCE
#define _GNU_SOURCE /* for openpty and pipe2 */
#endif
#include "command.h"
#include <errno.h>
#include <fcntl.h>
#include <pty.h>
#include <signal.h>
#include <stdnoreturn.h>
#include <sys/wait.h>
#include <termios.h>
#include <unistd.h>
#include <utmp.h>

/* Resets every signal, also those that the parent ignores, so that Ctrl-C can end the command. */
static void free_signals(void) {
    sigset_t none;
    sigemptyset(&none);
    for (int number = 1; number < NSIG; number++) signal(number, SIG_DFL);
    sigprocmask(SIG_SETMASK, &none, NULL);
}

static noreturn void become_command(const struct line *line, char **command, int told) {
    int why = login_tty(line->slave) == 0 ? 0 : errno;
    if (why == 0) execvp(command[0], command);
    why = why == 0 ? errno : why;
    if (write(told, &why, sizeof why) < 0) _exit(1);
    _exit(COMMAND_NOT_FOUND);
}

static void set_line(int slave, tcflag_t erasing) {
    struct termios it;
    if (tcgetattr(slave, &it) != 0) return;
    it.c_iflag = (it.c_iflag & ~(tcflag_t)IUTF8) | erasing;
    tcsetattr(slave, TCSANOW, &it);
}

static bool open_line(struct line *line, int *told, const struct winsize *size, tcflag_t erasing) {
    if (pipe2(told, O_CLOEXEC) != 0) return false;
    if (openpty(&line->master, &line->slave, NULL, NULL, size) != 0) {
        int why = errno;
        close(told[0]);
        close(told[1]);
        errno = why;
        return false;
    }
    set_line(line->slave, erasing);
    fcntl(line->master, F_SETFD, FD_CLOEXEC);
    fcntl(line->slave, F_SETFD, FD_CLOEXEC);
    fcntl(line->master, F_SETFL, O_NONBLOCK);
    return true;
}

int start_command(struct line *line, char **command, const struct winsize *size, tcflag_t erasing, void (*prepare)(const void *), const void *of,
                  int *status) {
    int told[2], error = 0;
    *status = COMMAND_REFUSED;
    if (!open_line(line, told, size, erasing)) return errno;
    line->command = fork();
    if (line->command == 0) {
        free_signals();
        if (prepare != NULL) prepare(of);
        become_command(line, command, told[1]);
    }
    if (line->command < 0) error = errno;
    close(told[1]);
    while (line->command > 0 && read(told[0], &error, sizeof error) < 0 && errno == EINTR) {}
    close(told[0]);
    if (error == 0) return 0;
    if (line->command > 0) waitpid(line->command, NULL, 0);
    close(line->master);
    close(line->slave);
    *status = error == ENOENT ? COMMAND_NOT_FOUND : COMMAND_NO_RUN;
    return error;
}
