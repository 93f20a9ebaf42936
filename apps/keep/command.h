/* A command on a new pseudo-terminal. */
#ifndef COMMAND_H
#define COMMAND_H

#include <stdbool.h>
#include <sys/ioctl.h>
#include <sys/types.h>
#include <termios.h>

enum {
    COMMAND_REFUSED = 1, /* the statuses of env(1): of a pseudo-terminal that can't be opened, of a command that can't be run, */
    COMMAND_NO_RUN = 126,
    COMMAND_NOT_FOUND = 127 /* and of one that isn't there */
};

struct line {
    int master, slave; /* both are closed in the command, which has the slave as its terminal */
    pid_t command;
};

/* Runs a command on a pseudo-terminal of a size. `erasing` is IUTF8 if the line erases whole characters of UTF-8, and 0 if it erases bytes. `prepare`, unless it is NULL, is
 * called in its process before it begins. Returns 0 when it runs. Otherwise returns the error, and nothing is open: *status is then that of
 * env(1). */
int start_command(struct line *line, char **command, const struct winsize *size, tcflag_t erasing, void (*prepare)(const void *), const void *of,
                  int *status);

#endif
