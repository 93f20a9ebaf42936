/* The directory of the sockets.
 *
 * Only its user may get in: whoever could write to it could put a socket there. So it must belong to the user, have mode 0700
 * and not be a link. In it is one directory for each boot of each machine, named by the kernel's boot id, and in that the sockets.
 * So machines that share a file system never see each other's sockets, and a socket that nobody listens to is surely the one
 * of a keeper of this machine that was killed. All names are used relative to the directory that was checked: nobody can
 * replace it, and its path may have any length. */
#include "keep.h"
#include <errno.h>
#include <fcntl.h>
#include <limits.h>
#include <stdarg.h>
#include <stdio.h>
#include <stdlib.h>
#include <string.h>
#include <sys/file.h>
#include <sys/socket.h>
#include <sys/stat.h>
#include <sys/un.h>
#include <time.h>
#include <unistd.h>

enum { QUEUE = 128, BOOT_LIMIT = 64 };

/* Writes the reason. Returns false. */
bool refused(char *why, const char *words, ...) {
    va_list list;
    va_start(list, words);
    vsnprintf(why, WHY_LIMIT, words, list);
    va_end(list);
    return false;
}

/* Opens a directory that only this user may read. Makes it if it isn't there, under any umask. */
static bool open_own(int at, const char *path, int *file, char *why) {
    struct stat it;
    mode_t mask = umask(0);
    int error = mkdirat(at, path, 0700) == 0 ? 0 : errno;
    umask(mask);
    if (error != 0 && error != EEXIST) return refused(why, "%s: %s", path, strerror(error));
    *file = openat(at, path, O_RDONLY | O_DIRECTORY | O_NOFOLLOW | O_CLOEXEC);
    if (*file < 0) return refused(why, "%s: %s", path, errno == ELOOP || errno == ENOTDIR ? "not a directory" : strerror(errno));
    bool is_fine = false;
    if (fstat(*file, &it) != 0) {
        refused(why, "%s: %s", path, strerror(errno));
    } else if (it.st_uid != geteuid()) {
        refused(why, "%s belongs to another user; choose another directory with KEEP_DIR", path);
    } else if ((it.st_mode & 0777) != 0700) {
        refused(why, "%s has mode %03o; it must have mode 700", path, it.st_mode & 0777u);
    } else {
        is_fine = true;
    }
    if (!is_fine) close(*file);
    return is_fine;
}

/* Reads the boot id, which is random and new each time that a kernel starts. */
static bool read_boot(char *boot, char *why) {
    static const char file[] = "/proc/sys/kernel/random/boot_id", letters[] = "0123456789abcdef-";
    int from = open(file, O_RDONLY | O_CLOEXEC);
    ssize_t len = from < 0 ? -1 : read(from, boot, BOOT_LIMIT - 1);
    if (from >= 0) close(from);
    if (len < 0) return refused(why, "%s: %s", file, strerror(errno));
    boot[len] = 0;
    boot[strcspn(boot, "\n")] = 0;
    size_t used = strspn(boot, letters);
    return used >= 32 && boot[used] == 0 ? true : refused(why, "%s is no boot id", file);
}

bool try_folder(const char *path, struct folder *folder, char *why) {
    char boot[BOOT_LIMIT], link[64];
    int above;
    if (!read_boot(boot, why) || !open_own(AT_FDCWD, path, &above, why)) return false;
    snprintf(link, sizeof link, "/proc/self/fd/%d", above);
    ssize_t len = readlink(link, folder->path, sizeof folder->path);
    bool is_fine = len > 0 && (size_t)len < sizeof folder->path;
    if (is_fine) folder->path[len] = 0;
    else refused(why, "%s: its path can't be read from /proc", path);
    is_fine = is_fine && open_own(above, boot, &folder->file, why);
    close(above);
    return is_fine;
}

struct folder open_folder(void) {
    char path[PATH_MAX], why[WHY_LIMIT];
    struct folder folder;
    const char *named = getenv("KEEP_DIR");
    bool is_named = named != NULL && *named != 0;
    int len = is_named ? snprintf(path, sizeof path, "%s", named) : snprintf(path, sizeof path, "/tmp/keep-%u", geteuid());
    if (len < 0 || (size_t)len >= sizeof path) fail(1, "the path of the directory is too long");
    /* With a slash at the end, or a slash and a dot, O_NOFOLLOW would follow a link. */
    for (int n; len > (n = path[len - 1] == '.' ? 2 : 1) && path[len - n] == '/';) path[len -= n] = 0;
    if (!try_folder(path, &folder, why)) fail(1, "%s", why);
    return folder;
}

/* --- the lock --- */

bool try_lock(int folder) {
    return flock(folder, LOCK_EX | LOCK_NB) == 0;
}

bool lock_folder(int folder) {
    struct timespec pause = {0, 10000000};
    for (long long end = now() + patience; !try_lock(folder);) {
        if (now() > end) return false;
        nanosleep(&pause, NULL);
    }
    return true;
}

void unlock_folder(int folder) {
    flock(folder, LOCK_UN);
}

bool is_locked(int folder) {
    if (!try_lock(folder)) return true;
    unlock_folder(folder);
    return false;
}

/* --- names and sockets --- */

bool is_name(const char *name) {
    static const char letters[] = "abcdefghijklmnopqrstuvwxyzABCDEFGHIJKLMNOPQRSTUVWXYZ0123456789._-";
    size_t len = strlen(name);
    return len > 0 && len <= NAME_LIMIT && strspn(name, letters) == len && *name != '.' && *name != '-';
}

/* Returns the address of a name in an open directory. It fits for a path of any length. */
static struct sockaddr_un address_of(int folder, const char *name) {
    struct sockaddr_un address = {.sun_family = AF_UNIX};
    snprintf(address.sun_path, sizeof address.sun_path, "/proc/self/fd/%d/%.*s", folder, NAME_LIMIT, name);
    return address;
}

/* Returns a socket that waits for a keeper for a limited time, since the keeper may be stopped. */
static int new_socket(void) {
    struct timeval limit = {patience / 1000, 0};
    int made = socket(AF_UNIX, SOCK_STREAM | SOCK_CLOEXEC, 0);
    if (made >= 0) setsockopt(made, SOL_SOCKET, SO_SNDTIMEO, &limit, sizeof limit);
    return made;
}

bool is_same_user(int socket) {
    struct ucred peer;
    socklen_t size = sizeof peer;
    return getsockopt(socket, SOL_SOCKET, SO_PEERCRED, &peer, &size) == 0 && size == sizeof peer && peer.uid == geteuid();
}

int connect_to(int folder, const char *name) {
    struct sockaddr_un address = address_of(folder, name);
    struct stat it;
    int made = -1, error;
    if (fstatat(folder, name, &it, AT_SYMLINK_NOFOLLOW) != 0) return -1;
    if (!S_ISSOCK(it.st_mode)) {
        errno = ENOTSOCK;
        return -1;
    }
    made = new_socket();
    if (made >= 0 && connect(made, (const struct sockaddr *)&address, sizeof address) == 0) {
        if (is_same_user(made)) return made;
        errno = EPERM;
    }
    error = errno;
    if (made >= 0) close(made);
    errno = error;
    return -1;
}

/* Returns whether a keeper listens to a socket, even a keeper that is stopped and whose queue is full. */
bool is_listening(int folder, const char *name) {
    struct sockaddr_un address = address_of(folder, name);
    int made = socket(AF_UNIX, SOCK_STREAM | SOCK_CLOEXEC | SOCK_NONBLOCK, 0);
    bool is_there = made < 0 || connect(made, (const struct sockaddr *)&address, sizeof address) == 0 || errno != ECONNREFUSED;
    if (made >= 0) close(made);
    return is_there;
}

/* Returns whether a name can be used. Removes a socket of this user to which nobody listens, and never anything else. */
bool is_free(int folder, const char *name, char *why) {
    struct stat it;
    if (fstatat(folder, name, &it, AT_SYMLINK_NOFOLLOW) != 0) return errno == ENOENT ? true : refused(why, "%s: %s", name, strerror(errno));
    if (!S_ISSOCK(it.st_mode) || it.st_uid != geteuid()) return refused(why, "%s: a file that isn't a session has this name", name);
    if (is_listening(folder, name)) return refused(why, "session %s already exists", name);
    return unlinkat(folder, name, 0) == 0 ? true : refused(why, "%s: %s", name, strerror(errno));
}

/* Locks the directory while it looks at a name and until it listens there. */
int open_listener(int folder, const char *name, struct identity *made, char *why) {
    struct sockaddr_un address = address_of(folder, name);
    struct stat it;
    if (!lock_folder(folder)) {
        refused(why, "another vt220-keep holds the lock of the directory");
        return -1;
    }
    int listener = is_free(folder, name, why) ? new_socket() : -2;
    mode_t mask = umask(0077);
    bool is_bound = listener >= 0 && bind(listener, (const struct sockaddr *)&address, sizeof address) == 0;
    bool is_fine = is_bound && listen(listener, QUEUE) == 0 && fstatat(folder, name, &it, AT_SYMLINK_NOFOLLOW) == 0;
    if (!is_fine && listener != -2) refused(why, "%s: %s", name, strerror(errno));
    umask(mask);
    unlock_folder(folder);
    if (is_fine) {
        *made = (struct identity){it.st_dev, it.st_ino};
        fcntl(listener, F_SETFL, O_NONBLOCK);
        return listener;
    }
    if (listener >= 0) close(listener);
    return -1;
}

bool is_own(int folder, const char *name, const struct identity *made) {
    struct stat it;
    bool is_there = fstatat(folder, name, &it, AT_SYMLINK_NOFOLLOW) == 0 && S_ISSOCK(it.st_mode);
    return is_there && it.st_dev == made->device && it.st_ino == made->number;
}

/* Its keeper calls this while it still listens, so that no other keeper can have taken the name in between. */
void remove_own(int folder, const char *name, const struct identity *made) {
    if (is_own(folder, name, made)) unlinkat(folder, name, 0);
}
