/* Frames over a socket: a letter, the length as a uint32_t of this machine, and that many bytes. */
#include "frame.h"
#include <errno.h>
#include <string.h>
#include <sys/socket.h>
#include <sys/time.h>

void wire_patience(int socket, int milliseconds) {
    struct timeval limit = {milliseconds / 1000, milliseconds % 1000 * 1000};
    setsockopt(socket, SOL_SOCKET, SO_RCVTIMEO, &limit, sizeof limit);
    setsockopt(socket, SOL_SOCKET, SO_SNDTIMEO, &limit, sizeof limit);
}

bool wire_has_closed;

static bool receive(int socket, void *to, size_t len) {
    for (size_t at = 0; at < len;) {
        ssize_t n = recv(socket, (char *)to + at, len - at, 0);
        if (n < 0 && errno == EINTR) continue;
        if (n == 0 || (n < 0 && errno == ECONNRESET)) wire_has_closed = true;
        if (n <= 0) return false;
        at += (size_t)n;
    }
    return true;
}

bool wire_send_all(int socket, const void *bytes, size_t len) {
    for (size_t at = 0; at < len;) {
        ssize_t n = send(socket, (const char *)bytes + at, len - at, MSG_NOSIGNAL);
        if (n < 0 && errno == EINTR) continue;
        if (n < 0 && (errno == EPIPE || errno == ECONNRESET)) wire_has_closed = true;
        if (n <= 0) return false;
        at += (size_t)n;
    }
    return true;
}

bool wire_send(int socket, char letter, const void *bytes, size_t len) {
    uint8_t head[FRAME_HEAD] = {(uint8_t)letter};
    uint32_t length = (uint32_t)len;
    memcpy(head + 1, &length, sizeof length);
    return wire_send_all(socket, head, sizeof head) && wire_send_all(socket, bytes, len);
}

bool wire_receive(int socket, char *letter, uint8_t *bytes, size_t room, size_t *len) {
    uint8_t head[FRAME_HEAD];
    uint32_t length;
    if (!receive(socket, head, sizeof head)) return false;
    *letter = (char)head[0];
    memcpy(&length, head + 1, sizeof length);
    *len = length;
    return length <= room && receive(socket, bytes, length);
}
