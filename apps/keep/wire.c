/* A client's side of the protocol. */
#include "keep.h"
#include <errno.h>
#include <fcntl.h>
#include <stdio.h>
#include <stdlib.h>
#include <string.h>
#include <sys/socket.h>
#include <unistd.h>

enum {
    KILL_MORE = 8000,   /* milliseconds more for a command that has to be killed */
    UPGRADE_MORE = 8000 /* and for a new program that doesn't answer its keeper */
};

const char *encoding_name(uint32_t language) {
    return language != VT220_BYTES ? "utf-8" : "dec";
}

const char *terminal_name(uint32_t language) {
    return language == VT220_XTERM ? "xterm" : "vt220";
}

bool types_keys(char ask) {
    return ask == ASK_ATTACH || ask == ASK_SEND;
}

/* Reads a frame that has a byte. 1 says that the session has this language. */
static bool receive_language(int socket, char wanted, uint32_t language, struct hello *hello) {
    uint8_t told = 0;
    char letter;
    size_t len;
    if (!wire_receive(socket, &letter, &told, sizeof told, &len) || letter != wanted) return false;
    if (told == 1) hello->language = language;
    return true;
}

/* Reads the frames that have the session's encoding and its terminal, if they are sent. An older keeper's session isn't in UTF-8, and its
 * program writes for a VT220. */
static int receive_session(int socket, char ask, struct hello *hello) {
    hello->language = VT220_BYTES;
    if (!types_keys(ask)) return WIRE_OK;
    if (hello->version >= PROTOCOL_ENCODING && !receive_language(socket, FRAME_ENCODING, VT220_UTF8, hello)) return WIRE_SILENT;
    if (hello->version >= PROTOCOL_TERMINAL && !receive_language(socket, FRAME_TERMINAL, VT220_XTERM, hello)) return WIRE_SILENT;
    return WIRE_OK;
}

/* Asks, and reads the keeper's first frame. A keeper from before version 1 sends an empty FRAME_ANSWER. */
int wire_begin(int socket, char ask, uint8_t flags, struct hello *hello, char *why) {
    const uint8_t asked[HELLO_LENGTH] = {'k', 'e', 'e', 'p', PROTOCOL_LOWEST, PROTOCOL_HIGHEST, (uint8_t)ask, flags};
    uint8_t told[256];
    char letter;
    size_t len;
    wire_patience(socket, patience);
    memset(hello, 0, sizeof *hello);
    /* A keeper that rejects a client closes at once, so its frame is read even if nothing could be sent. */
    wire_send_all(socket, asked, sizeof asked);
    if (!wire_receive(socket, &letter, told, sizeof told - 1, &len)) return WIRE_SILENT;
    if (letter == FRAME_FULL) return WIRE_FULL;
    if (letter == FRAME_ANSWER) {
        snprintf(why, WHY_LIMIT, "is kept by an older keep, whose protocol has no version; use that program");
        return WIRE_OTHER_VERSION;
    }
    if (letter != FRAME_HELLO || len < 4) return WIRE_SILENT;
    told[len] = 0;
    *hello = (struct hello){.version = told[0], .lowest = told[1], .highest = told[2], .is_over = told[3] != 0, .is_shown = told[3] > 1};
    if (hello->version >= PROTOCOL_LOWEST && hello->version <= PROTOCOL_HIGHEST) return receive_session(socket, ask, hello);
    for (uint8_t *at = told + 4; *at != 0; at++) *at = *at >= ' ' && *at <= '~' ? *at : '?';
    snprintf(why, WHY_LIMIT, "is kept by keep %.100s, which speaks protocol %u to %u; this one speaks %u to %u", (char *)told + 4,
             hello->lowest, hello->highest, PROTOCOL_LOWEST, PROTOCOL_HIGHEST);
    return WIRE_OTHER_VERSION;
}

void wire_look_for_end(const char *name, char ask) {
    struct folder folder = open_folder();
    bool is_gone = wire_has_closed && connect_to(folder.file, name) < 0 && (errno == ENOENT || errno == ECONNREFUSED);
    if (is_gone && ask == ASK_KILL) exit(0);
    if (is_gone) fail(1, "no such session: %s", name);
    close(folder.file);
}

/* Ends the program, since a keeper doesn't answer. */
static noreturn void fail_silent(const char *name, char ask) {
    wire_look_for_end(name, ask);
    fail(1, "%s doesn't answer", name);
}

struct hello wire_greet(int socket, const char *name, char ask, uint8_t flags) {
    struct hello hello;
    char why[WHY_LIMIT];
    int result = wire_begin(socket, ask, flags, &hello, why);
    if (result == WIRE_FULL) fail(1, "%s takes no more clients", name);
    if (result == WIRE_OTHER_VERSION) fail(1, "%s %s", name, why);
    if (result != WIRE_OK) fail_silent(name, ask);
    return hello;
}

/* Reads the reply to a request. Ends the program if there is none. */
static size_t read_answer(int socket, const char *name, char ask, uint8_t *bytes) {
    char letter;
    size_t len;
    if (!wire_receive(socket, &letter, bytes, FRAME_LIMIT, &len)) fail_silent(name, ask);
    if (letter == FRAME_REFUSED) fail(1, "%s: %.*s", name, (int)(len < WHY_LIMIT ? len : WHY_LIMIT), (char *)bytes);
    if (letter != FRAME_ANSWER) fail(1, "%s doesn't answer", name);
    close(socket);
    return len;
}

size_t wire_ask(int socket, const char *name, char ask, const char *argument, uint8_t *bytes) {
    wire_greet(socket, name, ask, 0);
    if (ask == ASK_KILL) wire_patience(socket, patience + KILL_MORE);
    if (argument != NULL) wire_send(socket, FRAME_NAME, argument, strlen(argument)); /* if it can't be sent, nothing is answered */
    return read_answer(socket, name, ask, bytes);
}

/* Sends an empty frame, and passes a file with it. */
static void send_file(int socket, char letter, int file) {
    union {
        struct cmsghdr head;
        char room[CMSG_SPACE(sizeof(int))];
    } passed;
    char frame[FRAME_HEAD] = {letter};
    struct iovec bytes = {frame, sizeof frame};
    struct msghdr message = {.msg_iov = &bytes, .msg_iovlen = 1, .msg_control = &passed, .msg_controllen = sizeof passed};
    memset(&passed, 0, sizeof passed);
    passed.head = (struct cmsghdr){.cmsg_level = SOL_SOCKET, .cmsg_type = SCM_RIGHTS, .cmsg_len = CMSG_LEN(sizeof(int))};
    memcpy(CMSG_DATA(&passed.head), &file, sizeof file);
    sendmsg(socket, &message, MSG_NOSIGNAL);
}

void wire_ask_upgrade(int socket, const char *name) {
    static uint8_t bytes[FRAME_LIMIT];
    int program = open("/proc/self/exe", O_RDONLY | O_CLOEXEC);
    if (program < 0) fail(1, "/proc/self/exe: %s", strerror(errno));
    if (wire_greet(socket, name, ASK_UPGRADE, 0).version < PROTOCOL_UPGRADE) fail(1, "%s is kept by an older vt220-keep, which can't be replaced", name);
    wire_patience(socket, patience + UPGRADE_MORE);
    send_file(socket, FRAME_PROGRAM, program); /* likewise */
    read_answer(socket, name, ASK_UPGRADE, bytes);
    close(program);
}

/* Bytes that grow as they come. */
struct gathered {
    uint8_t *bytes;
    size_t len, room;
};

static void gather(struct gathered *all, const uint8_t *bytes, size_t len) {
    if (all->len + len > all->room) {
        all->room = 2 * (all->len + len);
        all->bytes = realloc(all->bytes, all->room);
        if (all->bytes == NULL) fail(1, "out of memory");
    }
    if (len > 0) memcpy(all->bytes + all->len, bytes, len);
    all->len += len;
}

/* The log is read whole before any of it is printed: a keeper drops a client that reads nothing for some time, as one does whose output
 * goes to a pager. The keeper says how many bytes are lost, since the program wrote faster than this client read. */
uint8_t *wire_ask_log(int socket, const char *name, size_t *len, uint64_t *lost) {
    static uint8_t bytes[FRAME_LIMIT], screen[FRAME_LIMIT];
    struct gathered log = {0};
    size_t frame_len, screen_len = 0;
    char letter;
    bool has_come;
    if (wire_greet(socket, name, ASK_LOG, 0).version < PROTOCOL_LOG) fail(1, "%s is kept by an older vt220-keep, which keeps no log", name);
    while ((has_come = wire_receive(socket, &letter, bytes, sizeof bytes, &frame_len)) && (letter == FRAME_SCREEN || letter == FRAME_LINES)) {
        if (letter == FRAME_LINES) gather(&log, bytes, frame_len);
        if (letter == FRAME_SCREEN) memcpy(screen, bytes, screen_len = frame_len);
    }
    if (!has_come || letter != FRAME_LOGGED) fail_silent(name, ASK_LOG);
    *lost = 0;
    if (frame_len == sizeof *lost) memcpy(lost, bytes, sizeof *lost);
    gather(&log, screen, screen_len);
    close(socket);
    *len = log.len;
    return log.bytes;
}
