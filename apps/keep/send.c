/* Sends keys to a session without a terminal. */
#include "keep.h"
#include <errno.h>
#include <string.h>
#include <sys/socket.h>
#include <unistd.h>

static struct {
    const char *name;
    int socket;
    vt220 terminal; /* in the session's state, so that keys have the form that the program asked for */
    struct keys keys;
    uint8_t bytes[FRAME_LIMIT];
} it;

/* Ends the program, since keys can't be sent. */
static noreturn void fail_sending(void) {
    wire_look_for_end(it.name, ASK_SEND);
    fail(1, "%s takes no keys", it.name);
}

static void send_bytes(const uint8_t *bytes, size_t len) {
    for (size_t at = 0, n; at < len; at += n) {
        n = len - at < KEYS_LIMIT ? len - at : KEYS_LIMIT;
        if (!wire_send(it.socket, FRAME_KEYS, bytes + at, n)) fail_sending();
    }
}

static void send_text(const char *text, size_t len) {
    uint8_t to[KEYS_GROWTH * (KEYS_LIMIT + sizeof it.keys.held)];
    for (size_t at = 0, n; at < len; at += n) {
        n = len - at < KEYS_LIMIT ? len - at : KEYS_LIMIT;
        send_bytes(to, keys_translate(&it.keys, &it.terminal, (const uint8_t *)text + at, n, to));
    }
}

static void send_input(void) {
    char text[KEYS_LIMIT];
    for (;;) {
        ssize_t n = read(STDIN_FILENO, text, sizeof text);
        if (n < 0 && errno == EINTR) continue;
        if (n < 0) fail(1, "standard input: %s", strerror(errno));
        if (n == 0) return;
        send_text(text, (size_t)n);
    }
}

static void play_repaint(const struct folder *folder) {
    uint8_t none[VT220_REPORT_LIMIT];
    size_t reports, len = wire_ask(existing(folder, it.name), it.name, ASK_REPAINT, NULL, it.bytes);
    if (vt220_open(&it.terminal) != VT220_OK) fail(1, "out of memory");
    for (size_t at = 0; at < len;) at += vt220_feed(&it.terminal, it.bytes + at, len - at, none, sizeof none, &reports);
}

static const char *keyboard(void) {
    return it.keys.language == VT220_XTERM ? "an xterm" : "a VT220";
}

/* Ends the program if one of these words was hardly meant as text. Nothing is sent then. */
static void look_at_names(char **keys) {
    uint8_t key[VT220_KEY_LIMIT];
    char meant[NAME_LIMIT];
    for (; *keys != NULL; keys++) {
        if (keys_named(&it.keys, &it.terminal, *keys, key) > 0 || !keys_meant(&it.keys, &it.terminal, *keys, meant, sizeof meant)) continue;
        if (*meant != 0) fail(2, "%s has no key %s; is it %s? With -l it is sent as text", keyboard(), *keys, meant);
        fail(2, "%s has no key %s; with -l it is sent as text", keyboard(), *keys);
    }
}

/* Sends `keys`: each is a key's name, otherwise text. If `is_text` is true, all are text. Without any, sends standard input. */
void send_keys_to(const struct folder *folder, const char *name, char **keys, bool is_text) {
    char letter;
    uint8_t key[VT220_TYPED_LIMIT];
    size_t len;
    it.name = name;
    play_repaint(folder);
    it.socket = existing(folder, name);
    struct hello hello = wire_greet(it.socket, name, ASK_SEND, 0);
    it.keys.language = hello.language;
    if (!is_text) look_at_names(keys);
    if (hello.is_over) fail(1, "the command of %s has ended", name);
    if (*keys == NULL) send_input();
    for (; *keys != NULL; keys++) {
        len = is_text ? 0 : keys_named(&it.keys, &it.terminal, *keys, key);
        if (len > 0) send_bytes(key, len);
        else send_text(*keys, strlen(*keys));
    }
    send_bytes(key, keys_flush(&it.keys, key));
    bool is_done = wire_send(it.socket, FRAME_DONE, "", 0) && wire_receive(it.socket, &letter, it.bytes, sizeof it.bytes, &len);
    if (!is_done || letter != FRAME_ANSWER) fail_sending();
    close(it.socket);
    vt220_close(&it.terminal);
    if (it.keys.rings) fail(1, "no key of a VT220 sends some of these characters; the others are sent");
}
