/* serve: the server of lib/c/examples/serve.c. Whenever its host is between sequences, each client's terminal is in the state of the host's, wherever in an
 * input a client joins or the size changes. */
#define main example_main
#include "../examples/serve.c"
#undef main
#include "check.h"

static const char *const inputs[] = {
    "plain \033[1;7mtext\033[m\r\n$ ",
    "\033]0;a title\007x\033]2;another\033\\y\033P1$qm\033\\z\033_a\033\\",
    "\033[5;10H\033[?25l\033[4h\033(0lqk\033(B\0337\033[3;9r\033[?6h\033[2;2Hin\0338",
    "main\033[?1049h\033[2J\033[24;80Hother\033[?2004h page\033[?1049l\r\nagain",
    "caf\xC3\xA9 \xE2\x80\x94 \xF0\x9F\x98\x80\033[3Gx\033[?69h\033[5;20s\033[4Gy\033[?69l",
    "\033[?40h\033[?3hwide\033[20;70Hlow\033[5S\033[2Tmoved\033[b\033c",
    "1\r\n2\r\n3\r\n4\r\n5\r\n6\r\n7\r\n8\r\n9\r\n10\r\n11\r\n12\r\n\033[10Aup\033[9Ldown",
};

enum { INPUTS = sizeof inputs / sizeof inputs[0] };

/* Returns whether a client's terminal is in the state of the host's, which is between sequences. Of an xterm the repaint has both pages. */
static bool is_as_host(server *s, const client *c) {
    size_t len, own_len;
    if (c->language != VT220_XTERM) return vt220_same_state(&c->terminal, &s->host);
    uint8_t *own = malloc(s->size);
    bool same = own != NULL && vt220_repaint(&c->terminal, &s->scratch, own, s->size, &own_len) == VT220_OK
        && vt220_repaint(&s->host, &s->scratch, s->out, s->size, &len) == VT220_OK && len == own_len && memcmp(own, s->out, len) == 0;
    free(own);
    return same;
}

/* Checks that each client shows what the server believes, and what the host shows if that is between sequences. */
static void same_clients(server *s, const char *where) {
    for (size_t i = 0; i < s->count; i++) {
        check(vt220_same_state(&s->clients[i].terminal, &s->clients[i].shown), "a client shows what was sent", where);
        if (vt220_is_between(&s->host)) check(is_as_host(s, &s->clients[i]), "a client equals the server", where);
    }
}

/* Plays an input in chunks of a length. */
static void hear_all(server *s, const char *from, size_t len, size_t chunk, const char *where) {
    for (size_t at = 0; at < len; at += chunk) {
        CHECK(hear(s, (const uint8_t *)from + at, len - at < chunk ? len - at : chunk) == VT220_OK);
        same_clients(s, where);
    }
}

/* A VT220 is there from the beginning, and a client of a language joins after each number of bytes. */
static void joins(uint32_t language) {
    for (size_t i = 0; i < INPUTS; i++) {
        size_t len = strlen(inputs[i]);
        for (size_t at = 0; at <= len; at++) {
            server s = {.out = NULL};
            CHECK(open_server(&s, 24, 80) == VT220_OK && join(&s, VT220_BYTES) == VT220_OK);
            hear_all(&s, inputs[i], at, 3, __func__);
            CHECK(join(&s, language) == VT220_OK && s.clients[1].sent > 0 && vt220_is_between(&s.clients[1].shown));
            same_clients(&s, __func__);
            hear_all(&s, inputs[i] + at, len - at, 1, __func__);
            CHECK(vt220_is_between(&s.host));
            close_server(&s);
        }
    }
}

/* The size changes after each second byte, also inside a sequence, and a client joins after it. */
static void changes(uint32_t language) {
    static const size_t sizes[][2] = {{30, 100}, {10, 40}, {24, 80}, {2, 2}, {255, 255}, {24, 132}};
    for (size_t i = 0; i < INPUTS; i++) {
        size_t len = strlen(inputs[i]);
        for (size_t at = 0; at <= len; at += 2) {
            server s = {.out = NULL};
            const size_t *size = sizes[(i + at) % (sizeof sizes / sizeof sizes[0])];
            CHECK(open_server(&s, 24, 80) == VT220_OK && join(&s, language) == VT220_OK);
            hear_all(&s, inputs[i], at, 7, __func__);
            CHECK(change_size(&s, size[0], size[1]) == VT220_OK && vt220_rows(&s.clients[0].terminal) == size[0]);
            same_clients(&s, __func__);
            CHECK(join(&s, VT220_BYTES) == VT220_OK && vt220_width(&s.clients[1].terminal) == size[1]);
            hear_all(&s, inputs[i] + at, len - at, 2, __func__);
            CHECK(change_size(&s, 24, 80) == VT220_OK);
            hear_all(&s, inputs[(i + 1) % INPUTS], strlen(inputs[(i + 1) % INPUTS]), 5, __func__);
            close_server(&s);
        }
    }
}

/* A client that joins inside a string shows all that came before it, though the string never ends. */
static void endless_string(void) {
    server s = {.out = NULL};
    size_t len;
    CHECK(open_server(&s, 24, 80) == VT220_OK && hear_text(&s, "before\033]0;a title") == VT220_OK);
    CHECK(vt220_repaint(&s.host, &s.scratch, s.out, s.size, &len) == VT220_PARTIAL && join(&s, VT220_BYTES) == VT220_OK);
    CHECK(vt220_text(&s.clients[0].terminal, &s.scratch, s.out, s.size, &len) == VT220_OK && memcmp(s.out, "before\n", 7) == 0);
    CHECK(hear_text(&s, " that goes on") == VT220_OK && s.clients[0].shown.is_open && !vt220_is_between(&s.host));
    same_clients(&s, __func__);
    CHECK(hear_text(&s, "\030 after") == VT220_OK);
    same_clients(&s, __func__);
    close_server(&s);
}

int main(void) {
    for (uint32_t language = VT220_BYTES; language <= VT220_XTERM; language++) joins(language), changes(language);
    endless_string();
    return finish("serve");
}
