/* serve: shows the screen of one host to several clients. A client that joins gets a repaint, and then updates, also after a change of the size.
 *   make lib && gcc -Ilib/c/include -o serve lib/c/examples/serve.c out/libvt220.a
 * The clients' terminals are in this program, too. `deliver` stands for a connection: it plays on a client's terminal what the server sends. */
#include <stdio.h>
#include <stdlib.h>
#include <string.h>
#include <vt220.h>

enum { CLIENTS = 2, CAN = 0x18 };

/* A client. If its terminal is a VT220, it gets updates. An xterm has both pages of the host's, and gets repaints, since no update leads to one. */
typedef struct client {
    uint32_t language;
    vt220 terminal; /* at the client's end */
    vt220 shown;    /* at the server's end: the state that `terminal` is in when it has played all that was sent */
    size_t sent;    /* how many bytes were sent */
} client;

typedef struct server {
    vt220 host; /* plays what the host sends, which has TERM=xterm */
    vt220_scratch scratch;
    uint8_t *out; /* a repaint, or an update */
    size_t size;
    client clients[CLIENTS];
    size_t count; /* of clients */
} server;

static void deliver(client *c, const uint8_t *sent, size_t len) {
    vt220_feed(&c->terminal, sent, len, NULL, 0, NULL);
    c->sent += len;
}

/* Opens the terminal of a window. A resize makes it one that DECCOLM leaves as wide as it is, also if it has 24 rows of 80 columns. */
static uint32_t open_window(vt220 *t, uint32_t language, size_t rows, size_t columns) {
    uint32_t status = vt220_open_as(t, language, rows, columns);
    return status == VT220_OK ? vt220_resize(t, rows, columns) : status;
}

/* Makes the buffers large enough for the host's window. */
static uint32_t fit(server *s) {
    size_t repaint = vt220_limit(&s->host, VT220_OF_REPAINT), update = vt220_limit(&s->host, VT220_OF_UPDATE);
    size_t size = repaint > update ? repaint : update;
    uint8_t *out = realloc(s->out, size);
    if (out == NULL) return VT220_MEMORY;
    s->out = out, s->size = size;
    return vt220_scratch_fit(&s->scratch, &s->host);
}

static uint32_t open_server(server *s, size_t rows, size_t columns) {
    uint32_t status = open_window(&s->host, VT220_XTERM, rows, columns);
    return status == VT220_OK ? fit(s) : status;
}

static void close_server(server *s) {
    for (size_t i = 0; i < s->count; i++) {
        vt220_close(&s->clients[i].terminal);
        vt220_close(&s->clients[i].shown);
    }
    vt220_scratch_close(&s->scratch);
    vt220_close(&s->host);
    free(s->out);
}

/* Lets a client of a language join, which gets a repaint. Inside a sequence, such as a title whose end hasn't come, the host's terminal has none
 * (VT220_PARTIAL), perhaps for ever. But a copy of it has, after CAN, which ends the sequence and does nothing else. */
static uint32_t join(server *s, uint32_t language) {
    static const uint8_t can = CAN;
    client *c = &s->clients[s->count++];
    c->language = language;
    size_t rows = vt220_rows(&s->host), columns = vt220_width(&s->host), len = 0;
    uint32_t status = open_window(&c->terminal, language, rows, columns); /* the client's part: the server tells it the size */
    if (status == VT220_OK) status = open_window(&c->shown, language, rows, columns);
    if (status == VT220_OK) status = vt220_copy(&c->shown, &s->host);
    if (status == VT220_OK && !vt220_is_between(&c->shown)) vt220_feed(&c->shown, &can, 1, NULL, 0, NULL);
    if (status == VT220_OK) status = vt220_repaint(&c->shown, &s->scratch, s->out, s->size, &len);
    if (status == VT220_OK) deliver(c, s->out, len);
    return status;
}

/* Brings a client to what the host shows now. */
static uint32_t bring(server *s, client *c) {
    size_t len;
    uint32_t status;
    if (c->language != VT220_XTERM) status = vt220_update(&c->shown, &s->host, &s->scratch, s->out, s->size, &len);
    else if ((status = vt220_repaint(&s->host, &s->scratch, s->out, s->size, &len)) == VT220_OK) status = vt220_copy(&c->shown, &s->host);
    if (status == VT220_OK) deliver(c, s->out, len);
    return status;
}

/* Brings each client to what the host shows now. Inside a sequence there is no update and no repaint, and nothing to show: later ones have it. */
static uint32_t update(server *s) {
    uint32_t status = VT220_OK;
    for (size_t i = 0; status == VT220_OK && i < s->count; i++) status = bring(s, &s->clients[i]);
    return status == VT220_PARTIAL ? VT220_OK : status;
}

/* Plays what the host sends, writes the replies to it, which are standard error here, and updates the clients. */
static uint32_t hear(server *s, const uint8_t *from, size_t len) {
    uint8_t replies[512];
    size_t written;
    for (size_t at = 0; at < len;) {
        at += vt220_feed(&s->host, from + at, len - at, replies, sizeof replies, &written);
        fwrite(replies, 1, written, stderr);
    }
    return update(s);
}

/* Changes the size of the host's window. The host hears of it by TIOCSWINSZ of its pseudo-terminal, and each client by a message. Both ends change
 * their terminals alike, so that an update still starts at what the client shows. */
static uint32_t change_size(server *s, size_t rows, size_t columns) {
    uint32_t status = vt220_resize(&s->host, rows, columns);
    if (status == VT220_OK) status = fit(s);
    for (size_t i = 0; status == VT220_OK && i < s->count; i++) {
        status = vt220_resize(&s->clients[i].terminal, rows, columns); /* the client's part */
        if (status == VT220_OK) status = vt220_resize(&s->clients[i].shown, rows, columns);
    }
    return status == VT220_OK ? update(s) : status;
}

/* Prints what happened, and what each client got. Returns the status. */
static uint32_t tell(server *s, const char *what, uint32_t status) {
    printf("%s:", what);
    for (size_t i = 0; i < s->count; i++) {
        printf(" %zu", s->clients[i].sent);
        s->clients[i].sent = 0;
    }
    printf(" bytes\n");
    return status;
}

static uint32_t hear_text(server *s, const char *text) { return hear(s, (const uint8_t *)text, strlen(text)); }

int main(void) {
    server s = {.out = NULL};
    uint32_t status = open_server(&s, 24, 80);
    if (status == VT220_OK) status = tell(&s, "a VT220 joins", join(&s, VT220_BYTES));
    if (status == VT220_OK) status = tell(&s, "the host writes a prompt", hear_text(&s, "$ make\r\n"));
    if (status == VT220_OK) status = tell(&s, "it begins a title", hear_text(&s, "\033[7mbuilding\033[m\033]0;a title"));
    if (status == VT220_OK) status = tell(&s, "an xterm joins", join(&s, VT220_XTERM));
    if (status == VT220_OK) status = tell(&s, "the title ends", hear_text(&s, " and its end\007\r\nbuilt\r\n$ "));
    if (status == VT220_OK) status = tell(&s, "the window is 40 by 120", change_size(&s, 40, 120));
    if (status == VT220_OK) status = tell(&s, "an editor begins", hear_text(&s, "vi\r\n\033[?1049h\033[40;1H~"));
    for (size_t i = 0; i < s.count; i++)
        printf("client %zu: %s\n", i + 1, vt220_same_state(&s.clients[i].terminal, &s.host) ? "as the host's terminal" : "another screen");
    if (status != VT220_OK) fprintf(stderr, "serve: %s\n", vt220_status_text(status));
    close_server(&s);
    return status != VT220_OK;
}
