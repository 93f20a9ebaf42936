/* updates FILE: the rows of FILE, which is updates.rows of lib/rows/flat.py. */
#include "rows.h"

enum { ROOM = 400000 };

static vt220_scratch s = VT220_INIT;
static uint8_t out[ROOM], other[ROOM];
static size_t written;

static vt220 fed(size_t rows, size_t columns, const bytes *input) {
    vt220 t = opened_as(VT220_BYTES, rows, columns, "");
    CHECK(vt220_feed(&t, input->at, input->len, NULL, 0, NULL) == input->len);
    return t;
}

/* A row of updates: two inputs, and what is sent. */
typedef struct update_row {
    const char *name, *wanted, *value;
    size_t rows, columns;
    bytes from, to;
} update_row;

/* Plays an update in chunks on a terminal, and closes it. Returns whether that leads to the other one's state, without a report. */
static bool leads(vt220 client, const vt220 *to, const uint8_t *update, size_t len, size_t chunk) {
    uint8_t reports[64];
    bool is = true;
    for (size_t at = 0, now, told; at < len && is; at += now) {
        now = len - at < chunk ? len - at : chunk;
        is = vt220_feed(&client, update + at, now, reports, sizeof reports, &told) == now && told == 0;
    }
    is = is && vt220_same_state(&client, to);
    vt220_close(&client);
    return is;
}

/* Checks the bytes of an update. */
static void check_sent(const update_row *r, const vt220 *to, size_t len) {
    size_t painted;
    CHECK(vt220_repaint(to, &s, other, sizeof other, &painted) == VT220_OK);
    if (strcmp(r->wanted, "sent") == 0) {
        bytes sent = unhexed(r->value);
        check_same(&sent, out, len, r->name, "an update");
        free(sent.at);
    } else if (strcmp(r->wanted, "fewer") == 0) check(len < strtoul(r->value, NULL, 10) && len < painted, r->name, "few bytes");
    else if (strcmp(r->wanted, "repaint") == 0) check(len == painted && memcmp(out, other, len) == 0, r->name, "a repaint");
    else check(strcmp(r->wanted, "leads") == 0, r->name, "what is sent");
}

/* Returns whether the repaint of what was shown, and then an update, lead a client that shows something else. */
static bool leads_a_late_client(const update_row *r, const vt220 *to, const uint8_t *update, size_t len) {
    static uint8_t shown[] = "\033[?3hother\033[2;7r\033[1";
    const bytes something = {shown, sizeof shown - 1, 0};
    vt220 from = fed(r->rows, r->columns, &r->from), client = fed(r->rows, r->columns, &something);
    CHECK(vt220_repaint(&from, &s, other, sizeof other, &written) == VT220_OK && vt220_feed(&client, other, written, NULL, 0, NULL) == written);
    vt220_close(&from);
    return leads(client, to, update, len, len + 1);
}

static void play_update(const update_row *r) {
    vt220 shown = fed(r->rows, r->columns, &r->from), to = fed(r->rows, r->columns, &r->to);
    size_t len;
    CHECK(vt220_scratch_fit(&s, &to) == VT220_OK);
    uint32_t status = vt220_update(&shown, &to, &s, out, sizeof out, &len);
    if (strcmp(r->wanted, "partial") == 0) {
        vt220 before = fed(r->rows, r->columns, &r->from);
        check(status == VT220_PARTIAL && len == 0 && vt220_same_state(&shown, &before), r->name, "a sequence");
        vt220_close(&before);
    } else {
        check(status == VT220_OK && vt220_same_state(&shown, &to), r->name, "the state that is shown then");
        check_sent(r, &to, len);
        check(leads(fed(r->rows, r->columns, &r->from), &to, out, len, 1), r->name, "byte by byte");
        check(leads(fed(r->rows, r->columns, &r->from), &to, out, len, len / 2 + 1), r->name, "cut in two");
        check(leads_a_late_client(r, &to, out, len), r->name, "a client that joins late");
        check(vt220_update(&shown, &to, &s, other, sizeof other, &written) == VT220_OK && written == 0, r->name, "nothing after it");
    }
    vt220_close(&shown);
    vt220_close(&to);
}

static void one_row(char **fields, size_t count) {
    if (count != 7) abort();
    update_row r = {fields[0], fields[5], fields[6], strtoul(fields[1], NULL, 10), strtoul(fields[2], NULL, 10), unhexed(fields[3]), unhexed(fields[4])};
    play_update(&r);
    free(r.from.at), free(r.to.at);
}

/* After a soft reset an update sends the cells that differ, if other bytes would pass the capacity of what is chosen: 1200 cells that share neither
 * brush nor set, of at most 28 bytes each. */
static void many_cells(void) {
    static const char two[] = "\033[0;4;5;7m\033[0\"q\033(<i\033[0;1;4;5m\033[1\"q\033(0q";
    bytes from = {0}, to = {0};
    append(&from, BYTES("\033[?3h")), append(&to, BYTES("\033[?3h"));
    for (int i = 0; i < 600; i++) append(&to, BYTES(two));
    vt220 shown = fed(VT220_ROWS, 80, &from), wanted = fed(VT220_ROWS, 80, &to);
    CHECK(vt220_scratch_fit(&s, &wanted) == VT220_OK);
    CHECK(vt220_update(&shown, &wanted, &s, out, sizeof out, &written) == VT220_OK && leads(fed(VT220_ROWS, 80, &from), &wanted, out, written, 1));
    CHECK(written > 16384 && written <= 28 * 1200 + 230 && memcmp(out, "\033[0!p", 5) == 0);
    vt220_close(&shown), vt220_close(&wanted);
    free(from.at), free(to.at);
}

int main(int count, char **words) {
    if (count != 2) return 2;
    CHECK(each_row(words[1], one_row) > 40);
    many_cells();
    vt220_scratch_close(&s);
    return finish("updates");
}
