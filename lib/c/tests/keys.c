/* keys FILE: the keyboard. FILE is keys.rows of lib/rows/flat.py. Characters are those that a terminal shows. */
#include "rows.h"
#include "vt220-keys.h"

enum { SETTINGS = 16, UNDEFINED = 0x2426, LAST_CHARACTER = 0x10FFFF };

/* The sixteen settings of the four modes that the keyboard reads, in the order of keys.txt. All other modes are set, too, if `others`. */
static vt220_mode_set modes_of(unsigned setting, bool others) {
    vt220_mode_set modes;
    memset(&modes, others ? 1 : 0, sizeof modes);
    modes.lnm = setting & 8;
    modes.decckm = setting & 4;
    modes.keypad_application = setting & 2;
    modes.reports_8bit = setting & 1;
    return modes;
}

/* What vt220_key returned and wrote. */
typedef struct outcome {
    uint32_t status;
    size_t written;
    uint8_t out[VT220_KEY_LIMIT];
} outcome;

static outcome sent_in(uint32_t language, const char *key, size_t len, unsigned setting, bool others) {
    vt220_mode_set modes = modes_of(setting, others);
    outcome is;
    memset(&is, 0xA5, sizeof is);
    is.status = vt220_key(language, &modes, key, len, is.out, sizeof is.out, &is.written);
    return is;
}

static outcome sent_by(const char *key, size_t len, unsigned setting, bool others) { return sent_in(VT220_BYTES, key, len, setting, others); }

static bool has_sent(const outcome *is, const uint8_t *bytes, size_t len) {
    return is->status == VT220_OK && is->written == len && memcmp(is->out, bytes, len) == 0;
}

static bool is_error(const outcome *is, uint32_t status) {
    return is->status == status && is->written == 0 && is->out[0] == 0xA5;
}

/* --- the rows --- */

/* A sequence that a key sends is the same key under every setting. */
static void check_sequence(const bytes *sent, const char *key) {
    if (sent->len < 3 || sent->at[0] != 0x1B) return;
    for (unsigned setting = 0; setting < SETTINGS; setting++) {
        outcome named = sent_by(key, strlen(key), setting, false), passed_on = sent_by((const char *)sent->at, sent->len, setting, false);
        check(named.status == VT220_OK && has_sent(&passed_on, named.out, named.written), key, "a sequence");
    }
    check(vt220_key_length((const char *)sent->at, sent->len) == sent->len, key, "the length of a sequence");
}

static void one_row(char **fields, size_t count) {
    const uint32_t language = (uint32_t)strtoul(fields[0], NULL, 10), status = fields[3][0] != 'n' ? VT220_OK : strcmp(fields[3], "no key") == 0 ? VT220_NO_KEY : VT220_NO_CHARACTER;
    const unsigned setting = (unsigned)strtoul(fields[1], NULL, 10);
    bytes wanted = unhexed(status == VT220_OK ? fields[3] : "");
    if (count != 4) abort();
    for (int others = 0; others < 2; others++) {
        outcome now = sent_in(others && language == VT220_XTERM ? VT220_XTERM | VT220_UTF8 : language, fields[2], strlen(fields[2]), setting, others);
        bool holds = status == VT220_OK ? has_sent(&now, wanted.at, wanted.len) : is_error(&now, status);
        check(holds, fields[2], fields[1]);
        if (!holds) print_bytes("expected", wanted.at, wanted.len), print_bytes("got", now.out, now.written);
    }
    if (language == VT220_BYTES) check_sequence(&wanted, fields[2]);
    free(wanted.at);
}

/* --- characters --- */

static size_t put_utf8(uint32_t code, char *to) {
    if (code < 0x80) return to[0] = (char)code, 1;
    size_t len = code < 0x800 ? 2 : code < 0x10000 ? 3 : 4;
    for (size_t at = len; at-- > 1; code >>= 6) to[at] = (char)(0x80 | (code & 0x3F));
    to[0] = (char)((0xF00u >> len & 0xFF) | code);
    return len;
}

/* Each byte of the right half has the key of the character that it shows, and no other character has a key. */
static void right_half(void) {
    static uint8_t byte_of[LAST_CHARACTER + 1];
    vt220 t = VT220_INIT;
    vt220_cell cells[VT220_COLUMNS];
    uint8_t none[VT220_REPORT_LIMIT], sent;
    size_t written, shown = 0;
    unsigned long wrong = 0;
    CHECK(vt220_open(&t) == VT220_OK);
    for (unsigned byte = 0xA0; byte <= 0xFF; byte++) {
        sent = (uint8_t)byte;
        vt220_reset(&t);
        vt220_feed(&t, &sent, 1, none, sizeof none, &written);
        vt220_row(&t, 1, cells, VT220_COLUMNS);
        if (cells[0].glyph == ' ' || cells[0].glyph == UNDEFINED) continue;
        byte_of[cells[0].glyph] = sent;
        shown++;
    }
    vt220_close(&t);
    CHECK(shown == 81);
    for (uint32_t code = 0x80; code <= LAST_CHARACTER; code++) {
        char text[4];
        if (code >= 0xD800 && code <= 0xDFFF) continue;
        outcome is = sent_by(text, put_utf8(code, text), 0, false);
        wrong += byte_of[code] != 0 ? !has_sent(&is, &byte_of[code], 1) : !is_error(&is, VT220_NO_CHARACTER);
    }
    CHECK(wrong == 0);
}

/* In UTF-8 each character beyond ASCII sends itself, and a C1 control has no key. */
static void in_utf8(void) {
    unsigned long wrong = 0;
    for (uint32_t code = 0x80; code <= LAST_CHARACTER; code++) {
        char text[4];
        if (code >= 0xD800 && code <= 0xDFFF) continue;
        size_t len = put_utf8(code, text);
        outcome is = sent_in(code % 2 == 0 ? VT220_UTF8 : VT220_XTERM, text, len, 0, false);
        wrong += code < 0xA0 ? !is_error(&is, VT220_NO_CHARACTER) : !has_sent(&is, (const uint8_t *)text, len);
    }
    CHECK(wrong == 0);
    outcome up = sent_in(VT220_UTF8, "Home", 4, 4, false);
    CHECK(has_sent(&up, BYTES("\033[1~")));
}

static void ascii(void) {
    for (unsigned code = 0; code < 0x80; code++) {
        char text = (char)code;
        uint8_t byte = (uint8_t)code;
        for (unsigned setting = 0; setting < SETTINGS; setting++) {
            outcome is = sent_by(&text, 1, setting, false), pressed = sent_by("Return", 6, setting, false);
            check(code == '\r' ? has_sent(&is, pressed.out, pressed.written) : has_sent(&is, &byte, 1), "a character sends itself, and CR is Return", "ascii");
        }
    }
}

/* --- errors, buffers and lengths --- */

static void is_no_key(const char *text, size_t len) {
    outcome is = sent_by(text, len, 0, false);
    check(is_error(&is, VT220_NO_KEY), "no key", text);
}

static void is_no_key_of_an_xterm(const char *text) {
    outcome is = sent_in(VT220_XTERM, text, strlen(text), 0, false);
    check(is_error(&is, VT220_NO_KEY), "no key of an xterm", text);
}

static void errors(void) {
    vt220_mode_set modes = modes_of(0, false);
    uint8_t out[VT220_KEY_LIMIT] = {0xA5};
    size_t written;
    CHECK(vt220_key(VT220_BYTES, &modes, "F20", 3, out, 4, &written) == VT220_ROOM && written == 5 && out[0] == 0xA5);
    CHECK(vt220_key(VT220_BYTES, &modes, "a", 1, NULL, 0, &written) == VT220_ROOM && written == 1);
    CHECK(vt220_key(VT220_BYTES, &modes, NULL, 0, out, sizeof out, &written) == VT220_NO_KEY && written == 0);
    is_no_key("Up", 1 + 2); /* with its null byte */
    is_no_key("Upside", 3);
    is_no_key("\x80", 1);
    is_no_key("\xE9", 1);
    is_no_key("\xC3", 1);
    is_no_key("\xC1\xA1", 2);
    is_no_key("\xE0\x83\xA9", 3);
    is_no_key("\xED\xA0\x80", 3);
    is_no_key("\xF4\x90\x80\x80", 4);
    is_no_key("\xC3\xA9\xA9", 3);
    is_no_key("\033[15~", 5);
    is_no_key("\033[1;5A", 6);
    is_no_key("\033[P", 3);
    is_no_key("\033[", 2);
    is_no_key("\033OH~", 4);
    is_no_key_of_an_xterm("\033[1;5A"), is_no_key_of_an_xterm("C-S-\033[A"), is_no_key_of_an_xterm("X-Up"), is_no_key_of_an_xterm("S-");
    CHECK(strcmp(vt220_status_text(VT220_NO_KEY), "there is no such key") == 0);
    CHECK(strcmp(vt220_status_text(VT220_NO_CHARACTER), "no key sends this character") == 0);
    CHECK(vt220_key(VT220_BYTES, &modes, "Upside", 2, out, sizeof out, &written) == VT220_OK && written == 3);
}

static void lengths(void) {
    static const struct {
        const char *typed;
        size_t len, first;
    } all[] = {{"", 0, 0},           {"a", 1, 1},         {"ab", 2, 1},           {"\033", 1, 1},          {"\033\033", 2, 1},    {"\033[", 2, 0},
               {"\033[A", 3, 3},     {"\033[Ax", 4, 3},   {"\033O", 2, 0},        {"\033OAx", 4, 3},       {"\033[1", 3, 0},      {"\033[1;5Ax", 7, 6},
               {"\033x", 2, 1},      {"\033[\r", 3, 1},   {"\xC3", 1, 0},         {"\xC3\xA9\xA9", 3, 2},  {"\xE2\x82", 2, 0},    {"\xE2\x82\xAC", 3, 3},
               {"\xC3x", 2, 1},      {"\xE9", 1, 0},      {"\xE9x", 2, 1},        {"\xA9", 1, 1},          {"\xFF\xFF", 2, 1},    {"\xF0\x9F\x98\x80x", 5, 4},
               {"\033[1234567890123", 15, 0}, {"\033[1234567890123~", 16, 16}, {"\033[12345678901234", 16, 1}};
    for (size_t i = 0; i < sizeof all / sizeof all[0]; i++) check(vt220_key_length(all[i].typed, all[i].len) == all[i].first, all[i].typed, "its length");
}

int main(int argc, char **argv) {
    if (argc != 2) return 2;
    CHECK(each_row(argv[1], one_row) > 6000);
    right_half();
    in_utf8();
    ascii();
    errors();
    lengths();
    return finish("keys");
}
