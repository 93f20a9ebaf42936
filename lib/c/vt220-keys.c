/* The calls of vt220-keys.h. The table has the keys of EK-VT220-RM, chapter 3, and those of xterm (ctlseqs, 'PC-Style Function Keys'). */
#include "vt220-keys.h"
#include <string.h>

enum { ESC = 0x1B, SS3 = 0x8F, CSI = 0x9B, LAST_ASCII = 0x7F, LAST_C1 = 0x9F };

/* What a key sends. */
enum form {
    NOTHING,  /* nothing: the key is local */
    PLAIN,    /* its code */
    RETURN,   /* CR, or CR LF if LNM is set */
    FUNCTION, /* CSI and its code */
    CURSOR,   /* CSI and its code, or SS3 and its code if DECCKM is set */
    PF,       /* SS3 and its code */
    KEYPAD,   /* its character, or SS3 and its code if DECKPAM is set */
};

typedef struct sequence {
    enum form form;
    const char *code;
} sequence;

typedef struct key_row {
    const char *name, *other; /* `other` is null if the key has one name */
    char character;           /* what a key of the keypad sends in numeric mode: CR is sent as Return sends it; otherwise 0 */
    sequence vt220, xterm;    /* what it sends on either */
} key_row;

/* A key that sends the same on both. */
#define SAME(name, other, form, code) {name, other, 0, {form, code}, {form, code}}
#define ON_KEYPAD(name, code, character) {name, NULL, character, {KEYPAD, code}, {KEYPAD, code}}

static const key_row keys[] = {
    /* The main keypad. */
    SAME("Return", "Enter", RETURN, ""),
    SAME("Delete", "Backspace", PLAIN, "\x7F"),
    SAME("Tab", NULL, PLAIN, "\t"),
    SAME("Space", NULL, PLAIN, " "),
    SAME("Escape", NULL, PLAIN, "\x1B"),
    /* The editing keypad. */
    {"Find", "Home", 0, {FUNCTION, "1~"}, {CURSOR, "H"}},
    SAME("InsertHere", "Insert", FUNCTION, "2~"),
    SAME("Remove", NULL, FUNCTION, "3~"),
    {"Select", "End", 0, {FUNCTION, "4~"}, {CURSOR, "F"}},
    SAME("PrevScreen", "PageUp", FUNCTION, "5~"),
    SAME("NextScreen", "PageDown", FUNCTION, "6~"),
    /* The cursor keys. */
    SAME("Up", NULL, CURSOR, "A"),
    SAME("Down", NULL, CURSOR, "B"),
    SAME("Right", NULL, CURSOR, "C"),
    SAME("Left", NULL, CURSOR, "D"),
    /* The numeric keypad. */
    SAME("PF1", "F1", PF, "P"),
    SAME("PF2", "F2", PF, "Q"),
    SAME("PF3", "F3", PF, "R"),
    SAME("PF4", "F4", PF, "S"),
    ON_KEYPAD("KP0", "p", '0'),
    ON_KEYPAD("KP1", "q", '1'),
    ON_KEYPAD("KP2", "r", '2'),
    ON_KEYPAD("KP3", "s", '3'),
    ON_KEYPAD("KP4", "t", '4'),
    ON_KEYPAD("KP5", "u", '5'),
    ON_KEYPAD("KP6", "v", '6'),
    ON_KEYPAD("KP7", "w", '7'),
    ON_KEYPAD("KP8", "x", '8'),
    ON_KEYPAD("KP9", "y", '9'),
    ON_KEYPAD("KPMinus", "m", '-'),
    ON_KEYPAD("KPComma", "l", ','),
    ON_KEYPAD("KPPeriod", "n", '.'),
    ON_KEYPAD("KPEnter", "M", '\r'),
    /* The function keys of the top row. Those from F13 are Shift with F1 to F8 on an xterm, as terminfo has them for xterm-256color. */
    {"F5", NULL, 0, {NOTHING, ""}, {FUNCTION, "15~"}},
    SAME("F6", NULL, FUNCTION, "17~"),
    SAME("F7", NULL, FUNCTION, "18~"),
    SAME("F8", NULL, FUNCTION, "19~"),
    SAME("F9", NULL, FUNCTION, "20~"),
    SAME("F10", NULL, FUNCTION, "21~"),
    SAME("F11", NULL, FUNCTION, "23~"),
    SAME("F12", NULL, FUNCTION, "24~"),
    {"F13", NULL, 0, {FUNCTION, "25~"}, {FUNCTION, "1;2P"}},
    {"F14", NULL, 0, {FUNCTION, "26~"}, {FUNCTION, "1;2Q"}},
    {"Help", "F15", 0, {FUNCTION, "28~"}, {FUNCTION, "1;2R"}},
    {"Do", "F16", 0, {FUNCTION, "29~"}, {FUNCTION, "1;2S"}},
    {"F17", NULL, 0, {FUNCTION, "31~"}, {FUNCTION, "15;2~"}},
    {"F18", NULL, 0, {FUNCTION, "32~"}, {FUNCTION, "17;2~"}},
    {"F19", NULL, 0, {FUNCTION, "33~"}, {FUNCTION, "18;2~"}},
    {"F20", NULL, 0, {FUNCTION, "34~"}, {FUNCTION, "19;2~"}},
};

enum { KEYS = sizeof keys / sizeof keys[0] };

/* --- what a key sends --- */

typedef struct sent_bytes {
    uint8_t at[VT220_KEY_LIMIT];
    size_t len;
} sent_bytes;

static void add_byte(sent_bytes *sent, uint8_t byte) { sent->at[sent->len++] = byte; }

/* Adds a C1 control, in 8-bit form or as ESC and a letter, and the code after it. */
static void add_sequence(sent_bytes *sent, uint8_t control, const char *code, const vt220_mode_set *modes) {
    if (modes->reports_8bit) {
        add_byte(sent, control);
    } else {
        add_byte(sent, ESC);
        add_byte(sent, (uint8_t)(control - 0x40));
    }
    for (; *code != 0; code++) add_byte(sent, (uint8_t)*code);
}

static void add_return(sent_bytes *sent, const vt220_mode_set *modes) {
    add_byte(sent, '\r');
    if (modes->lnm) add_byte(sent, '\n');
}

static void add_keypad_key(sent_bytes *sent, const key_row *key, const char *code, const vt220_mode_set *modes) {
    if (modes->keypad_application) add_sequence(sent, SS3, code, modes);
    else if (key->character == '\r') add_return(sent, modes);
    else add_byte(sent, (uint8_t)key->character);
}

static void add_key(sent_bytes *sent, const key_row *key, sequence is, const vt220_mode_set *modes) {
    switch (is.form) {
    case NOTHING: break;
    case PLAIN: add_byte(sent, (uint8_t)*is.code); break;
    case RETURN: add_return(sent, modes); break;
    case FUNCTION: add_sequence(sent, CSI, is.code, modes); break;
    case CURSOR: add_sequence(sent, modes->decckm ? SS3 : CSI, is.code, modes); break;
    case PF: add_sequence(sent, SS3, is.code, modes); break;
    case KEYPAD: add_keypad_key(sent, key, is.code, modes); break;
    }
}

/* What the modifiers add to the number that xterm puts before the final byte. Without any it is 1. */
enum { SHIFT = 1, ALT = 2, CTRL = 4 };

/* Adds what a key of an xterm sends with modifiers: CSI, the number of its code or 1, the number of the modifiers, and its final byte. A
 * code can have modifiers of its own. Only Shift and Tab send another sequence. Adds nothing if the key has none with these modifiers. */
static void add_with_modifiers(sent_bytes *sent, sequence is, unsigned held, const vt220_mode_set *modes) {
    size_t digits = 0;
    while (is.code[digits] >= '0' && is.code[digits] <= '9') digits++;
    const char *rest = is.code + digits;
    if (is.form == PLAIN && *is.code == '\t' && held == SHIFT) add_sequence(sent, CSI, "Z", modes);
    if (is.form != FUNCTION && is.form != CURSOR && is.form != PF) return;
    add_sequence(sent, CSI, "", modes);
    for (size_t at = 0; at < digits; at++) add_byte(sent, (uint8_t)is.code[at]);
    if (digits == 0) add_byte(sent, '1');
    if (*rest == ';') held |= (unsigned)(rest[1] - '1'), rest += 2;
    add_byte(sent, ';');
    add_byte(sent, (uint8_t)('1' + held));
    add_byte(sent, (uint8_t)*rest);
}

/* --- names and sequences --- */

static char upper(char c) { return c >= 'a' && c <= 'z' ? (char)(c - 'a' + 'A') : c; }

static bool is_name(const char *name, const char *text, size_t len) {
    if (name == NULL) return false;
    for (size_t at = 0; at < len; at++) {
        if (text[at] == '_') continue;
        if (*name == 0 || upper(*name) != upper(text[at])) return false;
        name++;
    }
    return *name == 0;
}

/* Returns what a key sends in a language. */
static sequence sequence_in(uint32_t language, const key_row *key) { return language & VT220_XTERM ? key->xterm : key->vt220; }

static const key_row *key_named(const char *text, size_t len) {
    for (size_t i = 0; i < KEYS; i++) {
        if (is_name(keys[i].name, text, len) || is_name(keys[i].other, text, len)) return &keys[i];
    }
    return NULL;
}

/* Returns whether a key of this form sends sequences that begin with ESC and this byte. */
static bool has_introducer(enum form form, char introducer) {
    switch (form) {
    case FUNCTION: return introducer == '[';
    case PF:
    case KEYPAD: return introducer == 'O';
    case CURSOR: return true;
    default: return false;
    }
}

static bool is_sequence(sequence is, const char *text, size_t len) {
    return strlen(is.code) == len - 2 && memcmp(is.code, text + 2, len - 2) == 0 && has_introducer(is.form, text[1]);
}

/* Returns the key that sends a sequence, or null. */
static const key_row *key_sending(uint32_t language, const char *text, size_t len) {
    if (len < 3 || text[0] != ESC || (text[1] != '[' && text[1] != 'O')) return NULL;
    if (len == 3 && text[2] == 'H') return key_named("Home", 4);
    if (len == 3 && text[2] == 'F') return key_named("End", 3);
    for (size_t i = 0; i < KEYS; i++) {
        if (is_sequence(keys[i].vt220, text, len) || is_sequence(sequence_in(language, &keys[i]), text, len)) return &keys[i];
    }
    return NULL;
}

/* Returns the modifier with which a name begins, as `S-`, and 0 if it has none. C-X is a key by itself. */
static unsigned modifier_of(const char *text, size_t len) {
    if (len < 4 || text[1] != '-') return 0;
    switch (upper(*text)) {
    case 'S': return SHIFT;
    case 'A': return ALT;
    case 'C': return CTRL;
    default: return 0;
    }
}

/* Returns what Ctrl and a key send, or -1 if that is nothing. */
static int control_of(char key) {
    char c = upper(key);
    if (c >= '@' && c <= '_') return c - '@';
    switch (c) {
    case ' ':
    case '2': return 0x00;
    case '3': return 0x1B;
    case '4': return 0x1C;
    case '5': return 0x1D;
    case '6':
    case '~': return 0x1E;
    case '7':
    case '?': return 0x1F;
    case '8': return 0x7F;
    default: return -1;
    }
}

/* Returns what C-X or ^X sends, or -1 if the text is neither. In caret notation ^? is DEL, which the key ? with Ctrl doesn't send. */
static int control_named(const char *text, size_t len) {
    if (len == 2 && text[0] == '^') return text[1] == '?' ? 0x7F : control_of(text[1]);
    if (len == 3 && upper(text[0]) == 'C' && text[1] == '-') return control_of(text[2]);
    return -1;
}

/* --- characters --- */

/* Returns how many bytes of UTF-8 a first byte begins. It is 1 for a byte that begins none. */
static size_t utf8_length(uint8_t first) {
    if (first >= 0xC2 && first <= 0xDF) return 2;
    if (first >= 0xE0 && first <= 0xEF) return 3;
    if (first >= 0xF0 && first <= 0xF4) return 4;
    return 1;
}

/* Reads the text as one character. Returns false if it isn't one. */
static bool is_character(const char *text, size_t len, uint32_t *character) {
    static const uint32_t least[] = {0, 0, 0x80, 0x800, 0x10000};
    if (len == 0 || utf8_length((uint8_t)text[0]) != len) return false;
    uint32_t code = (uint8_t)text[0];
    if (len == 1) {
        *character = code;
        return code <= LAST_ASCII;
    }
    code &= 0xFFu >> (len + 1);
    for (size_t at = 1; at < len; at++) {
        if (((uint8_t)text[at] & 0xC0) != 0x80) return false;
        code = code << 6 | ((uint8_t)text[at] & 0x3F);
    }
    *character = code;
    return code >= least[len] && code <= 0x10FFFF && (code < 0xD800 || code > 0xDFFF);
}

/* Returns the byte that shows a character in the DEC Supplemental set, or 0 if none does. */
static uint8_t supplemental_byte(uint32_t character) {
    switch (character) {
    /* Five characters have another place than their number in Unicode. */
    case 0x00A4: return 0xA8;
    case 0x0152: return 0xD7;
    case 0x0178: return 0xDD;
    case 0x0153: return 0xF7;
    case 0x00FF: return 0xFD;
    /* Four of these places are taken by them. */
    case 0xA8: case 0xD7: case 0xDD: case 0xF7: case 0xFD: return 0;
    /* These places are undefined. */
    case 0xA6: case 0xAC: case 0xAD: case 0xAE: case 0xAF: case 0xB4: case 0xB8: case 0xBE: case 0xD0: case 0xDE: case 0xF0: case 0xFE: return 0;
    default: return character >= 0xA1 && character <= 0xFE ? (uint8_t)character : 0;
    }
}

/* --- the calls --- */

/* Adds what a character sends. In UTF-8 one beyond ASCII sends itself, but a C1 control doesn't. */
static uint32_t add_character(sent_bytes *sent, uint32_t language, const vt220_mode_set *modes, uint32_t character, const char *text, size_t len) {
    if (language != VT220_BYTES && character > LAST_C1) {
        for (size_t at = 0; at < len; at++) add_byte(sent, (uint8_t)text[at]);
        return VT220_OK;
    }
    uint8_t byte = character <= LAST_ASCII ? (uint8_t)character : supplemental_byte(character);
    if (character > LAST_ASCII && byte == 0) return VT220_NO_CHARACTER;
    if (character == '\r') add_return(sent, modes);
    else add_byte(sent, byte);
    return VT220_OK;
}

/* Adds what a key with a name or a sequence sends. Returns VT220_OK or VT220_NO_KEY. */
static uint32_t add_named(sent_bytes *sent, uint32_t language, const vt220_mode_set *modes, const char *text, size_t len) {
    unsigned held = 0;
    for (unsigned one; (language & VT220_XTERM) && (one = modifier_of(text, len)) != 0; text += 2, len -= 2) held |= one;
    const key_row *key = key_named(text, len);
    if (key == NULL && held == 0) key = key_sending(language, text, len);
    if (key == NULL) return VT220_NO_KEY;
    if (held == 0) add_key(sent, key, sequence_in(language, key), modes);
    else add_with_modifiers(sent, sequence_in(language, key), held, modes);
    return sent->len > 0 ? VT220_OK : VT220_NO_KEY;
}

/* Adds what a key sends. Returns VT220_OK, VT220_NO_KEY or VT220_NO_CHARACTER. */
static uint32_t add_sent(sent_bytes *sent, uint32_t language, const vt220_mode_set *modes, const char *text, size_t len) {
    uint32_t character;
    if (is_character(text, len, &character)) return add_character(sent, language, modes, character, text, len);
    int control = control_named(text, len);
    if (control < 0) return add_named(sent, language, modes, text, len);
    add_byte(sent, (uint8_t)control);
    return VT220_OK;
}

uint32_t vt220_key(uint32_t language, const vt220_mode_set *modes, const char *key, size_t len, uint8_t *out, size_t size, size_t *written) {
    sent_bytes sent = {{0}, 0};
    uint32_t status = add_sent(&sent, language, modes, key, len);
    *written = sent.len;
    if (status != VT220_OK) return status;
    if (size < sent.len) return VT220_ROOM;
    memcpy(out, sent.at, sent.len);
    return VT220_OK;
}

/* Returns the length of the sequence that ESC begins, 0 if its end is missing, and 1 if ESC is a key by itself. */
static size_t sequence_length(const char *typed, size_t len) {
    if (len < 2) return 1;
    if (typed[1] == 'O') return len < 3 ? 0 : typed[2] >= 0x40 && typed[2] <= 0x7E ? 3 : 1;
    if (typed[1] != '[') return 1;
    for (size_t at = 2; at < VT220_TYPED_LIMIT; at++) {
        if (at == len) return 0;
        if (typed[at] >= 0x40 && typed[at] <= 0x7E) return at + 1;
        if (typed[at] < 0x20 || typed[at] > 0x3F) return 1;
    }
    return 1;
}

/* Returns the length of the character at the front, 0 if its end is missing, and 1 for another byte. */
static size_t character_length(const char *typed, size_t len) {
    size_t wanted = utf8_length((uint8_t)typed[0]);
    for (size_t at = 1; at < wanted; at++) {
        if (at == len) return 0;
        if (((uint8_t)typed[at] & 0xC0) != 0x80) return 1;
    }
    return wanted;
}

size_t vt220_key_length(const char *typed, size_t len) {
    if (len == 0) return 0;
    return typed[0] == ESC ? sequence_length(typed, len) : character_length(typed, len);
}
