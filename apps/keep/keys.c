/* What is typed on the outer terminal, as the keys of a VT220 or of an xterm.
 *
 * Outer terminals send the cursor keys as `ESC [ A` or `ESC O A`, whichever their own mode asks for, and characters beyond ASCII as
 * UTF-8. vt220_key turns each key into what the program's terminal asks for. */
#include "keep.h"
#include <stdio.h>
#include <stdlib.h>
#include <string.h>

static vt220_mode_set modes_of(const vt220 *t) {
    vt220_mode_set modes;
    memset(&modes, 0, sizeof modes);
    vt220_modes(t, &modes);
    return modes;
}

/* Writes a key that was typed. One that the terminal doesn't have passes as it came. */
static size_t put_key(struct keys *keys, const vt220_mode_set *modes, const uint8_t *typed, size_t len, uint8_t *to) {
    size_t put;
    uint32_t status = vt220_key(keys->language, modes, (const char *)typed, len, to, KEYS_GROWTH * len, &put);
    if (status == VT220_NO_CHARACTER) keys->rings = true;
    if (status != VT220_NO_KEY) return put;
    memcpy(to, typed, len);
    return len;
}

/* Returns whether a key is PageUp with Shift, Alt or Ctrl, which a VT220 doesn't have. */
static bool is_scroll_key(const uint8_t *key, size_t len) {
    return len == 6 && memcmp(key, "\033[5;", 4) == 0 && key[4] >= '2' && key[4] <= '8' && key[5] == '~';
}

/* Returns the length of the key at the front, and 0 if its end hasn't come. */
size_t keys_length(const uint8_t *typed, size_t len) {
    return vt220_key_length((const char *)typed, len);
}

/* Writes the keys, at most KEYS_GROWTH bytes for each byte that was typed or held, and holds the beginning of one more. */
size_t keys_translate(struct keys *keys, const vt220 *t, const uint8_t *typed, size_t len, uint8_t *to) {
    uint8_t *all = malloc(keys->held_len + len);
    size_t all_len = keys->held_len + len, at = 0, put = 0;
    vt220_mode_set modes = modes_of(t);
    if (all == NULL) fail(1, "out of memory");
    memcpy(all, keys->held, keys->held_len);
    memcpy(all + keys->held_len, typed, len);
    while (at < all_len) {
        size_t n = keys_length(all + at, all_len - at);
        if (n == 0) break;
        if (keys->can_scroll && is_scroll_key(all + at, n)) keys->scrolls = true;
        else put += put_key(keys, &modes, all + at, n, to + put);
        at += n;
    }
    keys->held_len = all_len - at;
    memcpy(keys->held, all + at, keys->held_len);
    free(all);
    return put;
}

size_t keys_flush(struct keys *keys, uint8_t *to) {
    size_t len = keys->held_len;
    memcpy(to, keys->held, len);
    keys->held_len = 0;
    return len;
}

size_t keys_named(const struct keys *keys, const vt220 *t, const char *name, uint8_t *to) {
    vt220_mode_set modes = modes_of(t);
    size_t put;
    vt220_key(keys->language, &modes, name, strlen(name), to, VT220_KEY_LIMIT, &put);
    return put;
}

/* Tries a word with one character more, less or another one at a place. Returns whether that is a key's name, which `meant` then has. */
static bool is_near(const struct keys *keys, const vt220 *t, const char *word, size_t at, char *meant, size_t room) {
    static const char others[] = "abcdefghijklmnopqrstuvwxyz0123456789";
    uint8_t key[VT220_KEY_LIMIT];
    snprintf(meant, room, "%.*s%s", (int)at, word, word + at + 1);
    if (keys_named(keys, t, meant, key) > 0) return true;
    for (const char *other = others; *other != 0; other++) {
        snprintf(meant, room, "%.*s%c%s", (int)at, word, *other, word + at + 1);
        if (keys_named(keys, t, meant, key) > 0) return true;
        snprintf(meant, room, "%.*s%c%s", (int)at, word, *other, word + at);
        if (keys_named(keys, t, meant, key) > 0) return true;
    }
    return false;
}

/* Returns whether a word that is no key was hardly meant as text: ^ and a character, F and a number, a key of an xterm, or a word with a
 * capital that differs from a key's name by one character. `meant` then has that name, or nothing. */
bool keys_meant(const struct keys *keys, const vt220 *t, const char *word, char *meant, size_t room) {
    const struct keys xterm = {.language = VT220_XTERM};
    uint8_t key[VT220_KEY_LIMIT];
    size_t len = strlen(word);
    bool is_function = word[0] == 'F' && len > 1 && strspn(word + 1, "0123456789") == len - 1;
    *meant = 0;
    if ((word[0] == '^' && len == 2) || is_function || keys_named(&xterm, t, word, key) > 0) return true;
    if (len < 4 || len + 2 > room || word[0] < 'A' || word[0] > 'Z') return false;
    for (size_t at = 0; at < len; at++) {
        if (is_near(keys, t, word, at, meant, room)) return true;
    }
    *meant = 0;
    return false;
}

/* --- the key that detaches --- */

/* KEEP_KEY is a character, or ^ and a character: Ctrl with it detaches. Ctrl-\ does if it isn't set. */
int keys_detach(void) {
    const char *named = getenv("KEEP_KEY");
    if (named == NULL || *named == 0) return 0x1C;
    const char *letter = named[0] == '^' && named[1] != 0 ? named + 1 : named;
    char upper = *letter >= 'a' && *letter <= 'z' ? (char)(*letter - 0x20) : *letter;
    if (letter[1] != 0 || upper < '@' || upper > '_') {
        fail(2, "KEEP_KEY='%s': use ^ and one of A to Z, @, \\, ], ^ or _", named);
    }
    const char *meant = upper == 'M' || upper == 'J' ? "Enter" : upper == 'I' ? "Tab" : upper == '[' ? "ESC, with which function keys begin" : NULL;
    if (meant != NULL) fail(2, "KEEP_KEY='%s' is the key %s; choose another one", named, meant);
    return upper - '@';
}
