/* Characters of UTF-8 that are well-formed. For vt220-keep and vt220-play. */
#ifndef UTF8_H
#define UTF8_H

#include <stddef.h>
#include <stdint.h>

enum { UTF8_LIMIT = 3 /* the most bytes of a glyph */ };

/* Writes a glyph of the terminal. Returns how many bytes it has. */
static inline size_t utf8_put(uint32_t glyph, char *to) {
    if (glyph < 0x80) {
        to[0] = (char)glyph;
        return 1;
    }
    if (glyph < 0x800) {
        to[0] = (char)(0xC0 | glyph >> 6);
        to[1] = (char)(0x80 | (glyph & 0x3F));
        return 2;
    }
    to[0] = (char)(0xE0 | glyph >> 12);
    to[1] = (char)(0x80 | (glyph >> 6 & 0x3F));
    to[2] = (char)(0x80 | (glyph & 0x3F));
    return 3;
}

/* Reads the first character, and returns the address after it. It reads nothing after a byte that no character goes on with. */
static inline const uint8_t *utf8_read(const uint8_t *at, uint32_t *character) {
    size_t more = *at >= 0xF0 ? 3 : *at >= 0xE0 ? 2 : *at >= 0xC0 ? 1 : 0;
    *character = more > 0 ? *at & 0x3Fu >> more : *at;
    for (at++; more > 0 && (*at & 0xC0) == 0x80; at++, more--) *character = *character << 6 | (*at & 0x3F);
    return at;
}

#endif
