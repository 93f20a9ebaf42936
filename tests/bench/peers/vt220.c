/* vt220 [SIZE [LANGUAGE [drop]]]: plays standard input through the library for C, in pieces of SIZE bytes (4096). LANGUAGE is 0 for a VT220's
 * bytes, 1 for UTF-8 and 2 for TERM=xterm. There are 40960 bytes for the reports, or none with `drop`. */
#include "vt220.h"
#include <stdio.h>
#include <stdlib.h>

int main(int argc, char **argv)
{
    static uint8_t piece[4096], reports[40960];
    size_t n, written, size = argc > 1 ? strtoul(argv[1], NULL, 10) : sizeof piece;
    uint32_t language = argc > 2 ? strtoul(argv[2], NULL, 10) : VT220_BYTES;
    bool drops = argc > 3;
    vt220 t = VT220_INIT;
    if (size > sizeof piece || vt220_open_as(&t, language, VT220_ROWS, 80) != VT220_OK)
        return 1;
    while ((n = fread(piece, 1, size, stdin)) > 0)
        for (size_t at = 0; at < n;)
            at += vt220_feed(&t, piece + at, n - at, drops ? NULL : reports, drops ? 0 : sizeof reports, drops ? NULL : &written);
    vt220_close(&t);
    return 0;
}
