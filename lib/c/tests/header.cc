// The headers from C++.
#include "check.h"
#include "vt220-keys.h"

static_assert(sizeof(vt220_cell) == 12, "a cell is twelve bytes");

int main() {
    vt220 t = VT220_INIT, x = VT220_INIT;
    vt220_scratch s = VT220_INIT;
    static uint8_t out[VT220_TEXT_LIMIT];
    size_t written = 0;
    CHECK(vt220_open(&t) == VT220_OK && vt220_scratch_open(&s) == VT220_OK);
    CHECK(vt220_feed(&t, BYTES("C++"), out, sizeof out, &written) == 3);
    CHECK(vt220_text(&t, &s, out, sizeof out, &written) == VT220_OK && memcmp(out, "C++\n", 4) == 0);
    vt220_mode_set modes;
    CHECK(vt220_modes(&t, &modes) && vt220_key(VT220_BYTES, &modes, "Up", 2, out, sizeof out, &written) == VT220_OK && memcmp(out, "\033[A", written) == 0);
    CHECK(vt220_open_as(&x, VT220_XTERM, VT220_ROWS, 80) == VT220_OK && vt220_feed(&x, BYTES("\033[?47h"), out, sizeof out, &written) == 6 && kept_by(&x).alternate);
    vt220_close(&x);
    vt220_close(&t);
    vt220_scratch_close(&s);
    return finish("header");
}
