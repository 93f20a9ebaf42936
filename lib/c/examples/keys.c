/* keys: prints in hex what keys send to a host that has set DECCKM and S8C1T. A key is a character, or a name of vt220-keys.h.
 *   make lib && gcc -Ilib/c/include -o keys lib/c/examples/keys.c out/libvt220.a */
#include "vt220-keys.h"
#include <stdio.h>
#include <string.h>

int main(int argc, char **argv) {
    const vt220_mode_set modes = {.decckm = true, .reports_8bit = true};
    uint8_t sent[VT220_KEY_LIMIT];
    for (int i = 1; i < argc; i++) {
        size_t len;
        uint32_t status = vt220_key(VT220_BYTES, &modes, argv[i], strlen(argv[i]), sent, sizeof sent, &len);
        printf("%s:", argv[i]);
        for (size_t at = 0; at < len; at++) printf(" %02X", sent[at]);
        if (status != VT220_OK) printf(" %s", vt220_status_text(status));
        printf("\n");
    }
    return 0;
}
