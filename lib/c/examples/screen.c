/* screen: plays standard input on a terminal, writes the reports to standard error, and prints the screen.
 *   make lib && gcc -Ilib/c/include -o screen lib/c/examples/screen.c out/libvt220.a */
#include <vt220.h>
#include <stdio.h>

int main(void) {
    static uint8_t bytes[4096], reports[40960], text[VT220_TEXT_LIMIT];
    vt220 terminal = VT220_INIT;
    vt220_scratch scratch = VT220_INIT;
    size_t len, written;
    uint32_t status = vt220_open(&terminal);
    if (status == VT220_OK) status = vt220_scratch_open(&scratch);
    while (status == VT220_OK && (len = fread(bytes, 1, sizeof bytes, stdin)) > 0) {
        for (size_t at = 0; at < len;) { /* as often as the reports need */
            at += vt220_feed(&terminal, bytes + at, len - at, reports, sizeof reports, &written);
            fwrite(reports, 1, written, stderr);
        }
    }
    if (status == VT220_OK) status = vt220_text(&terminal, &scratch, text, sizeof text, &len);
    if (status == VT220_OK) fwrite(text, 1, len, stdout);
    else fprintf(stderr, "screen: %s\n", vt220_status_text(status));
    vt220_scratch_close(&scratch);
    vt220_close(&terminal);
    return status != VT220_OK || ferror(stdin);
}
