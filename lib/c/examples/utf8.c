/* utf8: plays UTF-8 from standard input on a terminal, and prints the screen.
 *   make lib && gcc -Ilib/c/include -o utf8 lib/c/examples/utf8.c out/libvt220.a */
#include <vt220.h>
#include <stdio.h>

int main(void) {
    static uint8_t bytes[4096], text[VT220_TEXT_LIMIT];
    vt220 terminal = VT220_INIT;
    vt220_scratch scratch = VT220_INIT;
    size_t len;
    uint32_t status = vt220_open_as(&terminal, VT220_UTF8, VT220_ROWS, 80);
    if (status == VT220_OK) status = vt220_scratch_open(&scratch);
    while (status == VT220_OK && (len = fread(bytes, 1, sizeof bytes, stdin)) > 0)
        vt220_feed(&terminal, bytes, len, NULL, 0, NULL); /* without replies all bytes are processed */
    if (status == VT220_OK) status = vt220_text(&terminal, &scratch, text, sizeof text, &len);
    if (status == VT220_OK) fwrite(text, 1, len, stdout);
    else fprintf(stderr, "utf8: %s\n", vt220_status_text(status));
    vt220_scratch_close(&scratch);
    vt220_close(&terminal);
    return status != VT220_OK || ferror(stdin);
}
