/* Plays standard input on libvterm's screen of 24 by 80. */
#include <stdio.h>
#include <vterm.h>

int main(void)
{
    static char piece[65536];
    size_t n;
    VTerm *vt = vterm_new(24, 80);
    VTermScreen *screen = vterm_obtain_screen(vt);
    vterm_set_utf8(vt, 0);
    vterm_screen_enable_altscreen(screen, 0);
    vterm_screen_reset(screen, 1);
    while ((n = fread(piece, 1, sizeof piece, stdin)) > 0)
        vterm_input_write(vt, piece, n);
    vterm_free(vt);
    return 0;
}
