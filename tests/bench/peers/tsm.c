/* Plays standard input on libtsm's screen of 24 by 80. */
#include <libtsm.h>
#include <stdio.h>

static void discard(struct tsm_vte *vte, const char *u8, size_t len, void *data)
{
    (void)vte, (void)u8, (void)len, (void)data;
}

int main(void)
{
    static char piece[65536];
    size_t n;
    struct tsm_screen *screen;
    struct tsm_vte *vte;
    if (tsm_screen_new(&screen, NULL, NULL) || tsm_screen_resize(screen, 80, 24))
        return 1;
    if (tsm_vte_new(&vte, screen, discard, NULL, NULL, NULL))
        return 1;
    while ((n = fread(piece, 1, sizeof piece, stdin)) > 0)
        tsm_vte_input(vte, piece, n);
    tsm_vte_unref(vte);
    tsm_screen_unref(screen);
    return 0;
}
