/* many: 1,000 terminals in one process, fed in turn; prints the resident memory of each. */
#include "check.h"
#include <unistd.h>

enum { COUNT = 1000 };

static long resident(void) {
    long pages = 0, all = 0;
    FILE *file = fopen("/proc/self/statm", "r");
    if (file == NULL || fscanf(file, "%ld %ld", &all, &pages) != 2) abort();
    fclose(file);
    return pages * sysconf(_SC_PAGESIZE);
}

int main(void) {
    static vt220 t[COUNT];
    static uint8_t out[VT220_UPDATE_LIMIT], reports[4096], line[512];
    vt220_scratch s = VT220_INIT;
    size_t written;
    memset(out, 1, sizeof out);
    memset(t, 0, sizeof t);
    CHECK(vt220_scratch_open(&s) == VT220_OK);
    long before = resident();
    bool fed = true;
    for (int i = 0; i < COUNT; i++) fed = fed && vt220_open(&t[i]) == VT220_OK;
    for (int turn = 0; turn < 30; turn++)
        for (int i = 0; i < COUNT; i++) {
            int n = snprintf((char *)line, sizeof line, "\033[%dmterminal %d, line %d \033[6n\033[c %0*d\r\n", turn % 8, i, turn, 40 + i % 20, i);
            for (size_t at = 0; at < (size_t)n;) at += vt220_feed(&t[i], line + at, (size_t)n - at, reports, sizeof reports, &written);
        }
    for (int i = 0; i < COUNT; i++) {
        fed = fed && vt220_text(&t[i], &s, out, sizeof out, &written) == VT220_OK && vt220_repaint(&t[i], &s, out, sizeof out, &written) == VT220_OK;
        fed = fed && vt220_update(&t[i], &t[(i + 1) % COUNT], &s, out, sizeof out, &written) == VT220_OK;
    }
    CHECK(fed);
    long each = (resident() - before) / COUNT;
    printf("many: %d terminals, %ld bytes of resident memory each, a scratch buffer for all included\n", COUNT, each);
    CHECK(each < 32 * 1024);
    for (int i = 0; i < COUNT; i++) vt220_close(&t[i]);
    vt220_scratch_close(&s);
    return finish("many");
}
