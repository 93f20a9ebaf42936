/* processor: on a processor that lacks a part of x86-64-v2 the open calls return VT220_UNSUPPORTED and call nothing that is proved.
 * The file with the calls is included here with a processor of our own, and the proved calls are left undefined but those that open and close. */
#if defined __x86_64__
#include <cpuid.h>
static int processor(unsigned leaf, unsigned *a, unsigned *b, unsigned *c, unsigned *d);
#define __get_cpuid processor
#endif
#include "../vt220.c"
#include "check.h"

static int opened;

uint32_t core_open(handle *t, size_t rows, size_t columns) {
    (void)rows, (void)columns;
    opened++;
    t->at = &opened, t->is_open = true;
    return VT220_OK;
}

uint32_t core_scratch_open(handle *s) { return core_open(s, VT220_ROWS, VT220_COLUMNS); }
uint32_t core_xterm_open(handle *x, size_t rows, size_t columns) { return core_open(x, rows, columns); }
void core_close(handle *t) { t->is_open = false; }
void core_xterm_close(handle *x) { core_close(x); }

#if defined __x86_64__
/* What the processor has: bits of leaf 1 and of leaf 80000001, and the greatest leaf. */
static unsigned features, more_features;
static bool has_leaf;

static int processor(unsigned leaf, unsigned *a, unsigned *b, unsigned *c, unsigned *d) {
    *a = *b = *d = 0;
    *c = leaf == 1 ? features : more_features;
    return leaf == 1 || has_leaf;
}

static void try_one(unsigned low, unsigned high, bool leaf, bool is_enough) {
    vt220 t = VT220_INIT;
    vt220_scratch s = VT220_INIT;
    vt220 x = VT220_INIT;
    features = low, more_features = high, has_leaf = leaf, opened = 0;
    CHECK(vt220_open(&t) == (is_enough ? VT220_OK : VT220_UNSUPPORTED) && vt220_is_open(&t) == is_enough);
    CHECK(vt220_scratch_open(&s) == (is_enough ? VT220_OK : VT220_UNSUPPORTED) && vt220_scratch_is_open(&s) == is_enough);
    CHECK(vt220_open_as(&x, VT220_XTERM, VT220_ROWS, 80) == (is_enough ? VT220_OK : VT220_UNSUPPORTED) && vt220_is_open(&x) == is_enough);
    CHECK(opened == (is_enough ? 4 : 0));
}

int main(void) {
    /* The bits of CPUID that x86-64-v2 asks for (System V ABI, table 3.1). */
    static const unsigned bits[] = {0, 9, 13, 19, 20, 23};
    unsigned all = 0;
    for (size_t i = 0; i < sizeof bits / sizeof bits[0]; i++) all |= 1u << bits[i];
    try_one(all, 1, true, true);
    try_one(~0u, ~0u, true, true);
    for (size_t i = 0; i < sizeof bits / sizeof bits[0]; i++) try_one(~0u & ~(1u << bits[i]), ~0u, true, false);
    try_one(~0u, ~1u, true, false);
    try_one(~0u, ~0u, false, false);
    try_one(0, 0, true, false);
    return finish("processor");
}
#else
int main(void) { return finish("processor"); }
#endif
