/* Stands for vt220_text in lib/c/examples/screen.c: the output buffer is too small. */
#include <vt220.h>
uint32_t __wrap_vt220_text(void);
uint32_t __wrap_vt220_text(void) { return VT220_ROOM; }
