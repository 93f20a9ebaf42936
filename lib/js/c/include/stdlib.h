/* What lib/c/ needs of stdlib.h; lib/c/heap.c has it. */
#include <stddef.h>
void *malloc(size_t n);
void free(void *p);
