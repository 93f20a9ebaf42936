/* The calls by which the proved code allocates. */
#ifndef HEAP_H
#define HEAP_H

#include <stdbool.h>
#include <stddef.h>
#include <stdint.h>

/* A block, if `ok` isn't 0. */
typedef struct tried {
    uint64_t ok;
    void *p;
} tried;

tried rattle_alloc(size_t n, size_t align);
tried rattle_realloc(void *p, size_t kept, size_t n, size_t align);
void rattle_dealloc(void *p);

#endif
