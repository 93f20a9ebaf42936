/* The heap of the module: rattle_alloc, rattle_realloc and rattle_dealloc, which the proved code calls, and what lib/c/ needs of stdlib.h and
 * string.h.
 * A block has a head of 16 bytes. Freed blocks are in the order of their addresses, and neighbours become one. A request takes the first one that is
 * large enough, and leaves the rest of it. So a screen that changes its size often takes little more memory than its two largest sizes. */
#include "heap.h"
#include <stdlib.h>
#include <string.h>

typedef struct block {
    size_t size;
    struct block *next; /* the freed block after it */
} block;

extern uint8_t __heap_base;

/* Sizes of blocks are multiples of ROUND. PAGE is WebAssembly's. LIMIT is the end of a memory of 32 bits, without its last page. STEP is the
 * smallest growth, in pages. */
static const uintptr_t ROUND = 16, PAGE = 65536, LIMIT = 0xFFFF0000, STEP = 16;

static block *freed;
static uintptr_t end; /* of the last block, or 0 before the first */

static size_t rounded(size_t n) { return (n + ROUND - 1) & ~(size_t)(ROUND - 1); }

/* Lets the memory grow to so many pages. Returns whether it has them. The size tells that: if the memory can't grow, the instruction
 * returns -1 in 64 bits, but a number of 32 bits after the lowering. */
static bool grows(size_t pages) {
    size_t now = __builtin_wasm_memory_size(0);
    if (pages > now) __builtin_wasm_memory_grow(0, pages - now);
    return pages <= __builtin_wasm_memory_size(0);
}

/* Returns whether the memory reaches so far, if necessary after it has grown. It grows by an eighth, and at least by STEP, since each
 * growth makes a new buffer for JavaScript. If it can't, it grows as far as is needed. */
static bool reaches(uintptr_t to) {
    size_t wanted = (to + PAGE - 1) / PAGE, now = __builtin_wasm_memory_size(0), more = now / 8 > STEP ? now / 8 : STEP;
    return wanted <= now || grows(wanted > now + more ? wanted : now + more) || grows(wanted);
}

static block *after(const block *it) { return (block *)((uintptr_t)(it + 1) + it->size); }

/* Gives back the last block if it is freed. Then a larger one may begin in its place. */
static void lower_end(void) {
    block **link = &freed;
    while (*link != NULL && after(*link) != (block *)end) link = &(*link)->next;
    if (*link == NULL) return;
    end = (uintptr_t)*link;
    *link = NULL;
}

static block *new_block(size_t size) {
    if (end == 0) end = rounded((uintptr_t)&__heap_base);
    lower_end();
    if (end + sizeof(block) + size > LIMIT || !reaches(end + sizeof(block) + size)) return NULL;
    block *made = (block *)end;
    made->size = size;
    end += sizeof(block) + size;
    return made;
}

/* Takes the front of a freed block. Returns the freed block that has its place in the list. */
static block *cut(block *found, size_t size) {
    if (found->size < size + sizeof(block) + ROUND) return found->next;
    size_t left = found->size - size - sizeof(block);
    found->size = size;
    block *rest = after(found);
    *rest = (block){left, found->next};
    return rest;
}

static void *take(size_t n) {
    if (n > LIMIT) return NULL;
    size_t size = rounded(n);
    for (block **link = &freed; *link != NULL; link = &(*link)->next) {
        block *found = *link;
        if (found->size < size) continue;
        *link = cut(found, size);
        return found + 1;
    }
    block *made = new_block(size);
    return made == NULL ? NULL : made + 1;
}

/* Joins a freed block with the next one if that is right after it. */
static void join(block *it) {
    if (it->next == NULL || it->next != after(it)) return;
    it->size += sizeof(block) + it->next->size;
    it->next = it->next->next;
}

tried rattle_alloc(size_t n, size_t align) {
    void *p = take(n == 0 ? align : n);
    return (tried){p != NULL, p};
}

void rattle_dealloc(void *p) {
    block *old = (block *)p - 1, **link = &freed, *before = NULL;
    for (; *link != NULL && *link < old; link = &before->next) before = *link;
    old->next = *link;
    *link = old;
    join(old);
    if (before != NULL) join(before);
}

tried rattle_realloc(void *p, size_t kept, size_t n, size_t align) {
    tried made = rattle_alloc(n, align);
    if (!made.ok) return made;
    memcpy(made.p, p, kept < n ? kept : n);
    rattle_dealloc(p);
    return made;
}

void *malloc(size_t n) { return take(n); }

void free(void *p) {
    if (p != NULL) rattle_dealloc(p);
}

/* The processor has instructions for these two (bulk memory). */
void *memcpy(void *to, const void *from, size_t n) { return __builtin_memcpy(to, from, n); }

void *memset(void *to, int byte, size_t n) { return __builtin_memset(to, byte, n); }

/* Returns whether one of eight bytes is 0. */
static bool has_zero(uint64_t word) {
    const uint64_t ones = 0x0101010101010101;
    return ((word - ones) & ~word & (ones << 7)) != 0;
}

/* Speed: it compares eight bytes at a time, since lib/c/vt220.c searches all input for BEL. */
void *memchr(const void *from, int byte, size_t n) {
    const uint8_t *at = from;
    const uint64_t wanted = 0x0101010101010101 * (uint8_t)byte;
    for (; n >= 8; n -= 8, at += 8) {
        uint64_t word;
        memcpy(&word, at, 8);
        if (has_zero(word ^ wanted)) break;
    }
    for (; n > 0; n--, at++)
        if (*at == (uint8_t)byte) return (void *)at;
    return NULL;
}

int memcmp(const void *a, const void *b, size_t n) {
    const uint8_t *x = a, *y = b;
    for (; n > 0; n--, x++, y++)
        if (*x != *y) return *x < *y ? -1 : 1;
    return 0;
}

size_t strlen(const char *text) {
    size_t n = 0;
    while (text[n] != 0) n++;
    return n;
}
