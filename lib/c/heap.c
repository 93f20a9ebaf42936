/* rattle_alloc, rattle_realloc and rattle_dealloc, by which the proved code allocates, over malloc, realloc and free. It stands for the
 * toolchain's liblibc_c.a, which is for x86-64, on other processors. */
#include <stdbool.h>
#include <stddef.h>
#include <stdlib.h>

typedef struct tried {
    bool ok;
    void *p;
} tried;

tried rattle_alloc(size_t n, size_t align);
tried rattle_realloc(void *p, size_t kept, size_t n, size_t align);
void rattle_dealloc(void *p);

tried rattle_alloc(size_t n, size_t align) {
    void *p = malloc(n != 0 ? n : align);
    return (tried){p != NULL, p};
}

tried rattle_realloc(void *p, size_t kept, size_t n, size_t align) {
    (void)kept;
    p = realloc(p, n != 0 ? n : align);
    return (tried){p != NULL, p};
}

void rattle_dealloc(void *p) { free(p); }
