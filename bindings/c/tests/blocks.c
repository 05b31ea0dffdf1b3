/* The blocks of memory that are in use, and allocations that are refused. The program is linked with malloc, realloc and free
 * wrapped. */
#include <stdlib.h>

#include "tests.h"

void *__real_malloc(size_t size);
void *__real_realloc(void *block, size_t size);
void __real_free(void *block);

static long blocks;
/* How many allocations are left until one is refused; below 0 none is. */
static long left = -1;

static bool is_refused(void) { return left >= 0 && left-- == 0; }

void *__wrap_malloc(size_t size) {
    void *block = is_refused() ? NULL : __real_malloc(size);
    blocks += block != NULL;
    return block;
}

void *__wrap_realloc(void *block, size_t size) {
    void *moved = is_refused() ? NULL : __real_realloc(block, size);
    blocks += block == NULL && moved != NULL;
    return moved;
}

void __wrap_free(void *block) {
    blocks -= block != NULL;
    __real_free(block);
}

long blocks_in_use(void) { return blocks; }

void refuse_after(long count) { left = count; }

bool was_refused(void) {
    bool refused = left < 0;
    left = -1;
    return refused;
}
