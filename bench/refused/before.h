/* Stands before malloc and realloc of a program: a call of them is refused where refused() says so, which whoever includes this has. */
#ifndef BEFORE_H
#define BEFORE_H

/* Of dlfcn.h, for RTLD_NEXT. */
#define _GNU_SOURCE
#include <dlfcn.h>
#include <stdbool.h>
#include <stdlib.h>

static bool refused(void);

void *malloc(size_t size) {
    static void *(*next)(size_t);
    if (next == NULL)
        next = (void *(*)(size_t))dlsym(RTLD_NEXT, "malloc");
    return refused() ? NULL : next(size);
}

void *realloc(void *block, size_t size) {
    static void *(*next)(void *, size_t);
    if (next == NULL)
        next = (void *(*)(void *, size_t))dlsym(RTLD_NEXT, "realloc");
    return refused() ? NULL : next(block, size);
}

#endif
