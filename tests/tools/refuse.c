// Loaded before the C library. Refuses request number REFUSE for memory, counted from 1. A byte on descriptor 9 then says that the program
// made that many requests.
#define _GNU_SOURCE
#include <dlfcn.h>
#include <stdatomic.h>
#include <stdlib.h>
#include <unistd.h>

static int refused(void) {
    static atomic_long count, number;
    if (number == 0) {
        const char *text = getenv("REFUSE");
        number = text ? atol(text) : -1;
    }
    return ++count == number && write(9, "x", 1) == 1;
}

void *malloc(size_t size) {
    static void *(*real)(size_t);
    if (!real) {
        real = (void *(*)(size_t))dlsym(RTLD_NEXT, "malloc");
    }
    return refused() ? NULL : real(size);
}

void *realloc(void *old, size_t size) {
    static void *(*real)(void *, size_t);
    if (!real) {
        real = (void *(*)(void *, size_t))dlsym(RTLD_NEXT, "realloc");
    }
    return refused() ? NULL : real(old, size);
}
