// Loaded before the C library. Refuses to start thread number REFUSE, counted from 1. A byte on descriptor 9 then says that the program asked
// for that many threads.
#define _GNU_SOURCE
#include <dlfcn.h>
#include <errno.h>
#include <pthread.h>
#include <stdlib.h>
#include <unistd.h>

int pthread_create(pthread_t *thread, const pthread_attr_t *attributes, void *(*start)(void *), void *argument) {
    static int (*real)(pthread_t *, const pthread_attr_t *, void *(*)(void *), void *);
    static long count;
    const char *text = getenv("REFUSE");
    if (!real) {
        real = (int (*)(pthread_t *, const pthread_attr_t *, void *(*)(void *), void *))dlsym(RTLD_NEXT, "pthread_create");
    }
    return ++count == (text ? atol(text) : -1) && write(9, "x", 1) == 1 ? EAGAIN : real(thread, attributes, start, argument);
}
