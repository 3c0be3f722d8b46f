// Loaded before the C library. Each call that reads or writes a file or a socket moves one byte, and call number FAIL, counted from 1, fails.
// HOW says how: it is `interrupted`, or, if it is a write, it takes `nothing`. A byte on descriptor 9 then says that the program made that
// many calls.
#define _GNU_SOURCE
#include <dlfcn.h>
#include <errno.h>
#include <stdatomic.h>
#include <stdlib.h>
#include <string.h>
#include <sys/socket.h>
#include <unistd.h>

// Whether this call fails. If it does, `errno` says why.
static int fails(int is_write) {
    static atomic_long count;
    static long number;
    const char *how = getenv("HOW");
    if (number == 0) {
        const char *text = getenv("FAIL");
        number = text ? atol(text) : -1;
    }
    if (++count != number) {
        return 0;
    }
    __typeof__(write) *real = (__typeof__(write) *)dlsym(RTLD_NEXT, "write");
    real(9, "x", 1);
    errno = strcmp(how, "nothing") ? EINTR : 0;
    return errno || is_write;
}

// Each call has a second name in the C library, by which programs call it too.
#define BOTH_NAMES(name) __typeof__(name) __##name __attribute__((alias(#name)))

#define NEXT(name) static __typeof__(name) *real; real = real ? real : (__typeof__(name) *)dlsym(RTLD_NEXT, #name)

ssize_t read(int file, void *bytes, size_t count) {
    NEXT(read);
    return fails(0) ? -1 : real(file, bytes, count ? 1 : 0);
}
BOTH_NAMES(read);

ssize_t write(int file, const void *bytes, size_t count) {
    NEXT(write);
    return fails(1) ? (errno ? -1 : 0) : real(file, bytes, count ? 1 : 0);
}
BOTH_NAMES(write);

ssize_t recv(int file, void *bytes, size_t count, int flags) {
    NEXT(recv);
    return fails(0) ? -1 : real(file, bytes, count ? 1 : 0, flags);
}
BOTH_NAMES(recv);

ssize_t send(int file, const void *bytes, size_t count, int flags) {
    NEXT(send);
    return fails(1) ? (errno ? -1 : 0) : real(file, bytes, count ? 1 : 0, flags);
}
BOTH_NAMES(send);
