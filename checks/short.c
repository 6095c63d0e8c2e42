/* Loaded before the C library, it takes at most MOST_TAKEN bytes of each write to the standard output. */
#define _GNU_SOURCE
#include <dlfcn.h>
#include <stdlib.h>
#include <unistd.h>

ssize_t write(int place, const void *bytes, size_t count) {
    static ssize_t (*real)(int, const void *, size_t);
    if (!real) {
        real = (ssize_t (*)(int, const void *, size_t))dlsym(RTLD_NEXT, "write");
    }
    const char *most = getenv("MOST_TAKEN");
    if (place == 1 && most && (size_t)atol(most) < count) {
        count = (size_t)atol(most);
    }
    return count == 0 ? 0 : real(place, bytes, count);
}
