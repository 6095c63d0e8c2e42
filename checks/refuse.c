/* Loaded before the C library: refuses the allocation of the process whose number stands in REFUSED, whichever of its threads makes it, or
   where REFUSED_FROM has a number, that one and all after it; and says so on the standard error, once. */
#include <stdlib.h>
#include <unistd.h>

extern void *__libc_malloc(size_t);
extern void *__libc_realloc(void *, size_t);
static unsigned long made, refused, refused_from;

static unsigned long number_in(const char *name) {
    const char *text = getenv(name);
    return text ? strtoul(text, 0, 10) : 0;
}

__attribute__((constructor)) static void start(void) {
    refused = number_in("REFUSED");
    refused_from = number_in("REFUSED_FROM");
    made = 0;
}

static int is_refused(void) {
    static const char said[] = "one allocation was refused\n";
    unsigned long number = __atomic_add_fetch(&made, 1, __ATOMIC_RELAXED);
    if (number == refused || number == refused_from)
        return write(2, said, sizeof said - 1) > 0;
    return refused_from && number > refused_from;
}

void *malloc(size_t size) { return is_refused() ? 0 : __libc_malloc(size); }

void *realloc(void *old, size_t size) { return is_refused() ? 0 : __libc_realloc(old, size); }
