/* What a heap in process takes by malloc: an open at most REFHEAP_BYTES, and no other call than those that refheap.h names. */
#include "refheap.h"

#include <stdio.h>
#include <stdlib.h>

static size_t calls, bytes;

void *__real_malloc(size_t size);
void *__real_calloc(size_t count, size_t size);
void *__real_realloc(void *at, size_t size);
void *__real_aligned_alloc(size_t alignment, size_t size);
void *__wrap_malloc(size_t size);
void *__wrap_calloc(size_t count, size_t size);
void *__wrap_realloc(void *at, size_t size);
void *__wrap_aligned_alloc(size_t alignment, size_t size);

static void count(size_t size)
{
    calls += 1;
    bytes += size;
}

void *__wrap_malloc(size_t size)
{
    count(size);
    return __real_malloc(size);
}

void *__wrap_calloc(size_t items, size_t size)
{
    count(items * size);
    return __real_calloc(items, size);
}

void *__wrap_realloc(void *at, size_t size)
{
    count(size);
    return __real_realloc(at, size);
}

void *__wrap_aligned_alloc(size_t alignment, size_t size)
{
    count(size);
    return __real_aligned_alloc(alignment, size);
}

static int failed;

static void check(int holds, const char *what)
{
    if (!holds) {
        printf("FAILED  %s\n", what);
        failed = 1;
    }
}

/* Objects, references, queues, actions and collections: what nobody reaches is collected when the cells run out. */
static void use(refheap *heap)
{
    uint8_t queue, object, other, reference, cleaner, cleanable, told;
    bool flag;
    refheap_job job;
    refheap_counts counts;

    check(refheap_queue(heap, 0, &queue) == 0 && refheap_cleaner(heap, 0, &cleaner) == 0, "a queue and a cleaner");
    calls = 0;
    for (int turn = 0; turn < 1000; turn++) {
        refheap_new(heap, 0, 2, 1, &object);
        refheap_dup(heap, 0, object, &other);
        refheap_put(heap, 0, object, 0, other);
        refheap_set_int(heap, 0, object, 1, turn);
        refheap_weak(heap, 0, object, queue, &reference);
        refheap_register(heap, 0, cleaner, object, 7, &cleanable);
        refheap_deref(heap, 0, reference, &told);
        refheap_drop(heap, 0, told);
        refheap_refers(heap, 0, reference, object, &flag);
        refheap_drop(heap, 0, object);
        refheap_drop(heap, 0, other);
        refheap_drop(heap, 0, cleanable);
        if (turn % 3 == 0) {
            refheap_gc(heap, 0);
        } else {
            refheap_begin(heap, &flag);
            while (refheap_mark(heap, 4, &flag) == 0 && !flag) {
            }
            refheap_collect(heap, &flag);
            refheap_mark(heap, 4, &flag);
        }
        while (refheap_hand_over(heap) == 0) {
        }
        while (refheap_take_up(heap, &job) == 0) {
            refheap_finish(heap, REFHEAP_CLEANER, job.action, REFHEAP_WELL);
        }
        refheap_poll(heap, 0, queue, &told);
        refheap_drop(heap, 0, told);
        refheap_drop(heap, 0, reference);
    }
    check(calls == 0, "no call but an open takes memory");
    check(refheap_stat(heap, 0, &counts) == 0 && counts.taken == 1000 && counts.ok == 1000, "the calls did what they say");
}

int main(void)
{
    static const uint32_t cells[] = { 16, 100, 1024, 65536 }, sessions[] = { 1, 4, 64 };

    for (size_t i = 0; i < sizeof cells / sizeof *cells; i++) {
        for (size_t k = 0; k < sizeof sessions / sizeof *sessions; k++) {
            refheap heap = REFHEAP_INIT;

            bytes = 0;
            check(refheap_open(&heap, cells[i], sessions[k], 256, 0) == 0, "an open");
            check(bytes > 0 && bytes <= REFHEAP_BYTES(cells[i], sessions[k]), "an open takes at most REFHEAP_BYTES");
            check(refheap_join(&heap, 0) == 0, "a join");
            use(&heap);
            refheap_close(&heap);
        }
    }
    if (!failed) {
        printf("ok      memory: an open takes at most REFHEAP_BYTES, other calls none\n");
    }
    return failed;
}
