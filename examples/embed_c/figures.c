/* What calls cost: each word is a thing to do so many times, for callgrind or a clock.
 *
 *     cc -O2 -std=c11 figures.c librefheap.a -o figures
 *     valgrind --tool=callgrind --callgrind-out-file=/dev/null ./figures deref 200000     (less the same of 100000)
 */
#include "refheap.h"

#include <stdio.h>
#include <stdlib.h>
#include <string.h>
#include <time.h>

#define MUST(call) do { uint32_t status = (call); if (status) { fprintf(stderr, "figures: %s: %u\n", #call, (unsigned)status); exit(1); } } while (0)

enum { BATCH = 100, CELLS = 65536 };

static refheap heap;
static uint8_t object, weak, pair, queue;

static void deref(long times) {
    uint8_t got;
    while (times--) { MUST(refheap_deref(&heap, 0, weak, &got)); MUST(refheap_drop(&heap, 0, got)); }
}

static void new(long times) {
    uint8_t got;
    while (times--) { MUST(refheap_new(&heap, 0, 0, 0, &got)); MUST(refheap_drop(&heap, 0, got)); }
}

static void refers(long times) {
    bool yes;
    while (times--) MUST(refheap_refers(&heap, 0, weak, object, &yes));
}

static void put(long times) {
    while (times--) MUST(refheap_put(&heap, 0, pair, 0, object));
}

/* An object with a weak reference on a queue; the object is dropped and collected, and the reference polled. A collection for each hundred. */
static void cleared(long times) {
    uint8_t references[BATCH], got;
    int i;
    for (; times > 0; times -= BATCH) {
        for (i = 0; i < BATCH; i++) {
            MUST(refheap_new(&heap, 0, 0, 0, &got));
            MUST(refheap_weak(&heap, 0, got, queue, &references[i]));
            MUST(refheap_drop(&heap, 0, got));
        }
        MUST(refheap_gc(&heap, 0));
        while (refheap_hand_over(&heap) == REFHEAP_OK) { }
        for (i = 0; i < BATCH; i++) { MUST(refheap_poll(&heap, 0, queue, &got)); MUST(refheap_drop(&heap, 0, got)); MUST(refheap_drop(&heap, 0, references[i])); }
    }
}

/* The same with a cleaning action. */
static void cleaned(long times) {
    uint8_t cleaner, cleanable, got;
    refheap_job job;
    int i;
    MUST(refheap_cleaner(&heap, 0, &cleaner));
    for (; times > 0; times -= BATCH) {
        for (i = 0; i < BATCH; i++) {
            MUST(refheap_new(&heap, 0, 0, 0, &got));
            MUST(refheap_register(&heap, 0, cleaner, got, 7, &cleanable));
            MUST(refheap_drop(&heap, 0, got)); MUST(refheap_drop(&heap, 0, cleanable));
        }
        MUST(refheap_gc(&heap, 0));
        while (refheap_hand_over(&heap) == REFHEAP_OK) { }
        while (refheap_take_up(&heap, &job) == REFHEAP_OK) MUST(refheap_finish(&heap, REFHEAP_CLEANER, job.action, 0));
    }
}

/* Full collections of a heap that a list fills, but for 16 cells. */
static void full(long times) {
    uint8_t list = 0, next;
    int i;
    for (i = 0; i < CELLS - 16; i++) {
        MUST(refheap_new(&heap, 0, 1, REFHEAP_FIELD(0), &next));
        MUST(refheap_put(&heap, 0, next, 0, list));
        if (list) MUST(refheap_drop(&heap, 0, list));
        list = next;
    }
    while (times--) MUST(refheap_gc(&heap, 0));
}

/* Heaps that are opened and closed. */
static void opened(long times) {
    refheap one = REFHEAP_INIT;
    while (times--) { MUST(refheap_open(&one, CELLS, 1, 16, 0)); refheap_close(&one); }
}

int main(int count, char **words) {
    static const struct { const char *name; void (*runs)(long); } all[] = {
        { "deref", deref }, { "new", new }, { "refers", refers }, { "put", put }, { "cleared", cleared }, { "cleaned", cleaned }, { "full", full }, { "opened", opened },
    };
    size_t i;
    struct timespec from, to;
    MUST(refheap_open(&heap, CELLS, 1, 16, 0));
    MUST(refheap_join(&heap, 0));
    MUST(refheap_new(&heap, 0, 0, 0, &object));
    MUST(refheap_weak(&heap, 0, object, 0, &weak));
    MUST(refheap_new(&heap, 0, 1, REFHEAP_FIELD(0), &pair));
    MUST(refheap_queue(&heap, 0, &queue));
    for (i = 0; count > 2 && i < sizeof all / sizeof *all; i++) {
        if (strcmp(words[1], all[i].name) == 0) {
            long times = atol(words[2]);
            timespec_get(&from, TIME_UTC);
            all[i].runs(times);
            timespec_get(&to, TIME_UTC);
            printf("%s: %.1f ns each\n", words[1], ((double)(to.tv_sec - from.tv_sec) * 1e9 + (double)(to.tv_nsec - from.tv_nsec)) / (double)times);
        }
    }
    refheap_close(&heap);
    return 0;
}
