/* A cache of texts that gives way: entries are softly reachable, so the collector may take them, and each text is freed just once.
 *
 * The texts are the program's own, from malloc. The heap guards each by its address as a token, and an entry object holds the guard. The table holds
 * soft references to the entries. What the collector clears comes back by refheap_take_up, and is freed there.
 *
 *     cc -std=c99 cache.c librefheap.a -o cache && ./cache
 */
#include "refheap.h"

#include <stdio.h>
#include <stdlib.h>
#include <string.h>

enum { PLACES = 64, KEY = 0, GUARD = 1 }; /* KEY and GUARD are the fields of an entry */

struct cache {
    refheap heap;
    uint8_t table; /* an array: at each place a soft reference to an entry, or null */
    unsigned loads, freed;
};

static void must(uint32_t status, const char *what) {
    if (status != REFHEAP_OK) {
        fprintf(stderr, "cache: %s: %u\n", what, (unsigned)status);
        exit(1);
    }
}

/* What is expensive: the text of a key. */
static char *load(struct cache *cache, uint32_t key) {
    char *text = malloc(64);
    if (text != NULL) {
        snprintf(text, 64, "the text of %u", (unsigned)key);
        cache->loads++;
    }
    return text;
}

/* Frees what the heap gives back. */
static void let_go(struct cache *cache) {
    refheap_job job;
    while (refheap_hand_over(&cache->heap) == REFHEAP_OK) {
    }
    while (refheap_take_up(&cache->heap, &job) == REFHEAP_OK) {
        free((void *)(uintptr_t)job.value);
        cache->freed++;
        must(refheap_finish(&cache->heap, REFHEAP_CLEANER, job.action, REFHEAP_WELL), "finish");
    }
}

/* The guard of a key's text, if its entry is there still; else 0. */
static uint8_t cached(struct cache *cache, uint32_t key) {
    uint8_t reference = 0, entry = 0, guard = 0;
    int64_t of = 0;
    must(refheap_get(&cache->heap, 0, cache->table, key % PLACES, &reference), "get");
    if (reference == 0) return 0;
    must(refheap_deref(&cache->heap, 0, reference, &entry), "deref");
    must(refheap_drop(&cache->heap, 0, reference), "drop");
    if (entry == 0) return 0;
    must(refheap_int(&cache->heap, 0, entry, KEY, &of), "int");
    if (of == (int64_t)key) must(refheap_get(&cache->heap, 0, entry, GUARD, &guard), "get");
    must(refheap_drop(&cache->heap, 0, entry), "drop");
    return guard;
}

/* Loads a key's text and puts an entry for it into the table: its guard. */
static uint8_t filled(struct cache *cache, uint32_t key) {
    uint8_t guard = 0, entry = 0, reference = 0;
    char *text;
    must(refheap_prepare(&cache->heap, 0), "prepare");
    text = load(cache, key);
    if (text == NULL) {
        must(refheap_give_up(&cache->heap, 0, REFHEAP_FAILED), "give_up");
        return 0;
    }
    must(refheap_adopt(&cache->heap, 0, (uint64_t)(uintptr_t)text, &guard), "adopt");
    must(refheap_new(&cache->heap, 0, 2, REFHEAP_FIELD(GUARD), &entry), "new");
    must(refheap_set_int(&cache->heap, 0, entry, KEY, key), "set_int");
    must(refheap_put(&cache->heap, 0, entry, GUARD, guard), "put");
    must(refheap_soft(&cache->heap, 0, entry, 0, &reference), "soft");
    must(refheap_put(&cache->heap, 0, cache->table, key % PLACES, reference), "put");
    must(refheap_drop(&cache->heap, 0, reference), "drop");
    must(refheap_drop(&cache->heap, 0, entry), "drop");
    return guard;
}

/* Copies the text of a key out. */
static void text_of(struct cache *cache, uint32_t key, char *out, size_t size) {
    uint64_t token = 0;
    uint8_t guard = cached(cache, key);
    if (guard == 0) guard = filled(cache, key);
    if (guard == 0) exit(1);
    must(refheap_check_out(&cache->heap, 0, guard, &token), "check_out");
    snprintf(out, size, "%s", (const char *)(uintptr_t)token);
    must(refheap_check_in(&cache->heap, 0, token, REFHEAP_WELL), "check_in");
    must(refheap_drop(&cache->heap, 0, guard), "drop");
    let_go(cache); /* an allocation may have collected */
}

int main(void) {
    struct cache cache = { REFHEAP_INIT, 0, 0, 0 };
    char text[64];
    uint32_t key;
    must(refheap_open(&cache.heap, 1024, 1, 256, 100), "open");
    must(refheap_join(&cache.heap, 0), "join");
    must(refheap_array(&cache.heap, 0, PLACES, &cache.table), "array");
    for (key = 0; key < 40; key++) text_of(&cache, key, text, sizeof text);
    for (key = 0; key < 40; key++) text_of(&cache, key, text, sizeof text);
    printf("%s; %u loads, %u freed\n", text, cache.loads, cache.freed);
    must(refheap_gc(&cache.heap, 0), "gc"); /* they were used lately: kept */
    let_go(&cache);
    printf("after a collection: %u freed\n", cache.freed);
    must(refheap_gc_soft(&cache.heap, 0), "gc_soft"); /* memory is wanted: all entries go */
    let_go(&cache);
    must(refheap_gc(&cache.heap, 0), "gc");
    let_go(&cache);
    printf("after one that clears: %u freed\n", cache.freed);
    text_of(&cache, 7, text, sizeof text);
    printf("%s; %u loads\n", text, cache.loads);
    must(refheap_gc_soft(&cache.heap, 0), "gc_soft");
    let_go(&cache);
    refheap_close(&cache.heap);
    return cache.loads == cache.freed ? 0 : 1;
}
