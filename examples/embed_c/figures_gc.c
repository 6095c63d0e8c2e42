/* The like of figures.c with Boehm's collector: a disappearing link for a weak reference, a finalizer for a cleaning action.
 *
 *     cc -O2 -std=c11 figures_gc.c -lgc -o figures_gc && ./figures_gc cleared 100000
 */
#include <gc/gc.h>

#include <stdio.h>
#include <stdlib.h>
#include <string.h>
#include <time.h>

enum { BATCH = 100, CELLS = 65536 };

struct cell { struct cell *next; long value; };

static long count;

static void new(long times) {
    while (times--) if (GC_MALLOC(sizeof(struct cell)) == NULL) exit(1);
}

/* Objects with a disappearing link each, for the rest unreachable; a collection for each hundred, and a look at each link. */
static void cleared(long times) {
    static GC_word hidden[BATCH];
    int i;
    for (; times > 0; times -= BATCH) {
        for (i = 0; i < BATCH; i++) {
            struct cell *made = GC_MALLOC(sizeof *made);
            hidden[i] = GC_HIDE_POINTER(made);
            GC_general_register_disappearing_link((void **)&hidden[i], made);
        }
        GC_gcollect();
        for (i = 0; i < BATCH; i++) if (hidden[i] == 0) count++;
    }
}

static void final(void *made, void *data) { (void)made; (void)data; count++; }

static void cleaned(long times) {
    int i;
    for (; times > 0; times -= BATCH) {
        for (i = 0; i < BATCH; i++) GC_REGISTER_FINALIZER(GC_MALLOC(sizeof(struct cell)), final, NULL, NULL, NULL);
        GC_gcollect();
        GC_invoke_finalizers();
    }
}

static struct cell *list;

static void full(long times) {
    int i;
    for (i = 0; i < CELLS - 16; i++) {
        struct cell *made = GC_MALLOC(sizeof *made);
        made->next = list;
        list = made;
    }
    while (times--) GC_gcollect();
}

int main(int words_count, char **words) {
    static const struct { const char *name; void (*runs)(long); } all[] = { { "new", new }, { "cleared", cleared }, { "cleaned", cleaned }, { "full", full } };
    size_t i;
    struct timespec from, to;
    GC_INIT();
    for (i = 0; words_count > 2 && i < sizeof all / sizeof *all; i++) {
        if (strcmp(words[1], all[i].name) == 0) {
            long times = atol(words[2]);
            timespec_get(&from, TIME_UTC);
            all[i].runs(times);
            timespec_get(&to, TIME_UTC);
            printf("%s: %.1f ns each (%ld)\n", words[1], ((double)(to.tv_sec - from.tv_sec) * 1e9 + (double)(to.tv_nsec - from.tv_nsec)) / (double)times, count);
        }
    }
    return 0;
}
