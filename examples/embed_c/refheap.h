/* refheap.h: a garbage-collected heap in your own process, with the references, queues and cleaners of
 * java.lang.ref.
 *
 * A heap holds objects: plain ones with up to eight fields, arrays of references, soft, weak and phantom
 * references, queues, cleaners and cleanables, and guards. The collector reclaims what nothing strong leads
 * to, clears the references to it and puts them on their queues. Your own data stays yours: an object
 * stands for it by integer fields, and a guard or a cleaning action tells you when to let it go.
 *
 * Each function is one step of a machine that is written down, and that it carries that step out is proved.
 * No function calls you back, takes a lock, starts a thread, waits, prints, or ends the process.
 *
 * A page of example
 *
 *     #include <stdio.h>
 *     #include "refheap.h"
 *
 *     int main(void) {
 *         refheap heap = REFHEAP_INIT;
 *         uint8_t pair, list = 0, weak, queue, got;
 *         int64_t n;
 *         if (refheap_open(&heap, 1024, 1, 16, 2) || refheap_join(&heap, 0)) return 1;
 *
 *         for (n = 0; n < 3; n++) {                          // a list 2, 1, 0: field 0 a number, field 1 the rest
 *             if (refheap_new(&heap, 0, 2, REFHEAP_FIELD(1), &pair)) return 1;
 *             refheap_set_int(&heap, 0, pair, 0, n);
 *             refheap_put(&heap, 0, pair, 1, list);          // 0 is null
 *             if (list) refheap_drop(&heap, 0, list);        // the pair holds it now
 *             list = pair;
 *         }
 *         refheap_queue(&heap, 0, &queue);
 *         refheap_weak(&heap, 0, list, queue, &weak);        // told on the queue when it is reclaimed
 *
 *         refheap_gc(&heap, 0);
 *         if (refheap_deref(&heap, 0, weak, &got) == 0 && got) {
 *             refheap_int(&heap, 0, got, 0, &n);
 *             printf("still there: %d\n", (int)n);           // 2
 *             refheap_drop(&heap, 0, got);
 *         }
 *         refheap_drop(&heap, 0, list);                      // now nothing strong leads there
 *         refheap_gc(&heap, 0);
 *         while (refheap_hand_over(&heap) == 0) { }          // fills the queues
 *         refheap_poll(&heap, 0, queue, &got);               // the weak reference: another handle for it
 *         printf("%s\n", got ? "reclaimed" : "kept");        // reclaimed
 *         refheap_close(&heap);
 *         return 0;
 *     }
 *
 * Building: cc program.c librefheap.a (`make lib` makes the archive from the crate refheap_c). It needs
 * malloc, realloc, free, memcpy, memmove and memset.
 *
 * Handles and ownership
 *
 * - You own the struct refheap. It begins zeroed (REFHEAP_INIT), holds one pointer, and is never copied;
 *   what it points to is never read, written or freed by you. refheap_close frees all of it, and opening
 *   an open heap closes the old one. Calls on a heap that is not open return REFHEAP_NOT_OPEN, and
 *   closing it twice does nothing.
 * - A mutator is a number, 0 to sessions - 1, that has joined. It names objects by handles, 1 to 250, and
 *   0 is null. A handle is a root: what it names is kept until it is dropped. Each call with a `uint8_t
 *   *out` makes a new handle there: a get of one field twice makes two. Drop them. Handles of two
 *   mutators are apart; refheap_leave drops all of one.
 * - A handle is a number, not a pointer: one that is not in use is refused (REFHEAP_NO_HANDLE), and one
 *   that was used again names another object.
 * - What you pass by pointer is read or written during the call alone. Out pointers point to room of your
 *   own, not into the struct refheap and not to one another; no pointer is null. A bool is 0 or 1.
 *
 * Results
 *
 * A call returns 0, and gives what it gives through its out pointer; or it returns a number below, and all
 * stays as it was: the heap, and what is behind the out pointer. (Two exceptions of the heap: at
 * REFHEAP_HEAP_FULL the collection stands that looked for room, and at REFHEAP_IDLE refheap_take_up may have
 * emptied the cleaner's line and refheap_mark swept cells.) An end told with a fault returns 0.
 * REFHEAP_NO_MEMORY comes from refheap_open, prepare, array, bind, name, note and failure alone: no other
 * call allocates.
 *
 * Threads
 *
 * One call on a heap at a time. A heap may pass from thread to thread, ordered by your own lock; two heaps
 * have nothing in common. From Python, load it by ctypes.PyDLL, which keeps the interpreter's lock during a
 * call. Don't call it from a signal handler.
 *
 * Collections, queues and actions
 *
 * A collection runs in refheap_gc, in refheap_gc_soft, in refheap_collect, and in a call that makes an
 * object when too few cells are free (a guard takes two). It clears references and remembers them; they come
 * to their queues by refheap_hand_over, and cleaning actions come to be done by refheap_take_up. Nothing
 * happens by itself: call both until they return REFHEAP_IDLE, after a collection or when it suits you. To
 * spread the marking, call refheap_begin, then refheap_mark with a budget between your own work until it is
 * done, then refheap_collect. Soft references are kept through soft_age collections since they were last
 * used, and go before the heap is said to be full; soft_age 0 clears them at each collection.
 *
 * Guards
 *
 * A guard is an object for something of yours that is to be let go when the program forgets it: a file, a
 * socket, a texture. You know it by a token, any 64-bit number. refheap_prepare makes room, you open the
 * thing, refheap_adopt hands the token in and gives the guard (or refheap_give_up tells that it could not
 * be opened). The heap gives each token back at most once: by refheap_stop, or by refheap_take_up after a
 * collection found the guard dead. Let the thing go then, and say so by refheap_finish. In between,
 * refheap_check_out lends the token for a call, and a guard is kept while it is out. refheap_close gives no
 * token back: stop or take up what is left before.
 *
 * Memory
 *
 * refheap_open allocates nearly all of it: some 171 bytes a cell, 2100 a session and 26000 beside, at most
 * REFHEAP_BYTES(cells, sessions) below: 0.2 MB for 1024 cells, 11 MB for 65536. An array of n elements
 * takes 4 n bytes more until it is reclaimed, and a guard some 33.
 */
#ifndef REFHEAP_H
#define REFHEAP_H

#include <stdbool.h>
#include <stddef.h>
#include <stdint.h>

#ifdef __cplusplus
extern "C" {
#endif

/* The version of this interface. docs/versions.md says what may change with each part of it. */
#define REFHEAP_VERSION "0.9.0"
#define REFHEAP_VERSION_MAJOR 0
#define REFHEAP_VERSION_MINOR 9
#define REFHEAP_VERSION_PATCH 0

/* A heap, or none. */
typedef struct refheap {
    void *at;
} refheap;

#define REFHEAP_INIT { 0 }

/* At most so many bytes are allocated by refheap_open, with the C library's malloc. */
#define REFHEAP_BYTES(cells, sessions) (32768ul + 176ul * (cells) + 2200ul * (sessions))

/* What a call returns. */
enum refheap_status {
    REFHEAP_OK = 0,
    REFHEAP_NO_MEMORY = 1,       /* an allocation was refused */
    REFHEAP_HEAP_FULL = 2,       /* too few cells are free, also after a collection that cleared soft references */
    REFHEAP_NO_HANDLE = 3,       /* a handle is not in use */
    REFHEAP_HANDLES_FULL = 4,    /* the mutator has 250 handles */
    REFHEAP_WRONG_KIND = 5,      /* the object is of another kind */
    REFHEAP_NO_FIELD = 6,        /* the object has no such field or element */
    REFHEAP_WRONG_TYPE = 7,      /* an integer field in place of a reference field, or the reverse */
    REFHEAP_NULL = 8,            /* handle 0 where an object is needed */
    REFHEAP_NO_NAME = 9,         /* no object is bound to the name */
    REFHEAP_NAMES_FULL = 10,     /* 256 names are bound */
    REFHEAP_BUSY = 11,           /* the token is out, or the mutator or the cleaner has something unfinished */
    REFHEAP_GUARD_CLOSED = 12,   /* the guard was stopped */
    REFHEAP_NO_SESSION = 13,     /* the mutator has not joined; of a join: it has, or its number is too large */
    REFHEAP_EXHAUSTED = 14,      /* 2^64 - 2 actions were made */
    REFHEAP_NOT_OUT = 17,        /* the end of something that the mutator has not begun */
    REFHEAP_WOULD_WAIT = 18,     /* refheap_remove, and the queue is empty */
    REFHEAP_RESOURCES_FULL = 19, /* as many guards as the limit */
    REFHEAP_NOT_OPEN = 32,       /* the heap is not open */
    REFHEAP_RANGE = 33,          /* an argument is out of its range */
    REFHEAP_IDLE = 34,           /* nothing was there to do or to tell */
    REFHEAP_BAD_CELLS = 35,      /* refheap_open: the first limit that is out of its range */
    REFHEAP_BAD_SESSIONS = 36,
    REFHEAP_BAD_RESOURCES = 37,
    REFHEAP_BAD_SOFT_AGE = 38
};

/* How something of yours ended. */
enum refheap_fault {
    REFHEAP_WELL = 0,
    REFHEAP_NOT_FOUND = 1,
    REFHEAP_DENIED = 2,
    REFHEAP_FAILED = 3
};

/* In whose name refheap_finish tells the end of an action that refheap_take_up gave. */
#define REFHEAP_CLEANER 255

/* ---- The life of a heap */

/* Opens an empty heap of so many cells, 16 to 65536, an object taking one and a guard two; mutators that
 * may be joined at once, 1 to 64; guards, 1 to 256; and collections that a soft reference outlives without
 * being used, 0 to 1000. */
uint32_t refheap_open(refheap *heap, uint32_t cells, uint32_t sessions, uint32_t resources, uint32_t soft_age);
void refheap_close(refheap *heap);
uint32_t refheap_join(refheap *heap, uint8_t by);
uint32_t refheap_leave(refheap *heap, uint8_t by);

/* ---- Objects and handles */

/* The bit of a reference field. */
#define REFHEAP_FIELD(i) ((uint8_t)(1u << (i)))
#define REFHEAP_ALL_FIELDS ((uint8_t)255)

/* An object with 0 to 8 fields. The bits of `references` say which are reference fields, null at first; the
 * others are integers, 0 at first. */
uint32_t refheap_new(refheap *heap, uint8_t by, uint8_t fields, uint8_t references, uint8_t *out);
/* An array of 1 to 4096 references, all null. It allocates. */
uint32_t refheap_array(refheap *heap, uint8_t by, uint16_t length, uint8_t *out);
uint32_t refheap_dup(refheap *heap, uint8_t by, uint8_t object, uint8_t *out);
uint32_t refheap_drop(refheap *heap, uint8_t by, uint8_t object);
/* Whether two handles name one object, or are both null. */
uint32_t refheap_same(refheap *heap, uint8_t by, uint8_t left, uint8_t right, bool *out);
uint32_t refheap_put(refheap *heap, uint8_t by, uint8_t object, uint16_t field, uint8_t value);
uint32_t refheap_get(refheap *heap, uint8_t by, uint8_t object, uint16_t field, uint8_t *out);
uint32_t refheap_set_int(refheap *heap, uint8_t by, uint8_t object, uint16_t field, int64_t value);
uint32_t refheap_int(refheap *heap, uint8_t by, uint8_t object, uint16_t field, int64_t *out);

/* ---- References and queues. `queue` may be 0 for none */

uint32_t refheap_soft(refheap *heap, uint8_t by, uint8_t referent, uint8_t queue, uint8_t *out);
uint32_t refheap_weak(refheap *heap, uint8_t by, uint8_t referent, uint8_t queue, uint8_t *out);
uint32_t refheap_phantom(refheap *heap, uint8_t by, uint8_t referent, uint8_t queue, uint8_t *out);
/* The referent: a new handle, or 0 where it is cleared, and of a phantom reference always. */
uint32_t refheap_deref(refheap *heap, uint8_t by, uint8_t reference, uint8_t *out);
/* Whether a reference refers to this object, or, for 0, to none. It makes no handle and does not count as a
 * use. */
uint32_t refheap_refers(refheap *heap, uint8_t by, uint8_t reference, uint8_t object, bool *out);
/* Clears a reference, which then comes to no queue. */
uint32_t refheap_clear(refheap *heap, uint8_t by, uint8_t reference);
/* Clears a reference and puts it on its queue now: whether it had one that it was never on. */
uint32_t refheap_enqueue(refheap *heap, uint8_t by, uint8_t reference, bool *out);
uint32_t refheap_enqueued(refheap *heap, uint8_t by, uint8_t reference, bool *out);
uint32_t refheap_queue(refheap *heap, uint8_t by, uint8_t *out);
/* The reference that came to a queue first is taken off: a new handle for it, or 0 where the queue is
 * empty; remove returns REFHEAP_WOULD_WAIT then. */
uint32_t refheap_poll(refheap *heap, uint8_t by, uint8_t queue, uint8_t *out);
uint32_t refheap_remove(refheap *heap, uint8_t by, uint8_t queue, uint8_t *out);

/* ---- Cleaning actions and guards */

/* An action that was taken up. */
typedef struct refheap_job {
    uint64_t action; /* its number, for refheap_finish */
    uint64_t value;  /* the token that is given back, or the note that was registered */
    bool is_token;
} refheap_job;

uint32_t refheap_cleaner(refheap *heap, uint8_t by, uint8_t *out);
/* An action, known to you by a note, that is to be done once the object is reclaimed: a handle for its
 * cleanable. */
uint32_t refheap_register(refheap *heap, uint8_t by, uint8_t cleaner, uint8_t object, uint32_t note, uint8_t *out);
/* Takes the action up now, in your own name; REFHEAP_IDLE where it was taken up before. */
uint32_t refheap_clean(refheap *heap, uint8_t by, uint8_t cleanable, refheap_job *out);

/* Room for a guard. It may allocate. The mutator may ask nothing else until refheap_adopt or
 * refheap_give_up. */
uint32_t refheap_prepare(refheap *heap, uint8_t by);
uint32_t refheap_adopt(refheap *heap, uint8_t by, uint64_t token, uint8_t *out);
uint32_t refheap_give_up(refheap *heap, uint8_t by, uint32_t fault);
/* Lends the token, until refheap_check_in, before which the mutator may ask nothing else. */
uint32_t refheap_check_out(refheap *heap, uint8_t by, uint8_t guard, uint64_t *out);
uint32_t refheap_check_in(refheap *heap, uint8_t by, uint64_t token, uint32_t fault);
/* Gives the token back for good; REFHEAP_IDLE where it was given back before. refheap_finish is owed. */
uint32_t refheap_stop(refheap *heap, uint8_t by, uint8_t guard, refheap_job *out);

/* The next action whose object, or guard, was reclaimed. refheap_finish by REFHEAP_CLEANER is owed, and
 * until then it returns REFHEAP_BUSY. */
uint32_t refheap_take_up(refheap *heap, refheap_job *out);
/* The end of an action. With a fault it is kept among the failures, without one its note among the notes. */
uint32_t refheap_finish(refheap *heap, uint8_t by, uint64_t action, uint32_t fault);

/* ---- Collections */

uint32_t refheap_gc(refheap *heap, uint8_t by);
/* Clears all soft references to what nothing strong leads to. */
uint32_t refheap_gc_soft(refheap *heap, uint8_t by);
/* One reference to its queue, or one action into the line; REFHEAP_IDLE where nothing is pending. */
uint32_t refheap_hand_over(refheap *heap);
/* Opens a cycle: whether none was open. */
uint32_t refheap_begin(refheap *heap, bool *out);
/* Follows at most `budget` objects, and of an array 64 elements at a time: whether all is marked;
 * REFHEAP_IDLE where no cycle is open, and then at most as many cells are swept instead. */
uint32_t refheap_mark(refheap *heap, uint32_t budget, bool *done);
/* The collection of a cycle: whether one was open and all was marked. */
uint32_t refheap_collect(refheap *heap, bool *out);
/* Gives an open cycle up: whether one was open. */
uint32_t refheap_abandon(refheap *heap, bool *out);

/* ---- Names, which keep their objects. 1 to 32 small letters, digits and underscores; else REFHEAP_RANGE */

uint32_t refheap_bind(refheap *heap, uint8_t by, const char *name, size_t length, uint8_t object);
uint32_t refheap_find(refheap *heap, uint8_t by, const char *name, size_t length, uint8_t *out);
uint32_t refheap_unbind(refheap *heap, uint8_t by, const char *name, size_t length);

/* ---- What is counted and recorded. Lists are told by index, and REFHEAP_IDLE behind the last; each call
 * allocates room for the list, and frees it */

typedef struct refheap_counts {
    uint64_t objects;
    uint64_t resources;
    uint64_t taken;  /* actions that were taken up, */
    uint64_t ok;     /* that ended well, */
    uint64_t failed; /* and that failed */
} refheap_counts;

typedef struct refheap_failed {
    uint64_t action;
    uint32_t fault;
} refheap_failed;

uint32_t refheap_stat(refheap *heap, uint8_t by, refheap_counts *out);
/* A bound name, in order of binding, with zeros behind it. */
uint32_t refheap_name(refheap *heap, uint8_t by, size_t index, char out[33]);
/* The last 256 notes of actions that ended well, and the last 256 failures, the oldest first. */
uint32_t refheap_note(refheap *heap, uint8_t by, size_t index, uint32_t *out);
uint32_t refheap_failure(refheap *heap, uint8_t by, size_t index, refheap_failed *out);

#ifdef __cplusplus
}
#endif
#endif
