/* A list machine: a small Lisp whose every cell lies in the heap, its stack and its environments too. It holds no pointer into the heap, but
 * a few handles, so it survives a full collection at each allocation: give it a word on the command line, and it runs one there.
 *
 *     cc -std=c99 lists.c librefheap.a -o lists && ./lists < squares.lisp && ./lists collect < squares.lisp
 */
#include "refheap.h"

#include <ctype.h>
#include <stdio.h>
#include <stdlib.h>
#include <string.h>

enum { TAG, VALUE, HEAD, TAIL }; /* the fields of a cell: two integers and two references */
enum { NUMBER, SYMBOL, PAIR, CLOSURE, K_IF, K_DEF, K_ARGS, K_END }; /* its tags; the last four are what is to be done next */

static refheap heap;
static bool collects;
static uint8_t globals; /* a list of pairs of a symbol and its value */
static char symbols[64][16];

static void must(uint32_t status) {
    if (status != REFHEAP_OK) {
        fprintf(stderr, "lists: %u\n", (unsigned)status);
        exit(1);
    }
}
static void drop(uint8_t cell) { if (cell) must(refheap_drop(&heap, 0, cell)); }
static void let(uint8_t *place, uint8_t cell) { drop(*place); *place = cell; }
static uint8_t dup(uint8_t cell) { uint8_t out = 0; if (cell) must(refheap_dup(&heap, 0, cell, &out)); return out; }
static uint8_t part(uint8_t cell, int field) { uint8_t out = 0; if (cell) must(refheap_get(&heap, 0, cell, (uint16_t)field, &out)); return out; }
static int64_t integer(uint8_t cell, int field) { int64_t out = 0; if (cell) must(refheap_int(&heap, 0, cell, (uint16_t)field, &out)); return out; }
static bool is(uint8_t cell, int tag) { return cell && integer(cell, TAG) == tag; }

/* A new cell; it takes over the two handles that it is given. */
static uint8_t cell(int tag, int64_t value, uint8_t head, uint8_t tail) {
    uint8_t out = 0;
    if (collects) must(refheap_gc_soft(&heap, 0));
    must(refheap_new(&heap, 0, 4, REFHEAP_FIELD(HEAD) | REFHEAP_FIELD(TAIL), &out));
    must(refheap_set_int(&heap, 0, out, TAG, tag));
    must(refheap_set_int(&heap, 0, out, VALUE, value));
    must(refheap_put(&heap, 0, out, HEAD, head));
    must(refheap_put(&heap, 0, out, TAIL, tail));
    drop(head), drop(tail);
    return out;
}
static uint8_t take(uint8_t *list) { uint8_t first = part(*list, HEAD); let(list, part(*list, TAIL)); return first; }

/* ---- Reading and printing */

static int64_t symbol(const char *word) {
    int i = 0;
    while (i < 63 && symbols[i][0] && strcmp(symbols[i], word)) i++;
    snprintf(symbols[i], sizeof symbols[i], "%s", word);
    return i;
}
static uint8_t reversed(uint8_t list) {
    uint8_t out = 0;
    while (list) { uint8_t first = take(&list); out = cell(PAIR, 0, first, out); }
    return out;
}
static bool read_cell(uint8_t *out) { /* false at the end, and behind the last of a list */
    char word[16];
    int c, n = 0;
    while ((c = getchar()) != EOF && isspace(c)) { }
    *out = 0;
    if (c == EOF || c == ')') return false;
    if (c == '(') {
        uint8_t list = 0, item;
        while (read_cell(&item)) list = cell(PAIR, 0, item, list);
        *out = reversed(list);
        return true;
    }
    do if (n < 15) word[n++] = (char)c; while ((c = getchar()) != EOF && !isspace(c) && c != '(' && c != ')');
    ungetc(c, stdin);
    word[n] = 0;
    *out = isdigit((unsigned char)word[0]) ? cell(NUMBER, strtol(word, NULL, 10), 0, 0) : cell(SYMBOL, symbol(word), 0, 0);
    return true;
}
static void print(uint8_t value) {
    if (is(value, NUMBER)) printf("%ld", (long)integer(value, VALUE));
    else if (is(value, SYMBOL)) printf("%s", symbols[integer(value, VALUE)]);
    else if (is(value, CLOSURE)) printf("<fn>");
    else {
        uint8_t rest = dup(value), first;
        for (printf("("); rest; printf(rest ? " " : "")) { first = take(&rest); print(first); drop(first); }
        printf(")");
    }
}

/* ---- Evaluating: what is evaluated, where, and what is to be done with it */

static uint8_t bound(uint8_t names, int64_t name) {
    uint8_t list = dup(names), out = 0;
    while (list && !out) {
        uint8_t pair = take(&list), key = part(pair, HEAD);
        if (integer(key, VALUE) == name) out = cell(PAIR, 0, part(pair, TAIL), 0); /* found, be it null */
        drop(pair), drop(key);
    }
    drop(list);
    return out;
}
static uint8_t looked_up(uint8_t env, int64_t name) {
    uint8_t found = bound(env, name), value;
    if (!found) found = bound(globals, name);
    value = found ? part(found, HEAD) : cell(SYMBOL, name, 0, 0); /* what is not bound is itself, as the names of what is built in */
    drop(found);
    return value;
}
static uint8_t built_in(int64_t name, uint8_t args) {
    uint8_t x = take(&args), y = take(&args), out = 0;
    const char *word = symbols[name];
    if (!strcmp(word, "cons")) out = cell(PAIR, 0, dup(x), dup(y));
    else if (!strcmp(word, "head")) out = part(x, HEAD);
    else if (!strcmp(word, "tail")) out = part(x, TAIL);
    else if (!strcmp(word, "add")) out = cell(NUMBER, integer(x, VALUE) + integer(y, VALUE), 0, 0);
    else if (!strcmp(word, "sub")) out = cell(NUMBER, integer(x, VALUE) - integer(y, VALUE), 0, 0);
    else if (!strcmp(word, "mul")) out = cell(NUMBER, integer(x, VALUE) * integer(y, VALUE), 0, 0);
    drop(x), drop(y), drop(args);
    return out;
}

/* The value of an expression, which it takes over. Null and 0 are false. */
static uint8_t evaluated(uint8_t expr) {
    uint8_t env = 0, next = cell(K_END, 0, 0, 0), value = 0;
    for (;;) {
        if (is(expr, PAIR)) {
            uint8_t rest = dup(expr), first = take(&rest);
            const char *word = is(first, SYMBOL) ? symbols[integer(first, VALUE)] : "";
            if (!strcmp(word, "quote")) let(&value, take(&rest)), let(&expr, 0);
            else if (!strcmp(word, "fn")) let(&value, cell(CLOSURE, 0, dup(rest), dup(env))), let(&expr, 0);
            else if (!strcmp(word, "if")) let(&expr, take(&rest)), next = cell(K_IF, 0, cell(PAIR, 0, dup(rest), dup(env)), next);
            else if (!strcmp(word, "def")) { uint8_t name = take(&rest); let(&expr, take(&rest)), next = cell(K_DEF, 0, name, next); }
            else let(&expr, dup(first)), next = cell(K_ARGS, 0, cell(PAIR, 0, cell(PAIR, 0, 0, dup(rest)), dup(env)), next); /* done, to do; where */
            drop(first), drop(rest);
            if (expr) continue;
        } else if (is(expr, SYMBOL)) let(&value, looked_up(env, integer(expr, VALUE)));
        else let(&value, dup(expr));
        for (let(&expr, 0); !expr;) { /* the value goes to what comes next */
            int64_t tag = integer(next, TAG);
            uint8_t data = part(next, HEAD);
            if (tag == K_END) { drop(env), drop(next); return value; }
            let(&next, part(next, TAIL));
            if (tag == K_DEF) { globals = cell(PAIR, 0, cell(PAIR, 0, dup(data), dup(value)), globals); drop(data); continue; }
            let(&env, part(data, TAIL));
            if (tag == K_IF) {
                uint8_t arms = part(data, HEAD);
                if (!value || (is(value, NUMBER) && !integer(value, VALUE))) drop(take(&arms));
                expr = take(&arms);
                drop(arms), drop(data);
                if (!expr) { let(&value, 0); continue; }
            } else {
                uint8_t pair = part(data, HEAD), done = cell(PAIR, 0, dup(value), part(pair, HEAD)), rest = part(pair, TAIL);
                drop(pair), drop(data);
                if (rest) {
                    expr = take(&rest);
                    next = cell(K_ARGS, 0, cell(PAIR, 0, cell(PAIR, 0, done, rest), dup(env)), next);
                    if (!expr) { let(&value, 0); continue; }
                } else {
                    uint8_t args = reversed(done), called = take(&args);
                    if (is(called, CLOSURE)) {
                        uint8_t code = part(called, HEAD), names = take(&code);
                        for (let(&env, part(called, TAIL)); names;) { uint8_t name = take(&names); env = cell(PAIR, 0, cell(PAIR, 0, name, take(&args)), env); }
                        expr = take(&code);
                        drop(code), drop(args);
                    } else let(&value, built_in(integer(called, VALUE), args));
                    drop(called);
                }
            }
        }
    }
}

int main(int count, char **words) {
    uint8_t expr, value;
    refheap_counts counts;
    (void)words;
    collects = count > 1;
    must(refheap_open(&heap, 4096, 1, 1, 0));
    must(refheap_join(&heap, 0));
    while (read_cell(&expr)) {
        value = evaluated(expr);
        print(value);
        printf("\n");
        drop(value);
    }
    drop(globals);
    must(refheap_gc(&heap, 0));
    must(refheap_stat(&heap, 0, &counts));
    refheap_close(&heap);
    return counts.objects == 0 ? 0 : 1; /* no handle was forgotten */
}
