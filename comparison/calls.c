/*
 * The library as a process, for the comparison to ask: reads one call after another from standard input with all that
 * is lent to it, makes it, and writes the answer and all that was lent back. So a call that ended the process would
 * be seen.
 *
 * Every lent slice stands between guards; a call that changes one of them ends the process.
 */
#include "sankayop.h"

#include <stdio.h>
#include <stdlib.h>
#include <string.h>

enum slice { TEXT, MAP, BENCH, MASK, ROUTE, SLICES };

static const size_t WIDTH[SLICES] = {1, 4, 4, 1, 4};

#define ROOM ((size_t)1 << 21)
#define GUARD ((size_t)64)
#define GUARD_BYTE 0xA5

/* Words, so that each slice is aligned; it begins behind a guard. */
static uint32_t memory[SLICES][(GUARD + ROOM + GUARD) / 4];

/* A call, its numbers and the length of each slice, 0 for those that it does not take. */
struct request {
    uint32_t call, n, m, start, target, stretch, locality, crossing;
    uint32_t length[SLICES];
};

static uint8_t *bytes(enum slice slice) { return (uint8_t *)memory[slice] + GUARD; }
static uint32_t *words(enum slice slice) { return memory[slice] + GUARD / 4; }
static size_t size(const struct request *r, int slice) { return r->length[slice] * WIDTH[slice]; }

static void stop(const char *why) {
    fprintf(stderr, "calls: %s\n", why);
    exit(1);
}

static void take(const struct request *r) {
    for (int slice = 0; slice < SLICES; slice++) {
        if (size(r, slice) > ROOM) {
            stop("more is lent than there is room for");
        }
        memset(memory[slice], GUARD_BYTE, GUARD + size(r, slice) + GUARD);
        if (fread(bytes(slice), 1, size(r, slice), stdin) != size(r, slice)) {
            stop("a call is cut off");
        }
    }
}

static uint64_t answer(const struct request *r) {
    const uint32_t *l = r->length, n = r->n, m = r->m;
    switch (r->call) {
    case 0:
        return sankayop_read(bytes(TEXT), l[TEXT], words(MAP), l[MAP]);
    case 1:
        return sankayop_open(words(MAP), l[MAP], n, m, r->start, r->target, r->stretch, words(BENCH), l[BENCH]);
    case 2:
        return sankayop_forward(words(MAP), l[MAP], n, m, words(BENCH), l[BENCH]);
    case 3:
        return sankayop_backward(words(MAP), l[MAP], n, m, words(BENCH), l[BENCH]);
    case 4:
        return sankayop_area(words(MAP), l[MAP], n, m, words(BENCH), l[BENCH], r->locality, bytes(MASK), l[MASK]);
    case 5:
        return sankayop_route(words(MAP), l[MAP], n, m, words(BENCH), l[BENCH], r->crossing, words(ROUTE), l[ROUTE]);
    default:
        stop("there is no such call");
        return 0;
    }
}

static void check_guards(const struct request *r) {
    for (int slice = 0; slice < SLICES; slice++) {
        const uint8_t *before = bytes(slice) - GUARD, *after = bytes(slice) + size(r, slice);
        for (size_t i = 0; i < GUARD; i++) {
            if (before[i] != GUARD_BYTE || after[i] != GUARD_BYTE) {
                stop("a call wrote outside what it was lent");
            }
        }
    }
}

static void give(const struct request *r, uint64_t answered) {
    fwrite(&answered, sizeof answered, 1, stdout);
    for (int slice = 0; slice < SLICES; slice++) {
        fwrite(bytes(slice), 1, size(r, slice), stdout);
    }
    if (fflush(stdout) != 0) {
        stop("the answer cannot be written");
    }
}

int main(void) {
    struct request request;
    while (fread(&request, sizeof request, 1, stdin) == 1) {
        take(&request);
        uint64_t answered = answer(&request);
        check_guards(&request);
        give(&request, answered);
    }
    return 0;
}
