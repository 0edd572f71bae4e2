/* The document's five crossings: the area from 1 to 5 at stretch 1,200 and locality 1, and the route through 4. */
#include "sankayop.h"

#include <stdio.h>

enum { CROSSINGS = 5, LINKS = 7 };

static const char TEXT[] =
    "c five crossings\n"
    "p sp 5 7\n"
    "a 1 2 4\n"
    "a 2 5 6\n"
    "a 1 3 5\n"
    "a 3 5 6\n"
    "a 2 4 1\n"
    "a 4 2 1\n"
    "a 5 1 9\n";

static uint32_t map[SANKAYOP_MAP_WORDS(LINKS)];
static uint32_t bench[SANKAYOP_BENCH_WORDS(CROSSINGS)];
static uint8_t mask[CROSSINGS];
static uint32_t route[SANKAYOP_ROUTE_WORDS(CROSSINGS)];

#define LENGTH(array) (sizeof(array) / sizeof(array)[0])

/* Says which call was refused with which number; 0 if it was not. */
static int refused(const char *call, uint64_t answer) {
    if (sankayop_number(answer) != 0) {
        printf("%s refused: %u\n", call, (unsigned)sankayop_number(answer));
    }
    return sankayop_number(answer) != 0;
}

/* Prints what a turn settled; 0 if its half is done. */
static int settled(const char *half, uint64_t answer) {
    if (sankayop_first(answer) != 0) {
        printf("%s %u %u\n", half, (unsigned)sankayop_first(answer), (unsigned)sankayop_second(answer));
    }
    return sankayop_first(answer) != 0;
}

/* Turns alternately, forward first, until both halves are done. */
static int take_turns(uint32_t n, uint32_t m) {
    int more = 1;
    while (more) {
        uint64_t forward = sankayop_forward(map, LENGTH(map), n, m, bench, LENGTH(bench));
        uint64_t backward = sankayop_backward(map, LENGTH(map), n, m, bench, LENGTH(bench));
        if (refused("forward", forward) || refused("backward", backward)) {
            return 0;
        }
        more = settled("forward", forward);
        more = settled("backward", backward) || more;
    }
    return 1;
}

/* The optimum, and the crossings of the area with the cost of the way through each. */
static void print_area(uint32_t n) {
    const uint32_t *from = bench + SANKAYOP_FROM_AT, *to = bench + SANKAYOP_TO_AT(n);
    printf("o %u\n", (unsigned)bench[SANKAYOP_OPTIMUM_AT]);
    for (uint32_t i = 0; i < n; i++) {
        if (mask[i] > 0) {
            printf("%c %u %u\n", mask[i] == 2 ? 'l' : 'b', (unsigned)i + 1, (unsigned)(from[i] + to[i]));
        }
    }
}

static void print_route(uint32_t length) {
    printf("route");
    for (uint32_t i = 0; i < length; i++) {
        printf(" %u", (unsigned)route[i]);
    }
    printf("\n");
}

int main(void) {
    uint64_t answer = sankayop_read((const uint8_t *)TEXT, sizeof TEXT - 1, map, LENGTH(map));
    uint32_t n = sankayop_first(answer), m = sankayop_second(answer);
    if (refused("read", answer)) {
        return 1;
    }
    printf("read %u %u\n", (unsigned)n, (unsigned)m);
    answer = sankayop_open(map, LENGTH(map), n, m, 1, 5, 1200, bench, LENGTH(bench));
    if (refused("open", answer) || !take_turns(n, m)) {
        return 1;
    }
    answer = sankayop_area(map, LENGTH(map), n, m, bench, LENGTH(bench), 1, mask, LENGTH(mask));
    if (refused("area", answer)) {
        return 1;
    }
    print_area(n);
    answer = sankayop_route(map, LENGTH(map), n, m, bench, LENGTH(bench), 4, route, LENGTH(route));
    if (refused("route", answer)) {
        return 1;
    }
    print_route(sankayop_first(answer));
    return 0;
}
