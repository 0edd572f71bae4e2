/*
 * Sankayop: reads a road map, opens a bench for one order, advances either half of it by one crossing a call,
 * and reports the bypass area and its routes.
 *
 * The road map is an array of 32-bit words, tail, head and cost of each link in turn: links are numbered 1 to m in
 * that order, crossings 1 to n. The bench is SANKAYOP_BENCH_WORDS(n) words of the caller's. A call reads and writes
 * what it is lent and nothing else; it keeps nothing, and no input makes it fail, wrap or run on.
 *
 * What a caller owes, and nothing checks: every pointer is aligned and not null, also at length 0; what it points
 * to has at least the length given; and no slice that a call writes overlaps another one of the same call.
 * All numbers may have any value: what is out of range is refused.
 *
 * Every call answers a number of 64 bits, number x 2^56 + first x 2^28 + second. The number is 0 if the call is not
 * refused; what first and second are then, each call says below, and what is not said is 0. A refusal leaves all lent
 * memory as it was. The numbers of refusal:
 *
 *    1  the text breaks the layout
 *    2  n not in 1 to 4,096, m above 16,384, or the text longer than 1,048,576 bytes
 *    3  a lent map, bench, mask or route buffer is too short
 *    4  a link's end, the start, the target or the asked crossing is not in 1 to n
 *    5  a cost not in 1 to 65,535, the stretch not in 1,000 to 4,000, or the locality above 268,365,825
 *    6  the bench is not well shaped for this map
 *    7  the trails are not sound
 *    8  a half is not done
 *    9  both halves are done and there is no route
 *   10  the asked crossing is not in the area
 *
 * After opening, with the same map, no call meets 6 or 7.
 */
#ifndef SANKAYOP_H
#define SANKAYOP_H

#include <stddef.h>
#include <stdint.h>

#ifdef __cplusplus
extern "C" {
#endif

/*
 * Where a bench for n crossings holds what a caller may want to read: the optimum; the distances of crossings 1 to n from
 * the start, and to the target; their marks. An unknown optimum is SANKAYOP_UNKNOWN.
 */
#define SANKAYOP_OPTIMUM_AT 5
#define SANKAYOP_FROM_AT 6
#define SANKAYOP_TO_AT(n) (6 + 3 * (size_t)(n))
#define SANKAYOP_MARKS_AT(n) (6 + 6 * (size_t)(n))
#define SANKAYOP_UNKNOWN UINT32_C(4294967295)

/* The words of a bench for n crossings, of a map of m links, and the most words of a route. */
#define SANKAYOP_BENCH_WORDS(n) (6 + 7 * (size_t)(n))
#define SANKAYOP_MAP_WORDS(m) (3 * (size_t)(m))
#define SANKAYOP_ROUTE_WORDS(n) (2 * (size_t)(n) - 1)

/* The three parts of an answer. */
static inline uint32_t sankayop_number(uint64_t answer) { return (uint32_t)(answer >> 56); }
static inline uint32_t sankayop_first(uint64_t answer) { return (uint32_t)(answer >> 28) & 0xFFFFFFF; }
static inline uint32_t sankayop_second(uint64_t answer) { return (uint32_t)answer & 0xFFFFFFF; }

/*
 * Reads a text in the `.gr` layout and writes its links over the first 3m words of the map. First is n, second is m.
 * Refused (1 to 5), first is the line, counted from 1, and 0 for a text too long.
 */
uint64_t sankayop_read(const uint8_t *text, size_t text_length, uint32_t *map, size_t map_length);

/* Opens the bench for one order; the stretch is in thousandths. Refused: 2 to 5. */
uint64_t sankayop_open(
    const uint32_t *map, size_t map_length, uint32_t n, uint32_t m,
    uint32_t start, uint32_t target, uint32_t stretch, uint32_t *bench, size_t bench_length);

/*
 * One turn of the forward half, or of the backward half. First is the crossing that it settles and second its
 * distance; both are 0 if the half is done, and then nothing changes. Refused: 2 to 6.
 */
uint64_t sankayop_forward(
    const uint32_t *map, size_t map_length, uint32_t n, uint32_t m, uint32_t *bench, size_t bench_length);
uint64_t sankayop_backward(
    const uint32_t *map, size_t map_length, uint32_t n, uint32_t m, uint32_t *bench, size_t bench_length);

/*
 * The area, once both halves are done. Fills the first n bytes of the mask: 2 for a crossing that is in the locally
 * optimal area, 1 for one that is in the area only, 0 for the others. Refused: 2 to 9.
 */
uint64_t sankayop_area(
    const uint32_t *map, size_t map_length, uint32_t n, uint32_t m,
    const uint32_t *bench, size_t bench_length, uint32_t locality, uint8_t *mask, size_t mask_length);

/*
 * The route through a crossing of the area, once both halves are done: start, .., crossing, .., target, written over
 * the first words of the buffer. First is its length. Refused: 2 to 10.
 */
uint64_t sankayop_route(
    const uint32_t *map, size_t map_length, uint32_t n, uint32_t m,
    const uint32_t *bench, size_t bench_length, uint32_t crossing, uint32_t *route, size_t route_length);

#ifdef __cplusplus
}
#endif

#endif
