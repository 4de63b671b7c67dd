/* Calls the library from C: cases of the bench table, counts within ranges, search limits, a full side, records of before, a grid, lays, a
 * mesh, refusals, and the borders that the header guards. What it prints is compared with the file `expected`. */
#include "../include/juplatsk.h"

#include <math.h>
#include <stdio.h>
#include <string.h>

#define LENGTH(array) (sizeof(array) / sizeof(array)[0])

static void one_edge(uint16_t *record, unsigned side, uint16_t edge)
{
    jp_set_side(record, side, &edge, 1);
}

static void tell(const char *name, uint32_t number, const uint32_t *answer, size_t n)
{
    size_t i;
    printf("%s: %u,", name, number);
    for (i = 0; i < n; i++) {
        printf(" %u", answer[i]);
    }
    printf("\n");
}

static void tell_counts(const uint32_t *counts, size_t n)
{
    size_t i;
    printf("  counts");
    for (i = 0; i < n; i++) {
        printf(" %u", counts[i]);
    }
    printf("\n");
}

static void tell_values(const char *name, const double *values, size_t n)
{
    size_t i;
    printf("  %s", name);
    for (i = 0; i < n; i++) {
        printf(" %g", values[i]);
    }
    printf("\n");
}

/* Case A of the bench table: two tiles side by side, which share edge 1. */
static void farm(uint16_t *regions)
{
    memset(regions, 0, 2 * JP_RECORD * sizeof *regions);
    one_edge(regions, 0, 0);
    one_edge(regions, 1, 1);
    one_edge(regions, 2, 2);
    one_edge(regions, 3, 3);
    one_edge(regions + JP_RECORD, 0, 4);
    one_edge(regions + JP_RECORD, 1, 5);
    one_edge(regions + JP_RECORD, 2, 6);
    one_edge(regions + JP_RECORD, 3, 1);
}

static const double ideals[7] = {4, 2, 4, 2, 2, 2, 2};

static void solver(void)
{
    uint16_t regions[2 * JP_RECORD];
    uint32_t counts[8] = {9, 9, 9, 9, 9, 9, 9, 9};
    uint32_t answer[4];
    double value[1];
    farm(regions);
    tell("A", jp_solve_counts(regions, LENGTH(regions), ideals, 7, counts, 8, jp_limit_expansions(100000), answer), answer, 3);
    tell_counts(counts, 8);
    tell("hold", jp_constraints_hold(regions, LENGTH(regions), counts, 7, answer), answer, 3);
    tell("energy", jp_energy(counts, 7, ideals, 7, answer, value), answer, 2);
    tell_values("sum", value, 1);
    tell("round", jp_round(regions, LENGTH(regions), ideals, 7, counts, 7, jp_limit_expansions(100000), answer, value), answer, 4);
    counts[0] = 0;
    tell("K, limit 0", jp_round(NULL, 0, ideals, 1, counts, 1, jp_limit_expansions(0), answer, value), answer, 4);
    tell("K, limit 1", jp_round(NULL, 0, ideals, 1, counts, 1, jp_limit_expansions(1), answer, value), answer, 4);
    tell_values("cost", value, 1);
    tell_counts(counts, 1);
}

/* The first tile alone, with a least and a most for each of its edges; the last count is past the needed ones. */
static void ranges(void)
{
    static const double least[4] = {2, 1, 3, 1};
    static const double most[4] = {5, 4, 4, 4};
    static const double reversed[4] = {2, 1, 5, 1};
    const jp_search_limit limit = jp_limit_default();
    uint16_t regions[2 * JP_RECORD];
    uint32_t counts[5] = {9, 9, 9, 9, 9};
    uint32_t answer[4];
    double cost[1];
    farm(regions);
    tell("within ranges", jp_solve_counts_within(regions, JP_RECORD, least, 4, most, 4, counts, 5, limit, answer), answer, 3);
    tell_counts(counts, 5);
    counts[0] = counts[2] = 2;
    tell("round within ranges", jp_round_within(regions, JP_RECORD, least, 4, most, 4, counts, 4, limit, answer, cost), answer, 4);
    tell_values("cost", cost, 1);
    tell_counts(counts, 5);
    tell("edge 2 from 5 to 4", jp_solve_counts_within(regions, JP_RECORD, reversed, 4, most, 4, counts, 5, limit, answer), answer, 3);
    tell("so in a round", jp_round_within(regions, JP_RECORD, reversed, 4, most, 4, counts, 4, limit, answer, cost), answer, 4);
    tell("edge 3 without a most", jp_solve_counts_within(regions, JP_RECORD, least, 4, most, 3, counts, 5, limit, answer), answer, 3);
    tell_counts(counts, 5);
}

/* The four functions that search, each with this limit, on two edges that lie in no region. The third count is past the needed ones. */
static void with_limit(const char *name, jp_search_limit limit)
{
    static const double wanted[2] = {2, 3};
    uint32_t solved[3] = {9, 9, 9}, within[3] = {9, 9, 9};
    uint32_t moved[3] = {0, 0, 9}, moved_within[3] = {0, 0, 9};
    uint32_t answer[4];
    double cost[1];
    printf("%s\n", name);
    tell("solve", jp_solve_counts(NULL, 0, wanted, 2, solved, 3, limit, answer), answer, 3);
    tell_counts(solved, 3);
    tell("solve within ranges", jp_solve_counts_within(NULL, 0, wanted, 2, wanted, 2, within, 3, limit, answer), answer, 3);
    tell_counts(within, 3);
    tell("round", jp_round(NULL, 0, wanted, 2, moved, 2, limit, answer, cost), answer, 4);
    tell_counts(moved, 3);
    tell("round within ranges", jp_round_within(NULL, 0, wanted, 2, wanted, 2, moved_within, 2, limit, answer, cost), answer, 4);
    tell_counts(moved_within, 3);
}

/* A limit may be stated or not. 0 is stated: no search finds anything. What is above 100,000 is refused, and the counts stay. */
static void limits(void)
{
    const jp_search_limit all_zero = {0};
    with_limit("no limit stated", jp_limit_default());
    with_limit("all zero", all_zero);
    with_limit("limit 0", jp_limit_expansions(0));
    with_limit("limit 100,000", jp_limit_expansions(100000));
    with_limit("limit 100,001", jp_limit_expansions(100001));
    with_limit("limit 2^32", jp_limit_expansions((uint64_t)1 << 32));
}

/* A limit of 100,001 with a second fault: 10 comes behind 1 (a record that is cut off), and before 8, 11, 2 and 35. */
static void limit_and_more(void)
{
    static const double bad[2] = {2, -1};
    static const double least[2] = {2, 3};
    static const double most[2] = {2, 1};
    const jp_search_limit over = jp_limit_expansions(100001);
    const uint16_t cut[JP_RECORD - 1] = {0};
    uint32_t counts[2] = {9, 9};
    uint32_t answer[4];
    double cost[1];
    tell("solve, cut record", jp_solve_counts(cut, LENGTH(cut), bad, 2, counts, 2, over, answer), answer, 3);
    tell("solve, short counts", jp_solve_counts(NULL, 0, bad, 2, counts, 1, over, answer), answer, 3);
    tell("solve, bad ideal", jp_solve_counts(NULL, 0, bad, 2, counts, 2, over, answer), answer, 3);
    tell("within ranges, cut record", jp_solve_counts_within(cut, LENGTH(cut), least, 2, most, 2, counts, 2, over, answer), answer, 3);
    tell("within ranges, short most", jp_solve_counts_within(NULL, 0, least, 2, most, 1, counts, 2, over, answer), answer, 3);
    tell("within ranges, short counts", jp_solve_counts_within(NULL, 0, least, 2, most, 2, counts, 1, over, answer), answer, 3);
    tell("within ranges, bad least", jp_solve_counts_within(NULL, 0, bad, 2, most, 2, counts, 2, over, answer), answer, 3);
    tell("within ranges, edge 1 reversed", jp_solve_counts_within(NULL, 0, least, 2, most, 2, counts, 2, over, answer), answer, 3);
    tell("round, cut record", jp_round(cut, LENGTH(cut), bad, 2, counts, 2, over, answer, cost), answer, 4);
    tell("round, short counts", jp_round(NULL, 0, bad, 2, counts, 1, over, answer, cost), answer, 4);
    tell("round, bad ideal", jp_round(NULL, 0, bad, 2, counts, 2, over, answer, cost), answer, 4);
    tell("round within ranges, cut record", jp_round_within(cut, LENGTH(cut), least, 2, most, 2, counts, 2, over, answer, cost), answer, 4);
    tell("round within ranges, short most", jp_round_within(NULL, 0, least, 2, most, 1, counts, 2, over, answer, cost), answer, 4);
    tell("round within ranges, bad least", jp_round_within(NULL, 0, bad, 2, most, 2, counts, 2, over, answer, cost), answer, 4);
    tell("round within ranges, edge 1 reversed", jp_round_within(NULL, 0, least, 2, most, 2, counts, 2, over, answer, cost), answer, 4);
    tell_counts(counts, 2);
}

/* Nine strips side by side, whose ten borders have 25 edges. The last edge of each border wants one piece, the others a fifth of one. One
 * move pays, through the last edges, and a search comes to it behind all others: from the left end as its expansion 10,935, from the right
 * end later still. So a solve without a stated limit makes no move; a round after it, with the same limit, tells that a search was cut. */
static void nine_strips(void)
{
    enum { STRIPS = 9, EDGES = 25 };
    static const uint16_t on_border[STRIPS + 1] = {1, 2, 3, 3, 3, 3, 3, 3, 3, 1};
    const jp_search_limit high = jp_limit_expansions(100000);
    uint16_t regions[STRIPS * JP_RECORD] = {0};
    uint16_t edges[EDGES];
    double wanted[EDGES];
    uint32_t counts[EDGES];
    uint32_t answer[4];
    double cost[1];
    size_t border, i, first = 0;
    for (i = 0; i < EDGES; i++) {
        edges[i] = (uint16_t)i;
        wanted[i] = 0.2;
    }
    for (border = 0; border <= STRIPS; border++) {
        if (border > 0) {
            jp_set_side(regions + (border - 1) * JP_RECORD, 1, edges + first, on_border[border]);
        }
        if (border < STRIPS) {
            jp_set_side(regions + border * JP_RECORD, 3, edges + first, on_border[border]);
        }
        first += on_border[border];
        wanted[first - 1] = 1;
    }
    tell("nine strips", jp_solve_counts(regions, LENGTH(regions), wanted, EDGES, counts, EDGES, jp_limit_default(), answer), answer, 3);
    tell_counts(counts, EDGES);
    tell("hold", jp_constraints_hold(regions, LENGTH(regions), counts, EDGES, answer), answer, 3);
    tell("round", jp_round(regions, LENGTH(regions), wanted, EDGES, counts, EDGES, jp_limit_default(), answer, cost), answer, 4);
    tell("limit 100,000", jp_solve_counts(regions, LENGTH(regions), wanted, EDGES, counts, EDGES, high, answer), answer, 3);
    tell_counts(counts, EDGES);
    tell("hold", jp_constraints_hold(regions, LENGTH(regions), counts, EDGES, answer), answer, 3);
    tell("round", jp_round(regions, LENGTH(regions), wanted, EDGES, counts, EDGES, high, answer, cost), answer, 4);
}

/* As many edges along the bottom as a side has places, opposite one edge that is to have as many pieces as all of them. */
static void full_side(void)
{
    uint16_t region[JP_RECORD] = {0};
    uint16_t edges[JP_PLACES];
    double wanted[JP_PLACES + 1];
    uint32_t counts[JP_PLACES + 1];
    uint32_t answer[3];
    size_t i;
    for (i = 0; i < JP_PLACES; i++) {
        edges[i] = (uint16_t)i;
        wanted[i] = 1;
    }
    wanted[JP_PLACES] = JP_PLACES;
    jp_set_side(region, 0, edges, JP_PLACES);
    one_edge(region, 2, JP_PLACES);
    tell("a full side", jp_solve_counts(region, JP_RECORD, wanted, JP_PLACES + 1, counts, JP_PLACES + 1, jp_limit_default(), answer),
         answer, 3);
    tell_counts(counts, JP_PLACES + 1);
    tell("hold", jp_constraints_hold(region, JP_RECORD, counts, JP_PLACES + 1, answer), answer, 3);
}

/* Records of version 0.2.0, with 16 places on a side: first ([], [0], [], []), then ([0], [], [1], []), each with 32 more that have no
 * edge. One of them is no whole record. All 33 are as long as 17 new ones, and are read so: then no region names edge 0, or nothing stands
 * opposite it. Only the version keeps such lists away. */
static void records_of_before(void)
{
    enum { OLD_SIDE = 1 + 16, OLD_RECORD = JP_SIDES * OLD_SIDE };
    static const double wanted[2] = {3, 3};
    const jp_search_limit limit = jp_limit_default();
    uint16_t old[33 * OLD_RECORD] = {0};
    uint32_t counts[2] = {9, 9};
    uint32_t answer[3];
    old[OLD_SIDE] = 1;
    tell("33 records of before, one edge", jp_solve_counts(old, LENGTH(old), wanted, 1, counts, 1, limit, answer), answer, 3);
    tell_counts(counts, 2);
    old[OLD_SIDE] = 0;
    old[0] = 1;
    old[2 * OLD_SIDE] = 1;
    old[2 * OLD_SIDE + 1] = 1;
    tell("one record of before", jp_solve_counts(old, OLD_RECORD, wanted, 2, counts, 2, limit, answer), answer, 3);
    tell_counts(counts, 2);
    tell("33 records of before", jp_solve_counts(old, LENGTH(old), wanted, 2, counts, 2, limit, answer), answer, 3);
    tell_counts(counts, 2);
}

static const double bottom[4] = {0, 0, 1, 0};
static const double right[4] = {1, 0, 1, 1};
static const double top[4] = {1, 1, 0, 1};
static const double left[4] = {0, 1, 0, 0};
static const double square[8] = {0, 0, 1, 0, 1, 1, 0, 1};
static const double clockwise[8] = {0, 0, 0, 1, 1, 1, 1, 0};

static void grids(void)
{
    static const double early[3] = {0, 0, 1};
    static const double late[3] = {0, 1, 1};
    static const double ends[2] = {0, 1};
    uint16_t regions[2 * JP_RECORD];
    uint32_t counts[4] = {2, 1, 2, 1};
    uint32_t answer[3];
    uint32_t cells[16];
    double out[33];
    double points[27];
    out[32] = 7;
    tell("H", jp_coons_curves(bottom, 4, right, 4, top, 4, left, 4, 2, 2, out, 33, answer), answer, 3);
    tell_values("last quad, and past it", out + 24, 9);
    tell("I", jp_coons_checked(clockwise, 8, 2, 2, out, 33, answer), answer, 3);
    tell_values("left", out + 24, 9);
    tell("J", jp_coons_from_parameters(bottom, 4, right, 4, top, 4, left, 4, early, 3, late, 3, early, 3, late, 3, out, 33, answer), answer,
         3);
    tell_values("cleared", out + 24, 9);
    farm(regions);
    tell("lay", jp_lay_region(regions, JP_RECORD, counts, 4, ends, 2, ends, 2, ends, 2, ends, 2, bottom, 4, right, 4, top, 4, left, 4, out,
                              33, answer),
         answer, 3);
    tell_values("quads", out, 16);
    tell("mesh", jp_mesh_tile(square, 8, 2, 2, points, 27, cells, 16, answer), answer, 3);
    tell_values("middle point", points + 12, 3);
    printf("  last cell %u %u %u %u\n", cells[12], cells[13], cells[14], cells[15]);
    tell("mesh of curves, short cells", jp_mesh_tile_curves(bottom, 4, right, 4, top, 4, left, 4, 2, 2, points, 27, cells, 15, answer), answer,
         3);
}

/* Tiles with two opposite sides without edges: one quad across, and the breaks of these sides are not read. */
static void strips(void)
{
    static const double ends[2] = {0, 1};
    static const double unread[3] = {2, NAN, -1};
    static const uint32_t counts[2] = {2, 2};
    uint16_t tile[JP_RECORD] = {0};
    uint32_t answer[3];
    double out[17];
    out[16] = 7;
    one_edge(tile, 1, 0);
    one_edge(tile, 3, 1);
    tell("strip", jp_lay_region(tile, JP_RECORD, counts, 2, NULL, 0, ends, 2, unread, 3, ends, 2, bottom, 4, right, 4, top, 4, left, 4, out,
                                17, answer),
         answer, 3);
    tell_values("quads, and past them", out, 17);
    memset(tile, 0, sizeof tile);
    tell("no edges", jp_lay_region(tile, JP_RECORD, counts, 2, NULL, 0, unread, 3, ends, 2, NULL, 0, bottom, 4, right, 4, top, 4, left, 4, out,
                                   17, answer),
         answer, 3);
    tell_values("its quad", out, 8);
    one_edge(tile, 2, 0);
    tell("an edge on the top alone", jp_lay_region(tile, JP_RECORD, counts, 2, NULL, 0, NULL, 0, ends, 2, NULL, 0, bottom, 4, right, 4, top, 4,
                                                 left, 4, out, 17, answer),
         answer, 3);
    tell("with a break for the bottom", jp_lay_region(tile, JP_RECORD, counts, 2, ends, 1, NULL, 0, ends, 2, NULL, 0, bottom, 4, right, 4, top,
                                                      4, left, 4, out, 17, answer),
         answer, 3);
}

static void refusals(void)
{
    const jp_search_limit limit = jp_limit_default();
    uint16_t regions[2 * JP_RECORD];
    uint32_t counts[7] = {9, 9, 9, 9, 9, 9, 9};
    uint32_t answer[3];
    double root[1];
    double bad[7];
    farm(regions);
    tell("cut record", jp_solve_counts(regions, JP_RECORD - 1, ideals, 7, counts, 7, limit, answer), answer, 3);
    tell("edge 6 without an ideal", jp_solve_counts(regions, LENGTH(regions), ideals, 6, counts, 7, limit, answer), answer, 3);
    memcpy(bad, ideals, sizeof bad);
    bad[3] = NAN;
    tell("ideal 3 is a NaN", jp_solve_counts(regions, LENGTH(regions), bad, 7, counts, 7, limit, answer), answer, 3);
    one_edge(regions, 2, 0);
    tell("G", jp_solve_counts(regions, JP_RECORD, ideals, 7, counts, 7, limit, answer), answer, 3);
    tell_counts(counts, 7);
    printf("root of 2: %u,", jp_root(2, root));
    printf(" %.17g\n", root[0]);
    printf("root of -1: %u,", jp_root(-1, root));
    printf(" %g\n", root[0]);
    printf("%d edges: %u\n", JP_PLACES + 1, jp_set_side(regions, 0, regions + JP_RECORD, JP_PLACES + 1));
    printf("side 4: %u\n", jp_set_side(regions, 4, NULL, 0));
    printf("version fits: %d\n", jp_version_fits());
    printf("%u: %s\n", jp_root(-1, root), jp_refusal_text(JP_ROOT_UNDEFINED));
}

/* JP_BAD_BUFFER is answered by the header alone: such a call does not reach the archive. */
static void borders(void)
{
    union {
        double values[8];
        uint32_t numbers[16];
        unsigned char bytes[2 * JP_RECORD + 2];
    } shared;
    const jp_search_limit limit = jp_limit_default();
    uint16_t record[JP_RECORD + 3] = {1, 0};
    uint32_t counts[7] = {9, 9, 9, 9, 9, 9, 9};
    uint32_t answer[3] = {5, 5, 5};
    double sum[1] = {5};
    memset(&shared, 0, sizeof shared);
    tell("D: no regions, no ideals, no counts", jp_solve_counts(NULL, 0, NULL, 0, NULL, 0, limit, answer), answer, 3);
    answer[0] = answer[1] = answer[2] = 5;
    tell("NULL with a length", jp_solve_counts(NULL, JP_RECORD, ideals, 7, counts, 7, limit, answer), answer, 3);
    tell("NULL ideals", jp_solve_counts(NULL, 0, NULL, 7, counts, 7, limit, answer), answer, 3);
    tell("NULL most", jp_solve_counts_within(NULL, 0, ideals, 7, NULL, 7, counts, 7, limit, answer), answer, 3);
    tell("NULL counts", jp_solve_counts(NULL, 0, ideals, 7, NULL, 7, limit, answer), answer, 3);
    printf("NULL answer: %u\n", jp_solve_counts(NULL, 0, ideals, 7, counts, 7, limit, NULL));
    printf("NULL root: %u\n", jp_root(2, NULL));
    tell("odd pointer", jp_energy(counts, 7, (const double *)(const void *)(shared.bytes + 1), 7, answer, sum), answer, 2);
    tell("too long", jp_energy(counts, SIZE_MAX / 2, ideals, 7, answer, sum), answer, 2);
    tell("counts in the ideals", jp_solve_counts(NULL, 0, shared.values, 7, shared.numbers + 13, 3, limit, answer), answer, 3);
    tell("counts in most", jp_solve_counts_within(NULL, 0, ideals, 7, shared.values, 7, shared.numbers + 13, 3, limit, answer), answer, 3);
    tell("counts after the ideals", jp_solve_counts(NULL, 0, shared.values, 1, shared.numbers + 2, 1, limit, answer), answer, 3);
    printf("answer in the counts: %u\n", jp_solve_counts(NULL, 0, ideals, 7, counts, 7, limit, counts + 4));
    printf("edges in their own record: %u,", jp_set_side(record, 0, record, 3));
    printf(" %u %u %u %u\n", record[0], record[1], record[2], record[3]);
    printf("edges after their record: %u\n", jp_set_side(record, 0, record + JP_RECORD, 3));
    printf("odd record: %u\n", jp_set_side((uint16_t *)(void *)(shared.bytes + 1), 0, record, 3));
    printf("NULL record: %u\n", jp_set_side(NULL, 0, record, 3));
    tell("output over a curve", jp_coons_curves(bottom, 4, right, 4, top, 4, shared.values, 4, 1, 1, shared.values, 8, answer), answer, 3);
    tell("one list lent twice to be read", jp_coons_curves(bottom, 4, bottom, 4, bottom, 4, bottom, 4, 1, 1, shared.values, 8, answer), answer,
         3);
    tell_counts(counts, 7);
}

int main(void)
{
    solver();
    ranges();
    limits();
    limit_and_more();
    nine_strips();
    full_side();
    records_of_before();
    grids();
    strips();
    refusals();
    borders();
    return 0;
}
