/* The field gridder for C and C++ on x86-64 Linux: counts of edges, grids between curves, meshes, roots.
 *
 * Link the archive libjuplatsk.a, which `rt lib` in crates/juplatsk writes. What each function of it does is proved. docs/REFERENCE.md has the
 * words, with drawings, and the table of refusals.
 *
 * Two layers
 * ----------
 * jp_NAME        call these. They test whether the archive's version fits this header's, and what C can get wrong about a buffer; if
 *                something is wrong they return JP_BAD_VERSION or JP_BAD_BUFFER and write nothing; else they call juplatsk_NAME.
 * juplatsk_NAME  the functions of the archive. Conditions, which nothing tests: the versions fit, that is, jp_version_fits() is 1; no
 *                pointer is NULL, not even with length 0; each is aligned for its type; each list lies within one object, and has less
 *                than 2^63 bytes; a list or array that is written overlaps no other one of the call. They call nothing back, keep no
 *                pointer, use no heap and no global variable, and end. Any values are fine: what is wrong with them is refused; `limit` is
 *                read only if `stated`. Several threads may call at once, each with at least 256 KB of stack left (rust/tests/stack.rs
 *                makes the largest calls in that).
 *
 * Lists
 * -----
 * A list is a pointer and a length in elements. A list of `const` is read only, and lists that are only read may overlap. An output
 * that is longer than needed is written in its needed part only. NULL is fine for a list of length 0, and nowhere else. That a
 * list is as long as the caller says, C cannot test: no function reads or writes past the length that it is told, and that is all it
 * can promise.
 *
 * Answers
 * -------
 * Each function returns 0 (JP_ACCEPTED), or the number of the refusal, the enum below; or JP_BAD_BUFFER or JP_BAD_VERSION.
 * jp_refusal_text gives a sentence for each number. `answer` gets the two places of the refusal, 0 where it names none, and then the
 * values that each function tells; they are 0 when a call is refused. It is written at every call but those with JP_BAD_BUFFER or
 * JP_BAD_VERSION.
 * A refusal leaves every list as it was, but for these:
 *   JP_TOO_MANY_MOVES (both solves)                                   the needed counts are 0
 *   JP_LINES_PARALLEL, JP_CROSSING_OUTSIDE, JP_BAD_QUAD_AREA          the needed output is +0.0, point indices are 0
 *
 * Regions
 * -------
 * A region is a record of JP_RECORD numbers, 132: for each side (bottom 0, right 1, top 2, left 3) how many edges it has, at most
 * JP_PLACES, 32, and then so many places for the numbers of the edges; places past the number of edges are not read. A list of regions
 * has whole records, at most 128. There are at most 256 edges. jp_set_side fills in a side. Up to version 0.2.0 a side had 16 places and a
 * record 68 numbers: whoever lays out records without these names has to change that by hand (CHANGELOG.md).
 * Sides 0 and 2 are opposite, and 1 and 3. Rounds, solves and jp_constraints_hold do not look at which of two opposite sides is which: with
 * such sides exchanged in any of them, accepted regions give the same answers and counts. The order of a side's edges can matter.
 *
 * Ideals and ranges
 * -----------------
 * How many pieces each edge should have is stated in one of two ways. By ideals: one value for each edge, and a count costs the square
 * of (count/ideal - 1). By ranges: a least and a most for each edge, in two lists. A count from least to most, ends included, costs
 * nothing; one below costs the square of (count/least - 1), one above that of (count/most - 1). Ideals and ends must be finite and above
 * 0, and no least above its most. They need not be whole, and a range need not hold a whole number. Ranges with equal ends give what
 * these ends as ideals give.
 *
 * Search limits
 * -------------
 * A round looks for its move by searches, one or two from each edge, and a solve is round after round. A search goes from edge to edge, and
 * each entry to an edge is one expansion. How many each search may make, a call is told by a jp_search_limit:
 *   jp_limit_default()           none is stated, and it is 10,000
 *   jp_limit_expansions(100000)  this one, from 0 to 100,000; above is refused with 10
 * A jp_search_limit that is all zero is the default. jp_limit_expansions(0) is a limit: every search is turned back at once, and no move is
 * made. A search that is turned back at its limit is cut: it may miss a move, or keep a dearer one. With a higher limit a call may take
 * longer. At any limit opposite sides of a solve's counts add up to the same, and a round leaves their differences as they were. Up to
 * version 0.3.0 every solve had 100,000: state that where the counts of then are wanted.
 *
 * Curves
 * ------
 * A curve is a list x, y, x, y, .. of 2 to 1,024 points. bottom runs from left to right, right from bottom to top, top from right to
 * left, left from top to bottom: counter-clockwise around the tile. A curve begins at its first point and ends at its last, bit for bit.
 *
 * Before pegs are set
 * -------------------
 * docs/DIFFERENCES.md has these facts in full; rust/tests/facts.rs shows each.
 *   A count of 0 is an answer. Lay then sets no peg of that edge where it begins, at its left or lower end. If it is the first of its
 *     side and has a length, lay refuses with 21; if the side has no piece at all, with 18, unless neither it nor the opposite one has
 *     edges. A tile of 12 by 9 m, its top an edge of 9 m and a gateway of 3 m, ideals length / 9: count 0 for the gateway, no peg at 9 m.
 *     Look for counts of 0 after a solve. With a range from 1 for that edge a count of 1 costs nothing and 0 costs 1, and that is all: the
 *     count may still be 0.
 *   Two opposite sides without edges have one quad across: no peg between their corners, whatever their neighbours set there. A strip of
 *     18 by 27 m without edges on its short sides, on top of a tile whose top has two pieces: a peg at 9 m in the tile, none in the strip.
 *     Where a strip meets another tile list the common edge, and one opposite to it.
 *   jp_coons_curves, jp_coons_checked and both meshes space the points of each side evenly and know nothing of edges: with solved counts
 *     the number of points agrees with the neighbours', and not where they stand. A side of 19 m whose neighbours meet at 14 m, one
 *     piece each: the mesh has its middle point at 9.5 m. Use jp_lay_region where a side has more than one edge.
 *   Two tiles work out the pegs of their common edge each for itself, and the last bits may differ; a peg at half a millimetre may then be
 *     rounded up in one and down in the other. Tiles of 31.502 by 9 m above each other, four pieces: 7.875499999999998 and 7.8755.
 *     Take the pegs of a common edge from one of its tiles.
 *   Where the two curves that meet at a corner have the same point there, bit for bit, and the seams run from 0 to 1, the corner peg is that
 *     point, bit for bit (but -0 may become +0). Where they end a bit apart it may be neither end: bottom from 1.0000000000000002, left to
 *     1.0000000000000004, peg at 1.0000000000000007. Give neighbouring curves the same point where they meet.
 *   On wide farms the searches of a solve are cut, edges that want many pieces may be left at 0, and the solve does not tell: 13 strips of
 *     45 by 9 m side by side, each border between two cut into 9, 9 and 27 m, leave all 12 edges of 27 m at 0 if no limit is stated, and
 *     none with 100,000; 16 strips leave all 15 with either. After a solve make one jp_round on its counts with its own limit
 *     (jp_round_within after a solve within ranges). It makes no move. If its cut mark is 0, no unit move costs less than -2e-12; if it is
 *     1, there may be one: solve again with a higher limit, or make rounds with a higher one on these counts. Where 100,000 does not do,
 *     compare with balanced counts of your own, for ideals by jp_energy.
 *   A loop of 8 points or more has each corner twice. If it ends just where it began, its last point is dropped: a b b c c d d a is refused
 *     with 12. Put the first point once more at the end; it counts for the limit of 4,096, so each curve then has at most 1,023 points.
 *   Far from the origin areas drown in rounding: a square of 1 m at (1e8, 1e8) is refused with 17, one of 9 m at (1e9, 1e9) cut into 10
 *     by 10 with 25. Move the origin near the tile.
 */
#ifndef JUPLATSK_H
#define JUPLATSK_H

#ifndef __cplusplus
#include <stdbool.h>
#endif
#include <stddef.h>
#include <stdint.h>

#ifdef __cplusplus
extern "C" {
#endif

/* The refusals by their numbers, each with the places that it names. */
enum {
    JP_ACCEPTED = 0,
    JP_MALFORMED = 1,           /* a limit exceeded, or a broken record or list */
    JP_BAD_IDEAL = 2,           /* edge: its ideal, or an end of its range, is not finite or not above 0 */
    JP_EDGE_OUT_OF_RANGE = 3,   /* region, side */
    JP_EDGE_REPEATED = 4,       /* region, side: an edge twice in the side */
    JP_EDGE_ON_BOTH_SIDES = 5,  /* region, first of the two sides */
    JP_EDGE_OVERUSED = 6,       /* edge: it is in more than two constraints */
    JP_TOO_MANY_MOVES = 7,      /* a further move found after 200,000 */
    JP_LENGTHS_DIFFER = 8,      /* of counts and ideals; of least and most, or of counts and these */
    JP_COUNT_TOO_LARGE = 9,     /* edge: its count is over 1,000,000 */
    JP_LIMIT_TOO_LARGE = 10,    /* the search limit is over 100,000 */
    JP_OUTPUT_TOO_SHORT = 11,
    JP_BAD_LOOP = 12,           /* not 4 points, nor 8 or more in fours */
    JP_CURVE_TOO_SHORT = 13,    /* curve: it has less than two points */
    JP_POINT_NOT_FINITE = 14,   /* curve */
    JP_BAD_CURVE_LENGTH = 15,   /* curve: its length is 0 or not finite */
    JP_CURVES_APART = 16,       /* corner: 0 lower right, 1 upper right, 2 upper left, 4 lower left */
    JP_CORNERS_CLOCKWISE = 17,  /* the area of the corners is at or below 0 */
    JP_SEAM_TOO_SHORT = 18,     /* seam: it has less than two values */
    JP_SEAM_OUT_OF_RANGE = 19,  /* seam, index */
    JP_SEAM_FALLING = 20,       /* seam, index */
    JP_SEAM_ENDS = 21,          /* seam: its ends are not 0 and 1 */
    JP_SEAMS_UNEQUAL = 22,      /* pair: 0 is bottom and top, 1 left and right */
    JP_LINES_PARALLEL = 23,     /* i, j */
    JP_CROSSING_OUTSIDE = 24,   /* i, j */
    JP_BAD_QUAD_AREA = 25,      /* i, j: the quad's area is not finite or not above 0 */
    JP_NO_CELLS = 26,           /* n_u or n_v is 0 */
    JP_BREAKS_MISMATCH = 27,    /* side: its breaks are not one more than its edges, and its pair is not empty */
    JP_ROOT_UNDEFINED = 28,     /* root of a NaN or of a number below 0 */
    JP_RANGE_REVERSED = 35,     /* edge: its least is above its most */

    /* Of jp_NAME alone, and without places: a pointer is NULL beside a length above 0, or not aligned for its type; a list has 2^63
     * bytes or more, or runs past the last address; or a list or array that is written overlaps another one. Nothing was written. */
    JP_BAD_BUFFER = 100,

    /* Of jp_NAME alone, and without places: the versions of this header and of the archive differ, and not in the third part alone. Nothing
     * was written, and the archive was asked for its version only. */
    JP_BAD_VERSION = 101
};

/* How many edges fit on a side; a macro, so that #if can look at it and texts can be made of it. */
#define JP_PLACES 32
#define JP_TEXT_OF(x) #x
#define JP_TEXT(x) JP_TEXT_OF(x)

enum { JP_SIDES = 4, JP_RECORD = JP_SIDES * (JP_PLACES + 1) };

/* The version of this header, as one number JP_VERSION. A new major or minor may take other arguments, read lists or records in another
 * way, or answer otherwise, and is not called by a header of another one; a new patch is called and answers as before. */
#define JP_VERSION_MAJOR 0
#define JP_VERSION_MINOR 6
#define JP_VERSION_PATCH 0
#define JP_VERSION (10000 * JP_VERSION_MAJOR + 100 * JP_VERSION_MINOR + JP_VERSION_PATCH)

/* ---- the functions of the archive; their conditions stand above, and what each does stands at its jp_NAME below. A jp_search_limit is
 * handed to them in its two parts, `stated` and `limit`. */

/* The version of the archive, as one number like JP_VERSION. It may be called whatever the versions. */
uint32_t juplatsk_version(void);
uint32_t juplatsk_solve_counts(const uint16_t *regions, size_t regions_len, const double *ideals, size_t ideals_len, uint32_t *counts,
                               size_t counts_len, bool stated, uint32_t limit, uint32_t answer[3]);
uint32_t juplatsk_round(const uint16_t *regions, size_t regions_len, const double *ideals, size_t ideals_len, uint32_t *counts,
                        size_t counts_len, bool stated, uint32_t limit, uint32_t answer[4], double cost[1]);
uint32_t juplatsk_solve_counts_within(const uint16_t *regions, size_t regions_len, const double *least, size_t least_len,
                                      const double *most, size_t most_len, uint32_t *counts, size_t counts_len, bool stated,
                                      uint32_t limit, uint32_t answer[3]);
uint32_t juplatsk_round_within(const uint16_t *regions, size_t regions_len, const double *least, size_t least_len, const double *most,
                               size_t most_len, uint32_t *counts, size_t counts_len, bool stated, uint32_t limit, uint32_t answer[4],
                               double cost[1]);
uint32_t juplatsk_energy(const uint32_t *counts, size_t counts_len, const double *ideals, size_t ideals_len, uint32_t answer[2],
                         double sum[1]);
uint32_t juplatsk_constraints_hold(const uint16_t *regions, size_t regions_len, const uint32_t *counts, size_t counts_len,
                                   uint32_t answer[3]);
uint32_t juplatsk_root(double x, double root[1]);
uint32_t juplatsk_coons_from_parameters(const double *bottom, size_t bottom_len, const double *right, size_t right_len,
                                        const double *top, size_t top_len, const double *left, size_t left_len, const double *bottom_u,
                                        size_t bottom_u_len, const double *top_u, size_t top_u_len, const double *left_v,
                                        size_t left_v_len, const double *right_v, size_t right_v_len, double *out, size_t out_len,
                                        uint32_t answer[3]);
uint32_t juplatsk_coons_curves(const double *bottom, size_t bottom_len, const double *right, size_t right_len, const double *top,
                               size_t top_len, const double *left, size_t left_len, uint32_t n_u, uint32_t n_v, double *out,
                               size_t out_len, uint32_t answer[3]);
uint32_t juplatsk_lay_region(const uint16_t *region, size_t region_len, const uint32_t *counts, size_t counts_len,
                             const double *breaks0, size_t breaks0_len, const double *breaks1, size_t breaks1_len,
                             const double *breaks2, size_t breaks2_len, const double *breaks3, size_t breaks3_len,
                             const double *bottom, size_t bottom_len, const double *right, size_t right_len, const double *top,
                             size_t top_len, const double *left, size_t left_len, double *out, size_t out_len, uint32_t answer[3]);
uint32_t juplatsk_mesh_tile_curves(const double *bottom, size_t bottom_len, const double *right, size_t right_len, const double *top,
                                   size_t top_len, const double *left, size_t left_len, uint32_t n_u, uint32_t n_v, double *points,
                                   size_t points_len, uint32_t *cells, size_t cells_len, uint32_t answer[3]);
uint32_t juplatsk_coons_checked(const double *boundary, size_t boundary_len, uint32_t n_u, uint32_t n_v, double *out, size_t out_len,
                                uint32_t answer[3]);
uint32_t juplatsk_mesh_tile(const double *boundary, size_t boundary_len, uint32_t n_u, uint32_t n_v, double *points, size_t points_len,
                            uint32_t *cells, size_t cells_len, uint32_t answer[3]);

/* ---- versions */

/* 1 if the archive is of this header's version but for the patch, else 0. Each jp_NAME that calls the archive looks itself. */
static inline int jp_version_fits(void)
{
    return juplatsk_version() / 100 == JP_VERSION / 100;
}

/* ---- refusals in words */

/* What is wrong and what to do, for a number that one of these functions returned; `first` and `second` in it are the two places. It is
 * never NULL, and nobody need free it. A call:
 *     uint32_t answer[3] = {0};
 *     uint32_t number = jp_solve_counts(regions, regions_len, ideals, ideals_len, counts, counts_len, jp_limit_default(), answer);
 *     if (number != JP_ACCEPTED) {
 *         fprintf(stderr, "refusal %u, first %u, second %u: %s\n", number, answer[0], answer[1], jp_refusal_text(number));
 *     }
 */
static inline const char *jp_refusal_text(uint32_t number)
{
    switch (number) {
    case JP_ACCEPTED:
        return "accepted";
    case JP_MALFORMED:
        return "a limit is exceeded or a list is broken; give at most 128 regions, " JP_TEXT(JP_PLACES) " edges on a side, 256 ideals, "
               "leasts, mosts or counts, 1,024 points in a curve, 4,096 in a loop, 1,025 values in a seam, 1,024 for n_u, n_v and the sum "
               "of a side's counts in lay, whole records of 4 * (1 + " JP_TEXT(JP_PLACES) ") numbers (lay takes one), an even number of "
               "values in curves and loops, and a side from 0 to 3 in jp_set_side";
    case JP_BAD_IDEAL:
        return "the ideal of edge `first`, or an end of its range, is not finite or not above 0; give finite numbers above 0";
    case JP_EDGE_OUT_OF_RANGE:
        return "region `first` names on side `second` an edge that is not below the number of edges; number the edges from 0 up, and give "
               "an ideal or a range for each (to jp_lay_region a count)";
    case JP_EDGE_REPEATED:
        return "region `first` lists an edge twice on side `second`; list it once";
    case JP_EDGE_ON_BOTH_SIDES:
        return "region `first` lists an edge on side `second` and on the opposite one; give each side edges of its own";
    case JP_EDGE_OVERUSED:
        return "edge `first` lies on more than two sides; an edge borders two tiles at most, so give the others edges of their own";
    case JP_TOO_MANY_MOVES:
        return "a further move was found after 200,000 moves; lower the ideals or leasts, or make rounds from counts of your own";
    case JP_LENGTHS_DIFFER:
        return "lists with an entry for each edge are not equally long; give one of each for every edge";
    case JP_COUNT_TOO_LARGE:
        return "the count of edge `first` is above 1,000,000; lower it, and the opposite side with it";
    case JP_LIMIT_TOO_LARGE:
        return "the search limit is above 100,000; state 0 to 100,000";
    case JP_OUTPUT_TOO_SHORT:
        return "an output is too short; lend as much as the function's comment says";
    case JP_BAD_LOOP:
        return "the loop has neither 4 points nor 8 or more in fours, where a last point equal to the first does not count from 5 points "
               "up; give its four corners, or four curves of equally many points with each corner twice, and the first point once more "
               "if the loop ends just there";
    case JP_CURVE_TOO_SHORT:
        return "curve `first` has fewer than two points; give at least its two ends";
    case JP_POINT_NOT_FINITE:
        return "a point of curve `first` is not finite; mend it or leave it out";
    case JP_BAD_CURVE_LENGTH:
        return "the length of curve `first`, as it is worked out, is 0 or not finite; give at least two points that differ, neither too "
               "near nor too far for the square of their distance";
    case JP_CURVES_APART:
        return "the curves do not meet at corner `first` (0 lower right, 1 upper right, 2 upper left, 4 lower left); let each curve begin "
               "at the point where the one before it ends";
    case JP_CORNERS_CLOCKWISE:
        return "the area of the corners, as it is worked out, is at or below 0; if they run clockwise, turn their order round; far from "
               "the origin, move it near the tile";
    case JP_SEAM_TOO_SHORT:
        return "seam `first` has fewer than two values; give it 0 and 1 at least (to jp_lay_region a side whose counts add up to 1 or "
               "more, or no edges on it and on the opposite side)";
    case JP_SEAM_OUT_OF_RANGE:
        return "value `second` of seam `first` is not from 0 to 1; mend the seam, or in jp_lay_region the side's breaks";
    case JP_SEAM_FALLING:
        return "value `second` of seam `first` is below the one before it; mend the seam, or in jp_lay_region the side's breaks";
    case JP_SEAM_ENDS:
        return "seam `first` does not start at 0 or does not end at 1; to jp_lay_region give breaks from 0 to 1, and where the side's "
               "first edge has count 0, solve again with a range from 1 for it";
    case JP_SEAMS_UNEQUAL:
        return "the seams of pair `first` (0 bottom and top, 1 left and right) are not equally long; give both equally many values (to "
               "jp_lay_region counts of a solve of this region)";
    case JP_LINES_PARALLEL:
        return "the two grid lines at column `first`, row `second` are parallel; make the seams of opposite sides more alike";
    case JP_CROSSING_OUTSIDE:
        return "the two grid lines at column `first`, row `second` cross outside the tile; make the seams of opposite sides more alike";
    case JP_BAD_QUAD_AREA:
        return "the area of the quad at column `first`, row `second`, as it is worked out, is not finite or not above 0; let no two seam "
               "values (or breaks) in a row be equal, straighten the curves, or, far from the origin, move it near the tile";
    case JP_NO_CELLS:
        return "n_u or n_v is 0; give 1 or more";
    case JP_BREAKS_MISMATCH:
        return "the breaks of side `first` are not one more than its edges; give where each edge begins, and 1 as the last (only two "
               "opposite sides that both have no edges take any)";
    case JP_ROOT_UNDEFINED:
        return "a NaN or a number below 0 has no root; give a number from 0 up";
    case JP_RANGE_REVERSED:
        return "the least of edge `first` is above its most; change their places";
    case JP_BAD_BUFFER:
        return "a pointer is NULL beside a length above 0 or not aligned, a list is too long, or one that is written overlaps another; "
               "nothing was written";
    case JP_BAD_VERSION:
        return "the versions of header and archive do not fit; compile with the header that came with the archive";
    default:
        return "no number of this library";
    }
}

/* ---- the tests of buffers */

/* One list or array of a call: where it lies, how many elements of which size, and whether it is written. */
typedef struct {
    const void *at;
    size_t count;
    size_t size;
    int written;
} jp_buffer;

/* Every element size is a power of two, and on x86-64 also the alignment that its type has. */
static inline int jp_fits(const jp_buffer *b)
{
    if (b->count == 0) {
        return b->at == NULL || (uintptr_t)b->at % b->size == 0;
    }
    if (b->at == NULL || (uintptr_t)b->at % b->size != 0 || b->count > (size_t)PTRDIFF_MAX / b->size) {
        return 0;
    }
    return (uintptr_t)b->at <= UINTPTR_MAX - b->count * b->size;
}

static inline int jp_overlap(const jp_buffer *a, const jp_buffer *b)
{
    uintptr_t first = (uintptr_t)a->at;
    uintptr_t second = (uintptr_t)b->at;
    if (a->count == 0 || b->count == 0) {
        return 0;
    }
    return first < second + b->count * b->size && second < first + a->count * a->size;
}

static inline int jp_lendable(const jp_buffer *buffers, size_t n)
{
    size_t i, j;
    for (i = 0; i < n; i++) {
        if (!jp_fits(&buffers[i])) {
            return 0;
        }
    }
    for (i = 0; i < n; i++) {
        for (j = 0; j < i; j++) {
            if ((buffers[i].written || buffers[j].written) && jp_overlap(&buffers[i], &buffers[j])) {
                return 0;
            }
        }
    }
    return 1;
}

/* What keeps these buffers from the archive, JP_ACCEPTED if nothing does. */
static inline uint32_t jp_kept_back(const jp_buffer *buffers, size_t n)
{
    if (!jp_version_fits()) {
        return JP_BAD_VERSION;
    }
    return jp_lendable(buffers, n) ? JP_ACCEPTED : JP_BAD_BUFFER;
}

/* For an empty list without an address, one that the archive may be given: nothing is read or written there. */
static inline const uint16_t *jp_u16(const uint16_t *p)
{
    static const uint16_t none = 0;
    return p ? p : &none;
}

static inline const uint32_t *jp_u32(const uint32_t *p)
{
    static const uint32_t none = 0;
    return p ? p : &none;
}

static inline const double *jp_f64(const double *p)
{
    static const double none = 0;
    return p ? p : &none;
}

static inline uint32_t *jp_u32_out(uint32_t *p)
{
    static uint32_t none;
    return p ? p : &none;
}

static inline double *jp_f64_out(double *p)
{
    static double none;
    return p ? p : &none;
}

#define JP_READ(list) {list, list##_len, sizeof *(list), 0}
#define JP_WRITTEN(list) {list, list##_len, sizeof *(list), 1}
#define JP_ARRAY(array, n) {array, n, sizeof *(array), 1}
#define JP_COUNT(buffers) (sizeof(buffers) / sizeof(buffers)[0])

/* ---- regions */

/* Fills in a side of a record; the places past the edges stay as they were. It calls nothing of the archive.
 * Reads   edges, at most JP_PLACES.
 * Writes  record.
 * Refuses JP_BAD_BUFFER, as all others do: the list of edges may not overlap the record; then JP_MALFORMED for a side above 3 or more
 *         than JP_PLACES edges. The record is then as it was. */
static inline uint32_t jp_set_side(uint16_t record[JP_RECORD], unsigned side, const uint16_t *edges, size_t edges_len)
{
    const jp_buffer lent[] = {JP_ARRAY(record, JP_RECORD), JP_READ(edges)};
    size_t i;
    if (!jp_lendable(lent, JP_COUNT(lent))) {
        return JP_BAD_BUFFER;
    }
    if (side >= JP_SIDES || edges_len > JP_PLACES) {
        return JP_MALFORMED;
    }
    for (i = 0; i < edges_len; i++) {
        record[side * (JP_PLACES + 1) + 1 + i] = edges[i];
    }
    record[side * (JP_PLACES + 1)] = (uint16_t)edges_len;
    return JP_ACCEPTED;
}

/* ---- search limits */

/* How many expansions each search of a call may make ("Search limits", above). Make it by one of the two functions below; `expansions` is
 * read only if `stated`. */
typedef struct {
    bool stated;
    uint32_t expansions;
} jp_search_limit;

/* No limit stated: each search may make 10,000 expansions. A call:
 *     jp_search_limit limit = jp_limit_default();
 */
static inline jp_search_limit jp_limit_default(void)
{
    const jp_search_limit limit = {false, 0};
    return limit;
}

/* This limit, 0 to 100,000; a round or a solve that is given more, also more than 32 bits hold, is refused with JP_LIMIT_TOO_LARGE, if with
 * nothing that is tested before. A call:
 *     jp_search_limit limit = jp_limit_expansions(100000);
 */
static inline jp_search_limit jp_limit_expansions(uint64_t expansions)
{
    const uint32_t most = 0xffffffffu;
    const jp_search_limit limit = {true, expansions < most ? (uint32_t)expansions : most};
    return limit;
}

/* ---- counts */

/* The counts of every edge: from zeros, round after round with this limit, until one finds no move. A count may be 0, and where searches
 * were cut there may be a better answer ("Before pegs are set", above). A call without a stated limit, and one with the highest:
 *     jp_solve_counts(regions, regions_len, ideals, edges, counts, edges, jp_limit_default(), answer);
 *     jp_solve_counts(regions, regions_len, ideals, edges, counts, edges, jp_limit_expansions(100000), answer);
 * A long solve can be made by hand, with progress and a way to stop; go_on is a function of yours:
 *     jp_search_limit limit = jp_limit_default();
 *     uint32_t moves, number, answer[4];
 *     double cost[1];
 *     memset(counts, 0, edges * sizeof *counts);
 *     for (moves = 0; moves < 200000 && go_on(moves, counts); moves++) {
 *         number = jp_round(regions, regions_len, ideals, edges, counts, edges, limit, answer, cost);
 *         if (number != JP_ACCEPTED || answer[2] == 0) {
 *             break;
 *         }
 *     }
 * makes the moves that a solve with the same limit makes, and after every round opposite sides add up to the same. It may take longer,
 * since each round searches anew.
 * Reads   regions, ideals (one for each edge), limit.
 * Writes  counts: as many as there are ideals; answer: place, place, number of moves.
 * Refuses in this order 1, 10, 11, 2, 3 to 5 by region and pair of sides, 6, 7. 7 sets the needed counts to 0, the others leave the counts
 *         as they were. */
static inline uint32_t jp_solve_counts(const uint16_t *regions, size_t regions_len, const double *ideals, size_t ideals_len,
                                       uint32_t *counts, size_t counts_len, jp_search_limit limit, uint32_t answer[3])
{
    const jp_buffer lent[] = {JP_READ(regions), JP_READ(ideals), JP_WRITTEN(counts), JP_ARRAY(answer, 3)};
    const uint32_t kept_back = jp_kept_back(lent, JP_COUNT(lent));
    if (kept_back) {
        return kept_back;
    }
    return juplatsk_solve_counts(jp_u16(regions), regions_len, jp_f64(ideals), ideals_len, jp_u32_out(counts), counts_len, limit.stated,
                                 limit.expansions, answer);
}

/* One round: the move found, if there is one, is made on the counts. Its cost is below -1e-12. A call without a stated limit, and one with
 * the highest:
 *     jp_round(regions, regions_len, ideals, edges, counts, edges, jp_limit_default(), answer, cost);
 *     jp_round(regions, regions_len, ideals, edges, counts, edges, jp_limit_expansions(100000), answer, cost);
 * Reads   regions, ideals (one for each edge), limit.
 * Changes counts, as many as ideals.
 * Writes  answer: place, place, 1 if a move was made, 1 if a search was cut, that is, an entry past the limit was turned back; cost: of
 *         the move made, +0.0 if none was.
 * Refuses in this order 1, 10, 8, 2, 9, 3 to 5 by region and pair of sides, 6. Every refusal leaves the counts as they were. */
static inline uint32_t jp_round(const uint16_t *regions, size_t regions_len, const double *ideals, size_t ideals_len, uint32_t *counts,
                                size_t counts_len, jp_search_limit limit, uint32_t answer[4], double cost[1])
{
    const jp_buffer lent[] = {JP_READ(regions), JP_READ(ideals), JP_WRITTEN(counts), JP_ARRAY(answer, 4), JP_ARRAY(cost, 1)};
    const uint32_t kept_back = jp_kept_back(lent, JP_COUNT(lent));
    if (kept_back) {
        return kept_back;
    }
    return juplatsk_round(jp_u16(regions), regions_len, jp_f64(ideals), ideals_len, jp_u32_out(counts), counts_len, limit.stated,
                          limit.expansions, answer, cost);
}

/* jp_solve_counts with a range for each edge in place of an ideal.
 * Reads   regions, least and most (one of each for each edge), limit.
 * Writes  counts: as many as there are ranges; answer: place, place, number of moves.
 * Refuses in this order 1, 10, 8 (least and most are not equally long), 11, 2, 35, 3 to 5 by region and pair of sides, 6, 7. 2 is tested
 *         for all edges, then 35, and each names the lowest edge. 7 sets the needed counts to 0, the others leave the counts as they were.
 * A call, for a tile with the edges 0 to 3, one on each side; tile is its record:
 *     double least[4] = {2, 1, 3, 1};
 *     double most[4] = {5, 4, 4, 4};
 *     uint32_t counts[4], answer[3];
 *     jp_solve_counts_within(tile, JP_RECORD, least, 4, most, 4, counts, 4, jp_limit_default(), answer);
 * It returns 0; answer is 0, 0, 4 and counts 3, 1, 3, 1: with three pieces bottom and top are in their ranges, with two the top is not. */
static inline uint32_t jp_solve_counts_within(const uint16_t *regions, size_t regions_len, const double *least, size_t least_len,
                                              const double *most, size_t most_len, uint32_t *counts, size_t counts_len,
                                              jp_search_limit limit, uint32_t answer[3])
{
    const jp_buffer lent[] = {JP_READ(regions), JP_READ(least), JP_READ(most), JP_WRITTEN(counts), JP_ARRAY(answer, 3)};
    const uint32_t kept_back = jp_kept_back(lent, JP_COUNT(lent));
    if (kept_back) {
        return kept_back;
    }
    return juplatsk_solve_counts_within(jp_u16(regions), regions_len, jp_f64(least), least_len, jp_f64(most), most_len,
                                        jp_u32_out(counts), counts_len, limit.stated, limit.expansions, answer);
}

/* jp_round with a range for each edge in place of an ideal.
 * Reads   regions, least and most (one of each for each edge), limit.
 * Changes counts, as many as ranges.
 * Writes  answer and cost, as jp_round does.
 * Refuses in this order 1, 10, 8 (least, most and counts are not equally long), 2, 35, 9, 3 to 5 by region and pair of sides, 6. 2 is
 *         tested for all edges, then 35, then 9, and each names the lowest edge. Every refusal leaves the counts as they were.
 * A call, on the tile and the ranges above:
 *     uint32_t counts[4] = {2, 1, 2, 1}, answer[4];
 *     double cost[1];
 *     jp_round_within(tile, JP_RECORD, least, 4, most, 4, counts, 4, jp_limit_default(), answer, cost);
 * It returns 0; answer is 0, 0, 1, 0, counts are 3, 1, 3, 1, and cost[0] is about -1/9: only the top was outside its range. */
static inline uint32_t jp_round_within(const uint16_t *regions, size_t regions_len, const double *least, size_t least_len,
                                       const double *most, size_t most_len, uint32_t *counts, size_t counts_len,
                                       jp_search_limit limit, uint32_t answer[4], double cost[1])
{
    const jp_buffer lent[] = {JP_READ(regions),   JP_READ(least),      JP_READ(most),
                              JP_WRITTEN(counts), JP_ARRAY(answer, 4), JP_ARRAY(cost, 1)};
    const uint32_t kept_back = jp_kept_back(lent, JP_COUNT(lent));
    if (kept_back) {
        return kept_back;
    }
    return juplatsk_round_within(jp_u16(regions), regions_len, jp_f64(least), least_len, jp_f64(most), most_len, jp_u32_out(counts),
                                 counts_len, limit.stated, limit.expansions, answer, cost);
}

/* The energy of counts: the sum of (count/ideal - 1)^2 over the edges.
 * Reads   counts, ideals, equally long.
 * Writes  answer: place, place; sum: the energy, +0.0 if refused.
 * Refuses 1, 8, 2, 9. */
static inline uint32_t jp_energy(const uint32_t *counts, size_t counts_len, const double *ideals, size_t ideals_len, uint32_t answer[2],
                                 double sum[1])
{
    const jp_buffer lent[] = {JP_READ(counts), JP_READ(ideals), JP_ARRAY(answer, 2), JP_ARRAY(sum, 1)};
    const uint32_t kept_back = jp_kept_back(lent, JP_COUNT(lent));
    if (kept_back) {
        return kept_back;
    }
    return juplatsk_energy(jp_u32(counts), counts_len, jp_f64(ideals), ideals_len, answer, sum);
}

/* Whether opposite sides of every region add up to the same; an edge without a count makes it no.
 * Reads   regions, counts.
 * Writes  answer: place, place, 1 if they do.
 * Refuses 1. */
static inline uint32_t jp_constraints_hold(const uint16_t *regions, size_t regions_len, const uint32_t *counts, size_t counts_len,
                                           uint32_t answer[3])
{
    const jp_buffer lent[] = {JP_READ(regions), JP_READ(counts), JP_ARRAY(answer, 3)};
    const uint32_t kept_back = jp_kept_back(lent, JP_COUNT(lent));
    if (kept_back) {
        return kept_back;
    }
    return juplatsk_constraints_hold(jp_u16(regions), regions_len, jp_u32(counts), counts_len, answer);
}

/* ---- roots */

/* The square root, correctly rounded: squareRoot of IEEE 754, to nearest. +0, -0 and +infinity are their own roots.
 * Writes  root: +0.0 if refused.
 * Refuses 28: a NaN, or a number below 0. */
static inline uint32_t jp_root(double x, double root[1])
{
    const jp_buffer lent[] = {JP_ARRAY(root, 1)};
    const uint32_t kept_back = jp_kept_back(lent, JP_COUNT(lent));
    if (kept_back) {
        return kept_back;
    }
    return juplatsk_root(x, root);
}

/* ---- grids: quads row by row from the bottom, each as four x, y pairs counter-clockwise from its lower left, 8 values a quad */

/* The quads between four curves, by seams: where the grid lines meet the bottom and top curves (u) and the left and right ones (v).
 * Reads   curves; seams, each of 2 to 1,025 values from 0 up to 1; opposite ones equally long.
 * Writes  out: 8 values for each of (bottom_u_len - 1) * (left_v_len - 1) quads; answer: place, place, number of quads.
 * Refuses 1, 13 to 22, 11, 23 to 25; the last three set the needed output to +0.0. */
static inline uint32_t jp_coons_from_parameters(const double *bottom, size_t bottom_len, const double *right, size_t right_len,
                                                const double *top, size_t top_len, const double *left, size_t left_len,
                                                const double *bottom_u, size_t bottom_u_len, const double *top_u, size_t top_u_len,
                                                const double *left_v, size_t left_v_len, const double *right_v, size_t right_v_len,
                                                double *out, size_t out_len, uint32_t answer[3])
{
    const jp_buffer lent[] = {JP_READ(bottom), JP_READ(right),  JP_READ(top),     JP_READ(left),   JP_READ(bottom_u),
                              JP_READ(top_u),  JP_READ(left_v), JP_READ(right_v), JP_WRITTEN(out), JP_ARRAY(answer, 3)};
    const uint32_t kept_back = jp_kept_back(lent, JP_COUNT(lent));
    if (kept_back) {
        return kept_back;
    }
    return juplatsk_coons_from_parameters(jp_f64(bottom), bottom_len, jp_f64(right), right_len, jp_f64(top), top_len, jp_f64(left),
                                          left_len, jp_f64(bottom_u), bottom_u_len, jp_f64(top_u), top_u_len, jp_f64(left_v),
                                          left_v_len, jp_f64(right_v), right_v_len, jp_f64_out(out), out_len, answer);
}

/* The n_u by n_v quads between four curves, by even seams: it knows nothing of edges, so at a T-junction use jp_lay_region.
 * Reads   curves; n_u, n_v: 1 to 1,024.
 * Writes  out: 8 * n_u * n_v values; answer: place, place, number of quads.
 * Refuses 1, 26, 13 to 17, 11, 25, which sets the needed output to +0.0. */
static inline uint32_t jp_coons_curves(const double *bottom, size_t bottom_len, const double *right, size_t right_len,
                                       const double *top, size_t top_len, const double *left, size_t left_len, uint32_t n_u,
                                       uint32_t n_v, double *out, size_t out_len, uint32_t answer[3])
{
    const jp_buffer lent[] = {JP_READ(bottom), JP_READ(right), JP_READ(top), JP_READ(left), JP_WRITTEN(out), JP_ARRAY(answer, 3)};
    const uint32_t kept_back = jp_kept_back(lent, JP_COUNT(lent));
    if (kept_back) {
        return kept_back;
    }
    return juplatsk_coons_curves(jp_f64(bottom), bottom_len, jp_f64(right), right_len, jp_f64(top), top_len, jp_f64(left), left_len,
                                 n_u, n_v, jp_f64_out(out), out_len, answer);
}

/* The quads of one region, by the counts of its edges: edge i of a side has the part of the side's curve from break i to break i + 1. Where
 * neither of two opposite sides has edges there is one quad across, from 0 to 1.
 * Reads   region: one record; counts, of all edges; breaks0 to breaks3, of sides 0 to 3: one more than the side has edges, from 0 up
 *         to 1, sides 0 and 2 from left to right, 1 and 3 from bottom to top; of two opposite sides without edges they are not read, and
 *         may be any list, NULL with 0 too; curves.
 * Writes  out: 8 values a quad, as many as the counts of sides 0 and 3 add up to, multiplied, where 1 stands for a side if neither it nor
 *         the opposite one has edges; answer: place, place, number of quads.
 * Refuses 1, 3, 27, 1 (the counts of a side add up to over 1,024), then as jp_coons_from_parameters from 13 on. Among these 18 stands for a
 *         side without a piece, unless it and the opposite one have no edges, and 21 also for a side that begins with an edge of count 0
 *         that has a length. */
static inline uint32_t jp_lay_region(const uint16_t *region, size_t region_len, const uint32_t *counts, size_t counts_len,
                                     const double *breaks0, size_t breaks0_len, const double *breaks1, size_t breaks1_len,
                                     const double *breaks2, size_t breaks2_len, const double *breaks3, size_t breaks3_len,
                                     const double *bottom, size_t bottom_len, const double *right, size_t right_len, const double *top,
                                     size_t top_len, const double *left, size_t left_len, double *out, size_t out_len,
                                     uint32_t answer[3])
{
    const jp_buffer lent[] = {JP_READ(region),  JP_READ(counts), JP_READ(breaks0), JP_READ(breaks1), JP_READ(breaks2), JP_READ(breaks3),
                              JP_READ(bottom),  JP_READ(right),  JP_READ(top),     JP_READ(left),    JP_WRITTEN(out),
                              JP_ARRAY(answer, 3)};
    const uint32_t kept_back = jp_kept_back(lent, JP_COUNT(lent));
    if (kept_back) {
        return kept_back;
    }
    return juplatsk_lay_region(jp_u16(region), region_len, jp_u32(counts), counts_len, jp_f64(breaks0), breaks0_len, jp_f64(breaks1),
                               breaks1_len, jp_f64(breaks2), breaks2_len, jp_f64(breaks3), breaks3_len, jp_f64(bottom), bottom_len,
                               jp_f64(right), right_len, jp_f64(top), top_len, jp_f64(left), left_len, jp_f64_out(out), out_len,
                               answer);
}

/* The n_u by n_v quads of a tile given by a closed loop of points, counter-clockwise.
 * Reads   boundary: x, y in turn: the four corners from the lower left, or four curves of equally many points, two or more each
 *         (bottom, right, top, left; curves share no points, each corner is in it twice); at most 4,096 points in all. A last point
 *         equal to the first is dropped, from 5 points up, so behind four curves that end just where they began the first point stands
 *         once more. n_u, n_v: 1 to 1,024.
 * Writes  out: 8 * n_u * n_v values; answer: place, place, number of quads.
 * Refuses 1, 12, 26, 14 to 17, 11, 25, which sets the needed output to +0.0. */
static inline uint32_t jp_coons_checked(const double *boundary, size_t boundary_len, uint32_t n_u, uint32_t n_v, double *out,
                                        size_t out_len, uint32_t answer[3])
{
    const jp_buffer lent[] = {JP_READ(boundary), JP_WRITTEN(out), JP_ARRAY(answer, 3)};
    const uint32_t kept_back = jp_kept_back(lent, JP_COUNT(lent));
    if (kept_back) {
        return kept_back;
    }
    return juplatsk_coons_checked(jp_f64(boundary), boundary_len, n_u, n_v, jp_f64_out(out), out_len, answer);
}

/* ---- meshes: the points of a grid, and for each quad the numbers of its four points, counter-clockwise from its lower left */

/* The mesh of the n_u by n_v grid between four curves, by even seams as jp_coons_curves.
 * Reads   as jp_coons_curves.
 * Writes  points: x, y, +0.0 for each of (n_u + 1) * (n_v + 1) points, rows from the bottom; cells: 4 * n_u * n_v point numbers;
 *         answer: place, place, number of quads.
 * Refuses as jp_coons_curves; 11 if either output is too short; 25 sets the needed points to +0.0 and the needed cells to 0. */
static inline uint32_t jp_mesh_tile_curves(const double *bottom, size_t bottom_len, const double *right, size_t right_len,
                                           const double *top, size_t top_len, const double *left, size_t left_len, uint32_t n_u,
                                           uint32_t n_v, double *points, size_t points_len, uint32_t *cells, size_t cells_len,
                                           uint32_t answer[3])
{
    const jp_buffer lent[] = {JP_READ(bottom),    JP_READ(right),    JP_READ(top),       JP_READ(left),
                              JP_WRITTEN(points), JP_WRITTEN(cells), JP_ARRAY(answer, 3)};
    const uint32_t kept_back = jp_kept_back(lent, JP_COUNT(lent));
    if (kept_back) {
        return kept_back;
    }
    return juplatsk_mesh_tile_curves(jp_f64(bottom), bottom_len, jp_f64(right), right_len, jp_f64(top), top_len, jp_f64(left), left_len,
                                     n_u, n_v, jp_f64_out(points), points_len, jp_u32_out(cells), cells_len, answer);
}

/* The mesh of a tile given by a closed loop of points.
 * Reads   as jp_coons_checked.
 * Writes  as jp_mesh_tile_curves.
 * Refuses as jp_coons_checked; 11 if either output is too short; 25 sets the needed points to +0.0 and the needed cells to 0. */
static inline uint32_t jp_mesh_tile(const double *boundary, size_t boundary_len, uint32_t n_u, uint32_t n_v, double *points,
                                    size_t points_len, uint32_t *cells, size_t cells_len, uint32_t answer[3])
{
    const jp_buffer lent[] = {JP_READ(boundary), JP_WRITTEN(points), JP_WRITTEN(cells), JP_ARRAY(answer, 3)};
    const uint32_t kept_back = jp_kept_back(lent, JP_COUNT(lent));
    if (kept_back) {
        return kept_back;
    }
    return juplatsk_mesh_tile(jp_f64(boundary), boundary_len, n_u, n_v, jp_f64_out(points), points_len, jp_u32_out(cells), cells_len,
                              answer);
}

#undef JP_READ
#undef JP_WRITTEN
#undef JP_ARRAY
#undef JP_COUNT

#ifdef __cplusplus
}
#endif

#endif
