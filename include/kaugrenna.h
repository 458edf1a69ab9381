/*
 * Kaugrenna: cut edges and mended wires for burner pipe shells, verified.
 *
 * The twelve calls of libhealing.a, which `rt lib` in crates/healing writes to
 * crates/healing/out. Each has its contract, which is proved, in
 * crates/healing/src; document 01 is the specification. The archive asks for
 * memcpy and memset, and for nothing else. This header is C from C89 on, where
 * there is a stdint.h, and C++ from C++98 on.
 *
 * Answers. Every call answers 0 for a result, whose values stand in the
 * places lent for them (the `_out` pointers); -1 for "none"; else the number
 * of a refusal, below. On -1 and on a refusal no byte of what was lent is
 * changed, the `_out` places included. One part of this is not proved: the
 * proofs know a single NaN, so that a cell which holds one keeps its payload
 * rests on the runs, which compare every cell by its bits
 * (docs/DIFFERENCES.md).
 *
 * Slices. A slice is a pointer and a count of elements. The pointer is never
 * null and is aligned for its type, also where the count is 0. A slice that
 * is not const, and a place, overlaps nothing else that is lent; const slices
 * may overlap each other. A call keeps no pointer, allocates nothing, and may
 * be made from several threads at once on slices of their own.
 *
 * Stack. The local arrays of a call take at most 40 KiB. As measured on x86-64
 * a call takes at most 39 KiB in the split, 25 in the pass, 21 in the search, 9
 * in the join, 5 where one edge is cut, less than 1 in the others.
 * Where a dynamic linker looks up memcpy and the like only when they are
 * first needed, that call took some 3 KiB more.
 *
 * Tables. A table is lent as rows of numbers and rows of floats, and a count
 * of rows:
 *
 *   edges     5 numbers: front, back, kind (0 span, 1 seam), curve or surface
 *             number, preparation for the weld (0 square, 1 single bevel, 2
 *             double bevel); 6 floats: u, v, u, v, t0, t1, of which a span
 *             has the last two
 *   vertices  3 numbers: kind (0 given, 1 pending), curve kind, curve or
 *             surface number; 7 floats: given x, y, z in the first three,
 *             pending those of its curve and then the parameter
 *   wires     uses one after the other, twice the edge number, plus 1 when
 *             reversed; their lengths in a slice beside them
 *   cuts      4 floats: parameter, x, y, z
 *   divisor   a vertex number; 2 floats: u, v
 *   ends      5 floats: u, v of a wire's first point, u, v of its last point,
 *             area
 *
 * Since 0.2.0 an edge has 5 numbers; in 0.1.0 it had 4, without the
 * preparation. Since 0.3.0 the closed-edge pass takes k; before, it cut at
 * the middle. Since 0.4.0 an edge can be cut at several points, by a call of
 * its own. Header and archive go together.
 *
 * Cells that a record of its kind does not have are no input and keep what
 * they held, and so do entries past a count or past a result.
 *
 * Room. A call that adds rows or uses needs places for them behind those that
 * count; how many stands at each call. A slice may always be longer. Too few
 * are refused (6), and nothing is changed.
 *
 * Bounds: 4,096 vertices, 4,096 edges, 64 wires into a call, 1,024 uses in
 * all wires of a call together, 1,024 uses out; each float that is lent at
 * most 1.0e15 in size; in cuts at several points 64 cuts, of which more are
 * 16 and not 1. The wires that one call is lent count together: in nearest
 * ends the uses of both stretches; in a join the two open wires and the new
 * ones, so at most 62 of these; in a split the face's wires and those to be
 * rebuilt. The wires that a split answers are not bounded by 64.
 */
#ifndef KAUGRENNA_H
#define KAUGRENNA_H

#include <stddef.h>
#include <stdint.h>

/* The version of this header: 10,000, 100 and 1 for each of its numbers. */
#define KAUGRENNA_VERSION 400
#define KAUGRENNA_VERSION_TEXT "0.4.0"

/* A result, and "none": no result, and nothing is wrong with the input. */
#define KAUGRENNA_DONE 0
#define KAUGRENNA_NONE (-1)

/* How many numbers and floats a row has; of a wire in the sorting (`ends`),
   of a vertex on the divisor (`points`). */
#define KAUGRENNA_NUMBERS_PER_EDGE 5
#define KAUGRENNA_FLOATS_PER_EDGE 6
#define KAUGRENNA_NUMBERS_PER_VERTEX 3
#define KAUGRENNA_FLOATS_PER_VERTEX 7
#define KAUGRENNA_FLOATS_PER_CUT 4
#define KAUGRENNA_FLOATS_PER_STOP 2
#define KAUGRENNA_FLOATS_PER_WIRE 5

/* The most vertices of a call, and the most edges; the most wires into it;
   the most uses in all of its wires, and out of it; the most cuts of an edge
   in it; the largest size of a float that is lent. */
#define KAUGRENNA_MAX_ROWS 4096
#define KAUGRENNA_MAX_WIRES 64
#define KAUGRENNA_MAX_USES 1024
#define KAUGRENNA_MAX_CUTS 64
#define KAUGRENNA_MAX_SIZE 1.0e15

/* The number of eighths to the middle of a curve. */
#define KAUGRENNA_MIDDLE 4

/* The use of an edge below 2^31, against its direction where `reversed` is
   not 0; the edge of a use; 1 where the use is reversed, else 0. */
#define KAUGRENNA_USE(edge, reversed) \
    ((uint32_t)(2u * (uint32_t)(edge) + ((reversed) ? 1u : 0u)))
#define KAUGRENNA_EDGE(use) ((uint32_t)(use) / 2u)
#define KAUGRENNA_REVERSED(use) ((int)((uint32_t)(use) % 2u))

/* The kinds of a curve, of a vertex, of a period and of a wire. */
enum kaugrenna_curve { KAUGRENNA_SPAN = 0, KAUGRENNA_SEAM = 1 };
enum kaugrenna_vertex { KAUGRENNA_GIVEN = 0, KAUGRENNA_PENDING = 1 };
enum kaugrenna_period { KAUGRENNA_ABSENT = 0, KAUGRENNA_EVERY = 1 };
enum kaugrenna_kind {
    KAUGRENNA_POSITIVE = 0,
    KAUGRENNA_NEGATIVE = 1,
    KAUGRENNA_NOT_CLOSED = 2
};

/* How an edge is prepared for the weld, the last number of its row. */
enum kaugrenna_preparation {
    KAUGRENNA_SQUARE = 0,
    KAUGRENNA_SINGLE_BEVEL = 1,
    KAUGRENNA_DOUBLE_BEVEL = 2
};

/*
 * The refusals; `kaugrenna_text` has a sentence for each. Every input is
 * checked, used or not, and the lowest number wins; 8, 11, 12 and 13 come
 * after the others, as first reached. Outside a split 6 comes last of all: in
 * the closed-edge pass 1 to 5, 18 and then 6; in cuts at several points 1 to
 * 5, 16, 17 and then 6.
 */
enum kaugrenna_refusal {
    KAUGRENNA_MALFORMED = 1,
    KAUGRENNA_VERTEX_NUMBER = 2,
    KAUGRENNA_EDGE_NUMBER = 3,
    KAUGRENNA_NOT_SIZED = 4,
    KAUGRENNA_OUT_OF_RANGE = 5,
    KAUGRENNA_NO_ROOM = 6,
    KAUGRENNA_PENDING_VERTEX = 7,
    KAUGRENNA_PAST_END = 8,
    KAUGRENNA_ODD_DIVISOR = 9,
    KAUGRENNA_REPEATED_VERTEX = 10,
    KAUGRENNA_DEAD_END = 11,
    KAUGRENNA_TOO_MANY_USES = 12,
    KAUGRENNA_EMPTY_LIST = 13,
    KAUGRENNA_SEVERAL_CUTS = 14,
    KAUGRENNA_EMPTY_OPEN_WIRE = 15,
    KAUGRENNA_TOO_MANY_CUTS = 16,
    KAUGRENNA_NOT_RISING = 17,
    KAUGRENNA_EIGHTHS_OUT_OF_RANGE = 18
};

/* `inline`, as far as the language has it. */
#if defined(__cplusplus)
#define KAUGRENNA_INLINE static inline
#elif defined(__STDC_VERSION__) && __STDC_VERSION__ >= 199901L
#define KAUGRENNA_INLINE static inline
#elif defined(__GNUC__)
#define KAUGRENNA_INLINE static __inline__
#else
#define KAUGRENNA_INLINE static
#endif

/* What a code says: why a call was turned away, for a refusal. */
KAUGRENNA_INLINE const char *kaugrenna_text(int32_t code) {
    switch (code) {
    case KAUGRENNA_DONE:
        return "a result stands in the places lent for it";
    case KAUGRENNA_NONE:
        return "there is no result, and nothing is wrong with the input";
    case KAUGRENNA_MALFORMED:
        return "a count is above its bound or above what was lent, the sum of "
               "the wire lengths is, a kind is neither 0 nor 1, or a "
               "preparation is above 2";
    case KAUGRENNA_VERTEX_NUMBER:
        return "a vertex number, in an edge or by itself, is not below the "
               "vertex count";
    case KAUGRENNA_EDGE_NUMBER:
        return "an edge number, in a use or by itself, is not below the edge "
               "count";
    case KAUGRENNA_NOT_SIZED:
        return "a float is not a number, or above 1.0e15 in size";
    case KAUGRENNA_OUT_OF_RANGE:
        return "t0 is above t1, a cut or pending parameter is outside its "
               "curve's range, or a period is not above 0";
    case KAUGRENNA_NO_ROOM:
        return "the result passes a bound on a count, or a lent buffer is too "
               "short for it";
    case KAUGRENNA_PENDING_VERTEX:
        return "a vertex lent to nearest ends or to the non-simple search is "
               "pending";
    case KAUGRENNA_PAST_END:
        return "in the non-simple search the second place is past the end";
    case KAUGRENNA_ODD_DIVISOR:
        return "the count of vertices on the divisor is odd";
    case KAUGRENNA_REPEATED_VERTEX:
        return "a vertex stands twice on the divisor";
    case KAUGRENNA_DEAD_END:
        return "the walk arrives at a vertex that no unused use leaves";
    case KAUGRENNA_TOO_MANY_USES:
        return "the walk arrives at a vertex that three or more unused uses "
               "leave (a crowd)";
    case KAUGRENNA_EMPTY_LIST:
        return "the walk arrives at a vertex whose list is empty";
    case KAUGRENNA_SEVERAL_CUTS:
        return "one cut is handed two or more cuts";
    case KAUGRENNA_EMPTY_OPEN_WIRE:
        return "an open wire handed to a join is empty";
    case KAUGRENNA_TOO_MANY_CUTS:
        return "an edge is to be cut at more than 64 places";
    case KAUGRENNA_NOT_RISING:
        return "the parameters of the cuts do not rise strictly";
    case KAUGRENNA_EIGHTHS_OUT_OF_RANGE:
        return "the number of eighths is outside 1 to 7";
    default:
        return "the code is unknown: header and archive do not belong together";
    }
}

#ifdef __cplusplus
extern "C" {
#endif

/*
 * Every closed edge is cut, k eighths of the way along its curve, and every
 * wire mended, in place; both pieces have the preparation of the edge that was
 * cut. The parameter of the cut, which the new vertex has too, is the one that
 * `kaugrenna_cut_parameter` answers for the edge's t0, t1 and k. With k 4,
 * KAUGRENNA_MIDDLE, the answers are those of 0.2.0, which took no k. 0: done,
 * and the three places hold the new counts of vertices, edges and uses. Else
 * the number of the refusal, and nothing lent is changed.
 *
 * k is 1 to 7. Any other is refused (18), also where no edge is closed, and
 * before 6.
 *
 * Room: a row in each table for every closed edge, and a place in `uses` for
 * every use of one.
 */
int32_t kaugrenna_split_closed_edges(
    uint32_t *vertex_numbers,
    size_t vertex_numbers_len,
    double *vertex_floats,
    size_t vertex_floats_len,
    uint32_t *edge_numbers,
    size_t edge_numbers_len,
    double *edge_floats,
    size_t edge_floats_len,
    uint32_t *uses,
    size_t uses_len,
    uint32_t *lengths,
    size_t lengths_len,
    size_t vertices,
    size_t edges,
    size_t wires,
    uint32_t k,
    size_t *vertices_out,
    size_t *edges_out,
    size_t *uses_out);

/*
 * The parameter k eighths of the way from t0 to t1, at which
 * `kaugrenna_split_closed_edges` cuts a curve. For k 4 it is (t0 + t1) / 2,
 * else t0 + (t1 - t0) * k / 8, rounded at each step from left to right; what
 * is below t0 then becomes t0, and what is above t1 becomes t1. So it is never
 * outside t0 to t1. 0: done, and `t_out` holds the parameter. Else the number
 * of the refusal, and `t_out` is not changed.
 *
 * Refused: a float that is not a number or above 1.0e15 in size (4), t0 above
 * t1 (5), and then k outside 1 to 7 (18).
 */
int32_t kaugrenna_cut_parameter(
    double t0,
    double t1,
    uint32_t k,
    double *t_out);

/*
 * Edge number `edge` is cut by the cuts in `cuts`, four floats each:
 * parameter, x, y, z. No cut changes nothing, one cuts the edge and mends
 * every wire, in place, and two or more are refused (14), which
 * `kaugrenna_cut_edge_at_points` takes. Both pieces have the preparation of
 * the edge that was cut. 0: done, and the three places hold the counts of
 * vertices, edges and uses. Else the number of the refusal, and nothing lent
 * is changed.
 *
 * Room: for one cut a row in each table, and a place in `uses` for every use
 * of the edge; for no cut none.
 */
int32_t kaugrenna_cut_edge_by_intersections(
    uint32_t *vertex_numbers,
    size_t vertex_numbers_len,
    double *vertex_floats,
    size_t vertex_floats_len,
    uint32_t *edge_numbers,
    size_t edge_numbers_len,
    double *edge_floats,
    size_t edge_floats_len,
    uint32_t *uses,
    size_t uses_len,
    uint32_t *lengths,
    size_t lengths_len,
    const double *cuts,
    size_t cuts_len,
    size_t vertices,
    size_t edges,
    size_t wires,
    uint32_t edge,
    size_t cut_count,
    size_t *vertices_out,
    size_t *edges_out,
    size_t *uses_out);

/*
 * Edge number `edge`, from vertex a to vertex b, is cut by the cuts in `cuts`,
 * at most 64 of them in strictly rising parameter, four floats each:
 * parameter, x, y, z. It becomes a chain of pieces from a to b, and every wire
 * is mended, in place. With n vertices, m edges and c cuts lent the piece from
 * a to n keeps the number of the edge, the others are the new edges m, from n
 * to n + 1, and so on, the last m + c - 1, from n + c - 1 to b. So the new
 * edges and the new vertices, which are given by the points of the cuts, are
 * numbered along the curve. The ranges of the pieces join at the cuts, from t0
 * to t1, and each piece has the preparation of the edge that was cut. A
 * forward use of the edge becomes the chain i+ m+ .. (m+c-1)+, where i is
 * `edge`, and a reversed one the chain backwards, (m+c-1)- .. m- i-. No cut
 * changes nothing. With no cut and with one the answers are those of
 * `kaugrenna_cut_edge_by_intersections`. 0: done, and the three places hold
 * the counts of vertices, edges and uses. Else the number of the refusal, and
 * nothing lent is changed.
 *
 * Refused: 1 to 5 over all that is lent, every cut too, also past 64, and the
 * edge's number also where there is no cut; 1 where four floats for each cut
 * are not lent. Then more than 64 cuts (16), then a parameter that is not
 * above the one before it (17), and 6 last. The first parameter may be t0 and
 * the last t1; 0.0 is not above -0.0.
 *
 * Room: for c cuts c rows in each table, and c places in `uses` for every use
 * of the edge, with at most 1,024 uses in all; for no cut none.
 */
int32_t kaugrenna_cut_edge_at_points(
    uint32_t *vertex_numbers,
    size_t vertex_numbers_len,
    double *vertex_floats,
    size_t vertex_floats_len,
    uint32_t *edge_numbers,
    size_t edge_numbers_len,
    double *edge_floats,
    size_t edge_floats_len,
    uint32_t *uses,
    size_t uses_len,
    uint32_t *lengths,
    size_t lengths_len,
    const double *cuts,
    size_t cuts_len,
    size_t vertices,
    size_t edges,
    size_t wires,
    uint32_t edge,
    size_t cut_count,
    size_t *vertices_out,
    size_t *edges_out,
    size_t *uses_out);

/*
 * u, moved by -2 to 2 periods to where it is nearest to u0; the lower move on
 * a tie. No other moves are looked at: with u 0, u0 100 and period 4 the
 * answer is 8. Where the period is absent `period` is not read, and the
 * answer is u. 0: done, and `out` holds the number. Else the number of the
 * refusal, and `out` is not changed.
 */
int32_t kaugrenna_get_mindiff(
    double u,
    double u0,
    uint32_t period_kind,
    double period,
    double *out);

/*
 * Of the copies of q, moved by -2 to 2 periods in u and by -2 to 2 in v, the
 * first that is nearest to p, with the moves in u outermost. No other copies
 * are looked at. Where a period is absent its number is not read, and the
 * only move is 0, which makes 0.0 of -0.0. 0: done, and the two places hold
 * the copy. Else the number of the refusal, and neither place is changed.
 */
int32_t kaugrenna_nearest_copy(
    double pu,
    double pv,
    double qu,
    double qv,
    uint32_t u_kind,
    double u_period,
    uint32_t v_kind,
    double v_period,
    double *u_out,
    double *v_out);

/*
 * The kind of a wire, from its first point, its last point and its area. 0:
 * done, and `kind_out` holds 0 for Positive, 1 for Negative and 2 for
 * NotClosed. Else the number of the refusal, and `kind_out` is not changed.
 *
 * A wire is closed where the squared distance of both points is below 1.0e-3,
 * and then Positive where the area is above 0.
 */
int32_t kaugrenna_boundary_type(
    double u0,
    double v0,
    double u1,
    double v1,
    double area,
    uint32_t *kind_out);

/*
 * The numbers of the two open wires and of the closed ones, both in given
 * order, to the front of their slices. 0: done, and `closed_out` holds how
 * many are closed. -1: not exactly two are open. Else the number of the
 * refusal. After -1 and a refusal nothing lent is changed.
 *
 * `ends` has a row of five floats for each wire: u, v of its first point, u,
 * v of its last point, and its area. Open is what is NotClosed.
 *
 * Room: two places in `open`, and one in `closed` for every closed wire.
 */
int32_t kaugrenna_sort_wires(
    const double *ends,
    size_t ends_len,
    size_t wires,
    uint32_t *open,
    size_t open_len,
    uint32_t *closed,
    size_t closed_len,
    size_t *closed_out);

/*
 * From v0 the nearest front of the second stretch, from there the nearest
 * front of the first. 0: done, and the two places hold a vertex of the first
 * stretch and one of the second. -1: a stretch is empty. Else the number of
 * the refusal. After -1 and a refusal nothing lent is changed.
 */
int32_t kaugrenna_nearest_correction(
    const uint32_t *vertex_numbers,
    size_t vertex_numbers_len,
    const double *vertex_floats,
    size_t vertex_floats_len,
    const uint32_t *edge_numbers,
    size_t edge_numbers_len,
    const double *edge_floats,
    size_t edge_floats_len,
    const uint32_t *first,
    size_t first_len,
    const uint32_t *second,
    size_t second_len,
    size_t vertices,
    size_t edges,
    size_t first_count,
    size_t second_count,
    uint32_t v0,
    uint32_t *v0_out,
    uint32_t *v1_out);

/*
 * Of the wires in order the first that uses an edge twice and can be
 * divided. 0: done, and the two places hold the vertices between which it
 * is. -1: no wire can. Else the number of the refusal. After -1 and a
 * refusal nothing lent is changed.
 */
int32_t kaugrenna_find_non_simple_wire_divisor(
    const uint32_t *vertex_numbers,
    size_t vertex_numbers_len,
    const double *vertex_floats,
    size_t vertex_floats_len,
    const uint32_t *edge_numbers,
    size_t edge_numbers_len,
    const double *edge_floats,
    size_t edge_floats_len,
    const uint32_t *uses,
    size_t uses_len,
    const uint32_t *lengths,
    size_t lengths_len,
    size_t vertices,
    size_t edges,
    size_t wires,
    uint32_t *v0_out,
    uint32_t *v1_out);

/*
 * The wires to be rebuilt are rebuilt along the divisor, a list of vertices
 * with their uv points, two floats each: the new edges, which are seams and
 * square, are appended to the edge table, and the answered wires go to `uses`
 * and `lengths`. 0: done, and the three places hold the counts of wires, of
 * their uses and of edges. Else the number of the refusal, and nothing lent is
 * changed.
 *
 * Room: in `uses` and in `lengths` each a place for every use to be rebuilt
 * and two for every pair on the divisor (first with second, third with
 * fourth), however few wires come of it; a row in the edge table for every
 * pair.
 */
int32_t kaugrenna_split_boundaries_by_divisor(
    uint32_t *edge_numbers,
    size_t edge_numbers_len,
    double *edge_floats,
    size_t edge_floats_len,
    const uint32_t *face_uses,
    size_t face_uses_len,
    const uint32_t *face_lengths,
    size_t face_lengths_len,
    const uint32_t *rebuilt_uses,
    size_t rebuilt_uses_len,
    const uint32_t *rebuilt_lengths,
    size_t rebuilt_lengths_len,
    const uint32_t *divisor,
    size_t divisor_len,
    const double *points,
    size_t points_len,
    uint32_t *uses,
    size_t uses_len,
    uint32_t *lengths,
    size_t lengths_len,
    size_t vertices,
    size_t edges,
    size_t face_wires,
    size_t rebuilt_wires,
    size_t divisor_count,
    uint32_t surface,
    size_t *wires_out,
    size_t *uses_out,
    size_t *edges_out);

/*
 * The two open wires and the first new wire that holds v0 become one wire,
 * which replaces that new wire, in place. 0: done, and the place holds how
 * many uses the new wires have now. -1: something is not found. Else the
 * number of the refusal. After -1 and a refusal nothing lent is changed.
 *
 * What is looked for are fronts of uses. First v0, in the first open wire or
 * else in the second; where it is not the front of that wire's first use, the
 * two change places. Then v1 in the second open wire, v0 in the new wires,
 * and v1 in the first open wire and that new wire together. -1: one of these
 * four is not found.
 *
 * Bounds: the two open wires count among the 64 wires, and their uses among
 * the 1,024.
 *
 * Room: in `uses` a place for every use of the two open wires, behind those
 * of the new wires; in `lengths` none.
 */
int32_t kaugrenna_connect_open_boundaries(
    const uint32_t *edge_numbers,
    size_t edge_numbers_len,
    const double *edge_floats,
    size_t edge_floats_len,
    const uint32_t *first,
    size_t first_len,
    const uint32_t *second,
    size_t second_len,
    uint32_t *uses,
    size_t uses_len,
    uint32_t *lengths,
    size_t lengths_len,
    size_t vertices,
    size_t edges,
    size_t first_count,
    size_t second_count,
    size_t wires,
    uint32_t v0,
    uint32_t v1,
    size_t *uses_out);

#ifdef __cplusplus
}
#endif

#endif
