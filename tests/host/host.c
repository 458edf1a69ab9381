/*
 * A host in C: worked cases of document 01, cuts at every eighth and at several
 * points and preparations of edges through the header and the archive, and what
 * the header defines. Every slice is a block of just its size, so that a tool
 * that watches memory sees a step beyond it. A line for each case, and one for
 * a refusal; the exit status is 1 where a case is not the same.
 */
#include "kaugrenna.h"

#include <math.h>
#include <stdio.h>
#include <stdlib.h>
#include <string.h>

/* A value that no case answers. */
#define MARK 99

static int failures;

static void tell(const char *name, int same) {
    printf("%s %s\n", name, same ? "same" : "other");
    failures += !same;
}

/* A block with a copy of n elements; a block of one byte where n is 0. */
static void *block(const void *from, size_t n, size_t size) {
    size_t bytes = n * size;
    void *to = malloc(bytes > 0 ? bytes : 1);
    if (to == NULL) {
        exit(2);
    }
    memcpy(to, from, bytes);
    return to;
}

#define COUNT(array) (sizeof(array) / sizeof *(array))
#define COPY(array) block(array, COUNT(array), sizeof *(array))
/* A copy of this array is lent whole; holds the same; gets it once more. */
#define LEND(pointer, array) pointer, COUNT(array)
#define SAME(pointer, array) (memcmp(pointer, array, sizeof(array)) == 0)
#define RESTORE(pointer, array) memcpy(pointer, array, sizeof(array))

/* The cells of so many rows. */
#define VERTEX_NUMBERS(rows) ((rows) * KAUGRENNA_NUMBERS_PER_VERTEX)
#define VERTEX_FLOATS(rows) ((rows) * KAUGRENNA_FLOATS_PER_VERTEX)
#define EDGE_NUMBERS(rows) ((rows) * KAUGRENNA_NUMBERS_PER_EDGE)
#define EDGE_FLOATS(rows) ((rows) * KAUGRENNA_FLOATS_PER_EDGE)

/* The uses 3+ and 3- are FORWARD(3) and REVERSED(3). */
#define FORWARD(edge) KAUGRENNA_USE(edge, 0)
#define REVERSED(edge) KAUGRENNA_USE(edge, 1)

/* The kind, number and preparation of an edge: a span of curve n, square or with a bevel. */
#define SQUARE_SPAN(n) KAUGRENNA_SPAN, n, KAUGRENNA_SQUARE
#define SINGLE_SPAN(n) KAUGRENNA_SPAN, n, KAUGRENNA_SINGLE_BEVEL
#define DOUBLE_SPAN(n) KAUGRENNA_SPAN, n, KAUGRENNA_DOUBLE_BEVEL
/* The row of an edge that is no input. */
#define EDGE_MARKS MARK, MARK, MARK, MARK, MARK

/* K9's edges and vertices, and its wire 1+ 2+ 0+ 3+ 4+ 0-. */
static const uint32_t PIPE_EDGES[EDGE_NUMBERS(5)] = {0, 2, SQUARE_SPAN(0), 0, 1, SQUARE_SPAN(0),
                                                     1, 0, SQUARE_SPAN(0), 2, 3, SQUARE_SPAN(0),
                                                     3, 2, SQUARE_SPAN(0)};
static const double PIPE_FLOATS[EDGE_FLOATS(5)];
static const uint32_t PIPE_VERTICES[VERTEX_NUMBERS(4)];
static const double PIPE_POINTS[VERTEX_FLOATS(4)] = {1, 0, 0, 0, 0, 0, 0, -1, 0, 0, 0, 0, 0, 0,
                                                     1, 0, 4, 0, 0, 0, 0, -1, 0, 4, 0, 0, 0, 0};
static const uint32_t PIPE_WIRE[] = {FORWARD(1), FORWARD(2), FORWARD(0),
                                     FORWARD(3), FORWARD(4), REVERSED(0)};

/* What the header defines. */
static void header(void) {
    const uint32_t largest = KAUGRENNA_USE(2147483647u, 1);
    tell("uses", FORWARD(3) == 6 && REVERSED(3) == 7 && KAUGRENNA_EDGE(7) == 3 &&
                     KAUGRENNA_REVERSED(7) == 1 && KAUGRENNA_REVERSED(6) == 0 &&
                     largest == UINT32_MAX && KAUGRENNA_EDGE(largest) == 2147483647u);
    /* All codes have a text of their own. */
    int other = 0;
    for (int32_t code = -1; code <= KAUGRENNA_EIGHTHS_OUT_OF_RANGE; code++) {
        other += strcmp(kaugrenna_text(code), kaugrenna_text(MARK)) != 0;
    }
    tell("texts", other == 20 && strcmp(kaugrenna_text(-2), kaugrenna_text(MARK)) == 0);
}

/* K1: the square edge (0, 0) with span 7 from 0 to 8 and the wire 0+, and room for the cut. */
static const uint32_t K1_VERTICES[VERTEX_NUMBERS(2)] = {KAUGRENNA_GIVEN};
static const double K1_POINTS[VERTEX_FLOATS(2)];
static const uint32_t K1_EDGES[EDGE_NUMBERS(2)] = {0, 0, SQUARE_SPAN(7), EDGE_MARKS};
static const double K1_FLOATS[EDGE_FLOATS(2)] = {0, 0, 0, 0, 0, 8};
static const uint32_t K1_USES[2] = {FORWARD(0), MARK};
static const uint32_t K1_LENGTHS[1] = {1};

/* What is lent, and the places for counts of vertices, edges and uses. */
struct lent {
    uint32_t *vn, *en, *us, *ls;
    double *vf, *ef;
    size_t v, e, n;
};

static struct lent lend_k1(void) {
    struct lent s;
    s.vn = COPY(K1_VERTICES), s.vf = COPY(K1_POINTS);
    s.en = COPY(K1_EDGES), s.ef = COPY(K1_FLOATS);
    s.us = COPY(K1_USES), s.ls = COPY(K1_LENGTHS);
    s.v = s.e = s.n = MARK;
    return s;
}

static void free_lent(struct lent s) {
    free(s.vn), free(s.vf), free(s.en), free(s.ef), free(s.us), free(s.ls);
}

/* The pass over K1, with so many rows for the numbers of vertices. */
static int32_t pass(struct lent *s, size_t rows, uint32_t k) {
    return kaugrenna_split_closed_edges(s->vn, VERTEX_NUMBERS(rows), LEND(s->vf, K1_POINTS),
                                        LEND(s->en, K1_EDGES), LEND(s->ef, K1_FLOATS),
                                        LEND(s->us, K1_USES), LEND(s->ls, K1_LENGTHS), 1, 1, 1, k,
                                        &s->v, &s->e, &s->n);
}

static int is_kept(const struct lent *s) {
    return s->v == MARK && s->e == MARK && s->n == MARK && SAME(s->vn, K1_VERTICES) &&
           SAME(s->vf, K1_POINTS) && SAME(s->en, K1_EDGES) && SAME(s->ef, K1_FLOATS) &&
           SAME(s->us, K1_USES) && SAME(s->ls, K1_LENGTHS);
}

/* Whether the edge is cut at t, and the new vertex is pending there. */
static int is_cut(const struct lent *s, double t) {
    const uint32_t vertices[] = {KAUGRENNA_GIVEN, 0, 0, KAUGRENNA_PENDING, KAUGRENNA_SPAN, 7};
    const double points[] = {0, 0, 0, 0, 0, 0, 0, 0, 0, 0, 0, 0, 8, t};
    const uint32_t edges[] = {0, 1, SQUARE_SPAN(7), 1, 0, SQUARE_SPAN(7)};
    const double floats[] = {0, 0, 0, 0, 0, t, 0, 0, 0, 0, t, 8};
    const uint32_t uses[] = {FORWARD(0), FORWARD(1)}, lengths[] = {2};
    return s->v == 2 && s->e == 2 && s->n == 2 && SAME(s->vn, vertices) && SAME(s->vf, points) &&
           SAME(s->en, edges) && SAME(s->ef, floats) && SAME(s->us, uses) && SAME(s->ls, lengths);
}

/* K1, and the edge cut at each eighth of its curve. */
static void k1(void) {
    for (uint32_t k = 1; k <= 7; k++) {
        struct lent s = lend_k1();
        int32_t code = pass(&s, 2, k);
        tell(k == KAUGRENNA_MIDDLE ? "K1" : "K1 cut elsewhere",
             code == KAUGRENNA_DONE && is_cut(&s, k));
        free_lent(s);
    }
}

/* What the pass over K1 refuses: nothing changes. */
static void k1_refused(void) {
    const uint32_t none[] = {0, 8, UINT32_MAX};
    struct lent s = lend_k1();
    int32_t code = pass(&s, 1, KAUGRENNA_MIDDLE);
    tell("no room", code == KAUGRENNA_NO_ROOM && is_kept(&s));
    printf("refused (%ld): %s\n", (long)code, kaugrenna_text(code));
    for (size_t i = 0; i < COUNT(none); i++) {
        /* Without room too, and behind the causes 1 to 5. */
        int32_t with = pass(&s, 2, none[i]), without = pass(&s, 1, none[i]);
        tell("no eighths",
             with == KAUGRENNA_EIGHTHS_OUT_OF_RANGE && without == with && is_kept(&s));
        s.us[0] = FORWARD(1);
        tell("no edge", pass(&s, 2, none[i]) == KAUGRENNA_EDGE_NUMBER);
        s.us[0] = FORWARD(0);
    }
    free_lent(s);
}

/* Whether this is the parameter, to the bit: 0.0 is not -0.0. */
static int is_parameter(double t0, double t1, uint32_t k, double expected) {
    double t = MARK;
    return kaugrenna_cut_parameter(t0, t1, k, &t) == KAUGRENNA_DONE &&
           memcmp(&t, &expected, sizeof t) == 0;
}

/* Whether the parameter is refused with this code, and its place keeps what it held. */
static int is_refused(double t0, double t1, uint32_t k, int32_t code) {
    double t = MARK;
    return kaugrenna_cut_parameter(t0, t1, k, &t) == code && t == MARK;
}

/* Where the pass cuts: on a length of 8, on both sides of 0, on no length, and on one step. */
static void parameters(void) {
    const double unit = 5e-324;
    for (uint32_t k = 1; k <= 7; k++) {
        tell("parameter", is_parameter(0, 8, k, k) &&
                              is_parameter(-1e15, 1e15, k, 2.5e14 * k - 1e15) &&
                              is_parameter(-0.1, -0.1, k, -0.1) &&
                              is_parameter(unit, 2 * unit, k, k < 4 ? unit : 2 * unit) &&
                              is_parameter(-0.0, -0.0, k, k == KAUGRENNA_MIDDLE ? -0.0 : 0.0));
    }
}

static void parameters_refused(void) {
    const uint32_t none[] = {0, 8, UINT32_MAX};
    for (size_t i = 0; i < COUNT(none); i++) {
        tell("no parameter", is_refused(0, 8, none[i], KAUGRENNA_EIGHTHS_OUT_OF_RANGE) &&
                                 is_refused(8, 0, none[i], KAUGRENNA_OUT_OF_RANGE) &&
                                 is_refused(0, HUGE_VAL, none[i], KAUGRENNA_NOT_SIZED) &&
                                 is_refused(8, -1.1e15, none[i], KAUGRENNA_NOT_SIZED) &&
                                 is_refused(NAN, 0, none[i], KAUGRENNA_NOT_SIZED));
    }
}

/* Edge 1 = (1, 0) from 0 to 2 with double bevel, beside one with single bevel, cut at 1 by
   (1, 0, 2): the wire 1+ 0+ 1- becomes 1+ 2+ 0+ 2- 1-, and both pieces have double bevel. */
static void one_cut(void) {
    const uint32_t given_vertices[VERTEX_NUMBERS(3)] = {KAUGRENNA_GIVEN};
    const double given_points[VERTEX_FLOATS(3)] = {0};
    const uint32_t given_edges[EDGE_NUMBERS(3)] = {
        0, 1, SINGLE_SPAN(7), 1, 0, DOUBLE_SPAN(7), EDGE_MARKS};
    const double given_floats[EDGE_FLOATS(3)] = {0, 0, 0, 0, 0, 2, 0, 0, 0, 0, 0, 2};
    const uint32_t given_uses[5] = {FORWARD(1), FORWARD(0), REVERSED(1)}, given_lengths[1] = {3};
    const double given_cuts[2 * KAUGRENNA_FLOATS_PER_CUT] = {1, 1, 0, 2, 1, 0, 0, 0};
    uint32_t *vn = COPY(given_vertices), *en = COPY(given_edges);
    uint32_t *us = COPY(given_uses), *ls = COPY(given_lengths);
    double *vf = COPY(given_points), *ef = COPY(given_floats), *cuts = COPY(given_cuts);
    size_t v = MARK, e = MARK, n = MARK;
    int32_t two = kaugrenna_cut_edge_by_intersections(
        LEND(vn, given_vertices), LEND(vf, given_points), LEND(en, given_edges),
        LEND(ef, given_floats), LEND(us, given_uses), LEND(ls, given_lengths),
        LEND(cuts, given_cuts), 2, 2, 1, 1, 2, &v, &e, &n);
    int kept = v == MARK && e == MARK && n == MARK && SAME(vn, given_vertices) &&
               SAME(vf, given_points) && SAME(en, given_edges) && SAME(ef, given_floats) &&
               SAME(us, given_uses) && SAME(ls, given_lengths);
    int32_t code = kaugrenna_cut_edge_by_intersections(
        LEND(vn, given_vertices), LEND(vf, given_points), LEND(en, given_edges),
        LEND(ef, given_floats), LEND(us, given_uses), LEND(ls, given_lengths),
        LEND(cuts, given_cuts), 2, 2, 1, 1, 1, &v, &e, &n);
    const uint32_t edges[] = {0, 1, SINGLE_SPAN(7), 1, 2, DOUBLE_SPAN(7), 2, 0, DOUBLE_SPAN(7)};
    const double floats[] = {0, 0, 0, 0, 0, 2, 0, 0, 0, 0, 0, 1, 0, 0, 0, 0, 1, 2};
    const double points[] = {0, 0, 0, 0, 0, 0, 0, 0, 0, 0, 0, 0, 0, 0, 1, 0, 2, 0, 0, 0, 0};
    const uint32_t uses[] = {FORWARD(1), FORWARD(2), FORWARD(0), REVERSED(2), REVERSED(1)};
    const uint32_t lengths[] = {5};
    tell("two cuts", two == KAUGRENNA_SEVERAL_CUTS && kept);
    tell("one cut", code == KAUGRENNA_DONE && v == 3 && e == 3 && n == 5 &&
                        SAME(vn, given_vertices) && SAME(vf, points) && SAME(en, edges) &&
                        SAME(ef, floats) && SAME(us, uses) && SAME(ls, lengths));
    free(vn), free(vf), free(en), free(ef), free(us), free(ls), free(cuts);
}

/* The rim of a cone: edge 0 = (0, 1) from 0 to 8 with double bevel and the wire 0-, and room for
   two cuts. */
#define RIM_ENDS KAUGRENNA_GIVEN, 0, 0, KAUGRENNA_GIVEN, 0, 0
static const uint32_t RIM_VERTICES[] = {RIM_ENDS, MARK, MARK, MARK, MARK, MARK, MARK};
static const double RIM_POINTS[VERTEX_FLOATS(4)] = {1, 0, 0, 0, 0, 0, 0, -1};
static const uint32_t RIM_EDGES[EDGE_NUMBERS(3)] = {0, 1, DOUBLE_SPAN(7), EDGE_MARKS, EDGE_MARKS};
static const double RIM_FLOATS[EDGE_FLOATS(3)] = {0, 0, 0, 0, 0, 8};
static const uint32_t RIM_USES[3] = {REVERSED(0), MARK, MARK};
static const uint32_t RIM_LENGTHS[1] = {1};

static struct lent lend_rim(void) {
    struct lent s;
    s.vn = COPY(RIM_VERTICES), s.vf = COPY(RIM_POINTS);
    s.en = COPY(RIM_EDGES), s.ef = COPY(RIM_FLOATS);
    s.us = COPY(RIM_USES), s.ls = COPY(RIM_LENGTHS);
    s.v = s.e = s.n = MARK;
    return s;
}

/* So many cuts of the rim, of which so many cells are lent. */
static int32_t cut_rim(struct lent *s, const double *cuts, size_t cells, size_t count) {
    double *lent = block(cuts, cells, sizeof *cuts);
    int32_t code = kaugrenna_cut_edge_at_points(
        LEND(s->vn, RIM_VERTICES), LEND(s->vf, RIM_POINTS), LEND(s->en, RIM_EDGES),
        LEND(s->ef, RIM_FLOATS), LEND(s->us, RIM_USES), LEND(s->ls, RIM_LENGTHS), lent, cells, 2,
        1, 1, 0, count, &s->v, &s->e, &s->n);
    free(lent);
    return code;
}

static int holds_rim(const struct lent *s) {
    return SAME(s->vn, RIM_VERTICES) && SAME(s->vf, RIM_POINTS) && SAME(s->en, RIM_EDGES) &&
           SAME(s->ef, RIM_FLOATS) && SAME(s->us, RIM_USES) && SAME(s->ls, RIM_LENGTHS);
}

/* Whether so many cuts are refused with this code, and nothing changes. */
static int is_rim_refused(const double *cuts, size_t cells, size_t count, int32_t code) {
    struct lent s = lend_rim();
    int same = cut_rim(&s, cuts, cells, count) == code && s.v == MARK && s.e == MARK &&
               s.n == MARK && holds_rim(&s);
    free_lent(s);
    return same;
}

/* Cut at 2 by (0, 1, 0) and at 5 by (-1, 0, 0.5) the rim is edges 0 = (0, 2), 1 = (2, 3) and
   2 = (3, 1) with double bevel, and the wire 2- 1- 0-. */
static void two_cuts(void) {
    const double cuts[2 * KAUGRENNA_FLOATS_PER_CUT] = {2, 0, 1, 0, 5, -1, 0, 0.5};
    const uint32_t edges[] = {0, 2, DOUBLE_SPAN(7), 2, 3, DOUBLE_SPAN(7), 3, 1, DOUBLE_SPAN(7)};
    const double floats[] = {0, 0, 0, 0, 0, 2, 0, 0, 0, 0, 2, 5, 0, 0, 0, 0, 5, 8};
    /* The row of a given vertex has one number. */
    const uint32_t vertices[] = {RIM_ENDS, KAUGRENNA_GIVEN, MARK, MARK,
                                 KAUGRENNA_GIVEN, MARK, MARK};
    const double points[] = {1, 0, 0, 0, 0, 0, 0, -1, 0, 0, 0, 0, 0, 0,
                             0, 1, 0, 0, 0, 0, 0, -1, 0, 0.5, 0, 0, 0, 0};
    const uint32_t uses[] = {REVERSED(2), REVERSED(1), REVERSED(0)}, lengths[] = {3};
    struct lent s = lend_rim();
    int32_t code = cut_rim(&s, cuts, COUNT(cuts), 0);
    tell("no cut", code == KAUGRENNA_DONE && s.v == 2 && s.e == 1 && s.n == 1 && holds_rim(&s));
    code = cut_rim(&s, cuts, COUNT(cuts), 2);
    tell("cut at two points", code == KAUGRENNA_DONE && s.v == 4 && s.e == 3 && s.n == 3 &&
                                  SAME(s.vn, vertices) && SAME(s.vf, points) &&
                                  SAME(s.en, edges) && SAME(s.ef, floats) && SAME(s.us, uses) &&
                                  SAME(s.ls, lengths));
    free_lent(s);
}

/* What cuts of the rim are refused: 65 of them rise from 0 to 8. */
static void cuts_refused(void) {
    enum { MOST = KAUGRENNA_MAX_CUTS, CELLS = (MOST + 1) * KAUGRENNA_FLOATS_PER_CUT };
    double cuts[CELLS] = {0};
    for (int cut = 0; cut <= MOST; cut++) {
        cuts[cut * KAUGRENNA_FLOATS_PER_CUT] = cut / 8.0;
    }
    tell("too few floats", is_rim_refused(cuts, CELLS - 1, MOST + 1, KAUGRENNA_MALFORMED));
    tell("too many cuts", is_rim_refused(cuts, CELLS, MOST + 1, KAUGRENNA_TOO_MANY_CUTS));
    tell("no room for cuts", is_rim_refused(cuts, CELLS, MOST, KAUGRENNA_NO_ROOM) &&
                                 is_rim_refused(cuts, CELLS, 3, KAUGRENNA_NO_ROOM));
    /* 0.0 is not above 0.0, and not above -0.0. */
    const double zeros[] = {0.0, -0.0};
    cuts[KAUGRENNA_FLOATS_PER_CUT] = 0.0;
    for (size_t i = 0; i < COUNT(zeros); i++) {
        cuts[0] = zeros[i];
        tell("not rising", is_rim_refused(cuts, CELLS, 2, KAUGRENNA_NOT_RISING) &&
                               is_rim_refused(cuts, CELLS, MOST, KAUGRENNA_NOT_RISING) &&
                               is_rim_refused(cuts, CELLS, MOST + 1, KAUGRENNA_TOO_MANY_CUTS));
    }
    cuts[MOST * KAUGRENNA_FLOATS_PER_CUT] = 9;
    tell("past the curve", is_rim_refused(cuts, CELLS, MOST + 1, KAUGRENNA_OUT_OF_RANGE));
}

/* K4, K5, K17, K18, K19, and a sorting of three wires. */
static void numbers(void) {
    double out = MARK, u = MARK, v = MARK;
    int32_t code = kaugrenna_get_mindiff(0.5, 6, KAUGRENNA_EVERY, 4, &out);
    tell("K4", code == KAUGRENNA_DONE && out == 4.5);
    code = kaugrenna_get_mindiff(0, 2, KAUGRENNA_EVERY, 4, &out);
    tell("K5", code == KAUGRENNA_DONE && out == 0);
    /* Two periods are the most that u is moved by. */
    code = kaugrenna_get_mindiff(0, 100, KAUGRENNA_EVERY, 4, &out);
    tell("two periods", code == KAUGRENNA_DONE && out == 8);
    /* The number of a period that is absent is not read. */
    code = kaugrenna_get_mindiff(3, 100, KAUGRENNA_ABSENT, -HUGE_VAL, &out);
    tell("no period", code == KAUGRENNA_DONE && out == 3);
    code = kaugrenna_nearest_copy(5, 0, 0.5, 0, KAUGRENNA_EVERY, 4, KAUGRENNA_ABSENT, 0, &u, &v);
    tell("nearest copy", code == KAUGRENNA_DONE && u == 4.5 && v == 0);
    uint32_t kind = MARK;
    code = kaugrenna_boundary_type(0, 0, 0.03125, 0, 1, &kind);
    tell("K17", code == KAUGRENNA_DONE && kind == KAUGRENNA_POSITIVE);
    code = kaugrenna_boundary_type(0, 0, 0.032, 0, 1, &kind);
    tell("K18", code == KAUGRENNA_DONE && kind == KAUGRENNA_NOT_CLOSED);
    code = kaugrenna_boundary_type(0, 0, 0, 0, 0, &kind);
    tell("K19", code == KAUGRENNA_DONE && kind == KAUGRENNA_NEGATIVE);
    /* Each row: first u and v, last u and v, area. */
    const double given_ends[3 * KAUGRENNA_FLOATS_PER_WIRE] = {0, 0, 1, 0, 0, 0, 0, 0,
                                                              0, 1, 0, 0, 0, 1, 0};
    double *ends = COPY(given_ends);
    const uint32_t marks[2] = {MARK, MARK}, opened[2] = {0, 2};
    uint32_t *open = COPY(marks), *closed = block(marks, 1, sizeof *marks);
    size_t count = MARK;
    code = kaugrenna_sort_wires(LEND(ends, given_ends), 3, LEND(open, marks), closed, 1, &count);
    tell("sorting", code == KAUGRENNA_DONE && count == 1 && SAME(open, opened) && closed[0] == 1);
    free(ends), free(open), free(closed);
}

/* K7 and K9, and nearest ends over the two stretches of K9. */
static void search(void) {
    const uint32_t k7[] = {FORWARD(0), FORWARD(1), REVERSED(0)}, three[] = {3}, six[] = {6};
    const uint32_t first[] = {FORWARD(3), FORWARD(4)}, second[] = {FORWARD(1), FORWARD(2)};
    uint32_t *vn = COPY(PIPE_VERTICES), *en = COPY(PIPE_EDGES), *us = COPY(PIPE_WIRE);
    uint32_t *ls = COPY(six), *a = COPY(first), *b = COPY(second);
    double *vf = COPY(PIPE_POINTS), *ef = COPY(PIPE_FLOATS);
    uint32_t v0 = MARK, v1 = MARK;
    int32_t code = kaugrenna_find_non_simple_wire_divisor(
        LEND(vn, PIPE_VERTICES), LEND(vf, PIPE_POINTS), LEND(en, PIPE_EDGES), LEND(ef, PIPE_FLOATS),
        LEND(k7, k7), LEND(three, three), 4, 5, 1, &v0, &v1);
    tell("K7", code == KAUGRENNA_PAST_END && v0 == MARK && v1 == MARK);
    code = kaugrenna_find_non_simple_wire_divisor(
        LEND(vn, PIPE_VERTICES), LEND(vf, PIPE_POINTS), LEND(en, PIPE_EDGES), LEND(ef, PIPE_FLOATS),
        LEND(us, PIPE_WIRE), LEND(ls, six), 4, 5, 1, &v0, &v1);
    tell("K9", code == KAUGRENNA_DONE && v0 == 3 && v1 == 1);
    code = kaugrenna_nearest_correction(LEND(vn, PIPE_VERTICES), LEND(vf, PIPE_POINTS),
                                        LEND(en, PIPE_EDGES), LEND(ef, PIPE_FLOATS), LEND(a, first),
                                        LEND(b, second), 4, 5, 2, 2, 3, &v0, &v1);
    tell("nearest ends", code == KAUGRENNA_DONE && v0 == 3 && v1 == 1);
    free(vn), free(vf), free(en), free(ef), free(us), free(ls), free(a), free(b);
}

/* K10 with buffers of just its count, and K14. */
static void split(void) {
    uint32_t given_edges[EDGE_NUMBERS(6)] = {0};
    memcpy(given_edges, PIPE_EDGES, sizeof PIPE_EDGES);
    const double given_floats[EDGE_FLOATS(6)] = {0};
    const double given_points[2 * KAUGRENNA_FLOATS_PER_STOP] = {0.25, 0.5, 0.75, 1};
    /* The six uses to be rebuilt, and two for the pair on the divisor. */
    const uint32_t marks[8] = {MARK, MARK, MARK, MARK, MARK, MARK, MARK, MARK};
    const uint32_t six[] = {6}, list[] = {3, 1};
    uint32_t *en = COPY(given_edges), *wire = COPY(PIPE_WIRE), *size = COPY(six);
    uint32_t *ds = COPY(list), *us = COPY(marks), *ls = COPY(marks);
    double *ef = COPY(given_floats), *fs = COPY(given_points);
    size_t w = MARK, n = MARK, e = MARK;
    int32_t code = kaugrenna_split_boundaries_by_divisor(
        LEND(en, given_edges), LEND(ef, given_floats), LEND(wire, PIPE_WIRE), LEND(size, six),
        LEND(wire, PIPE_WIRE), LEND(size, six), ds, 1, fs, KAUGRENNA_FLOATS_PER_STOP,
        LEND(us, marks), LEND(ls, marks), 4, 5, 1, 1, 1, 7, &w, &n, &e);
    tell("K14", code == KAUGRENNA_ODD_DIVISOR && w == MARK && n == MARK && e == MARK &&
                    SAME(en, given_edges) && SAME(ef, given_floats) && SAME(us, marks) &&
                    SAME(ls, marks));
    code = kaugrenna_split_boundaries_by_divisor(
        LEND(en, given_edges), LEND(ef, given_floats), LEND(wire, PIPE_WIRE), LEND(size, six),
        LEND(wire, PIPE_WIRE), LEND(size, six), LEND(ds, list), LEND(fs, given_points),
        LEND(us, marks), LEND(ls, marks), 4, 5, 1, 1, 2, 7, &w, &n, &e);
    const uint32_t seam[] = {3, 1, KAUGRENNA_SEAM, 7, KAUGRENNA_SQUARE};
    const uint32_t uses[] = {FORWARD(0), FORWARD(3),  FORWARD(5), FORWARD(2),
                             FORWARD(1), REVERSED(5), FORWARD(4), REVERSED(0)};
    const uint32_t lengths[8] = {4, 4, MARK, MARK, MARK, MARK, MARK, MARK};
    const double range[] = {0.25, 0.5, 0.75, 1, 0, 1};
    tell("K10", code == KAUGRENNA_DONE && w == 2 && n == 8 && e == 6 && SAME(en, PIPE_EDGES) &&
                    SAME(en + EDGE_NUMBERS(5), seam) && SAME(ef, PIPE_FLOATS) &&
                    SAME(ef + EDGE_FLOATS(5), range) && SAME(us, uses) && SAME(ls, lengths));
    free(en), free(ef), free(wire), free(size), free(ds), free(fs), free(us), free(ls);
}

/* K15 and K16. */
static void join(void) {
    const uint32_t first[] = {FORWARD(1), FORWARD(2)}, second[] = {FORWARD(3), FORWARD(4)};
    const uint32_t given_uses[6] = {FORWARD(0), REVERSED(0), MARK, MARK, MARK, MARK};
    const uint32_t two[] = {2}, six[] = {6};
    const uint32_t joined[] = {REVERSED(0), FORWARD(1), FORWARD(2),
                               FORWARD(0),  FORWARD(3), FORWARD(4)};
    uint32_t *en = COPY(PIPE_EDGES), *a = COPY(first), *b = COPY(second);
    uint32_t *us = COPY(given_uses), *ls = COPY(two);
    double *ef = COPY(PIPE_FLOATS);
    size_t n = MARK;
    int32_t code = kaugrenna_connect_open_boundaries(
        LEND(en, PIPE_EDGES), LEND(ef, PIPE_FLOATS), LEND(b, second), LEND(a, first),
        LEND(us, given_uses), LEND(ls, two), 4, 5, 2, 2, 1, 0, 2, &n);
    tell("K16", code == KAUGRENNA_NONE && n == MARK && SAME(us, given_uses) && SAME(ls, two));
    code = kaugrenna_connect_open_boundaries(LEND(en, PIPE_EDGES), LEND(ef, PIPE_FLOATS),
                                             LEND(a, first), LEND(b, second), LEND(us, given_uses),
                                             LEND(ls, two), 4, 5, 2, 2, 1, 0, 2, &n);
    tell("K15", code == KAUGRENNA_DONE && n == 6 && SAME(us, joined) && SAME(ls, six));
    free(en), free(ef), free(a), free(b), free(us), free(ls);
}

/* The rims of a pipe with a single bevel, as the pass leaves them, and their wires. */
#define CUT_RIMS \
    0, 2, SINGLE_SPAN(0), 1, 3, SINGLE_SPAN(1), 2, 0, SINGLE_SPAN(0), 3, 1, SINGLE_SPAN(1)
static const uint32_t CUT_WIRES[] = {FORWARD(0), FORWARD(2), REVERSED(3), REVERSED(1)};
static const uint32_t CUT_LENGTHS[] = {2, 2};

/* The pass over the rims 0 = (0, 0) and 1 = (1, 1) with the wires 0+ and 1-; what is no preparation
   is refused first. */
static void bevelled_rims(void) {
    const uint32_t given_vertices[VERTEX_NUMBERS(4)] = {KAUGRENNA_GIVEN};
    const double given_points[VERTEX_FLOATS(4)] = {1, 0, 0, 0, 0, 0, 0, 1, 0, 4};
    const uint32_t unknown = KAUGRENNA_DOUBLE_BEVEL + 1;
    const uint32_t given_edges[EDGE_NUMBERS(4)] = {
        0, 0, SINGLE_SPAN(0), 1, 1, KAUGRENNA_SPAN, 1, unknown, EDGE_MARKS, EDGE_MARKS};
    const double given_floats[EDGE_FLOATS(4)] = {0, 0, 0, 0, 0, 8, 0, 0, 0, 0, 0, 8};
    const uint32_t given_uses[4] = {FORWARD(0), REVERSED(1), MARK, MARK};
    const uint32_t given_lengths[2] = {1, 1};
    uint32_t *vn = COPY(given_vertices), *en = COPY(given_edges);
    uint32_t *us = COPY(given_uses), *ls = COPY(given_lengths);
    double *vf = COPY(given_points), *ef = COPY(given_floats);
    size_t v = MARK, e = MARK, n = MARK;
    int32_t code = kaugrenna_split_closed_edges(
        LEND(vn, given_vertices), LEND(vf, given_points), LEND(en, given_edges),
        LEND(ef, given_floats), LEND(us, given_uses), LEND(ls, given_lengths), 2, 2, 2,
        KAUGRENNA_MIDDLE, &v, &e, &n);
    tell("no preparation", code == KAUGRENNA_MALFORMED && v == MARK && e == MARK && n == MARK &&
                               SAME(vn, given_vertices) && SAME(vf, given_points) &&
                               SAME(en, given_edges) && SAME(ef, given_floats) &&
                               SAME(us, given_uses) && SAME(ls, given_lengths));
    /* With the bevel of the first rim the second one is cut too. */
    en[EDGE_NUMBERS(2) - 1] = KAUGRENNA_SINGLE_BEVEL;
    code = kaugrenna_split_closed_edges(
        LEND(vn, given_vertices), LEND(vf, given_points), LEND(en, given_edges),
        LEND(ef, given_floats), LEND(us, given_uses), LEND(ls, given_lengths), 2, 2, 2,
        KAUGRENNA_MIDDLE, &v, &e, &n);
    const uint32_t edges[] = {CUT_RIMS};
    const uint32_t pending[] = {KAUGRENNA_PENDING, KAUGRENNA_SPAN, 0,
                                KAUGRENNA_PENDING, KAUGRENNA_SPAN, 1};
    tell("bevelled rims", code == KAUGRENNA_DONE && v == 4 && e == 4 && n == 4 &&
                              SAME(en, edges) && SAME(vn + VERTEX_NUMBERS(2), pending) &&
                              SAME(us, CUT_WIRES) && SAME(ls, CUT_LENGTHS));
    free(vn), free(vf), free(en), free(ef), free(us), free(ls);
}

/* A seam from 0 to 1 between the rims, none of whose wires is rebuilt: the wire 4+ 4-. */
static void square_seam(void) {
    const uint32_t given_edges[EDGE_NUMBERS(5)] = {CUT_RIMS, EDGE_MARKS};
    const double given_floats[EDGE_FLOATS(5)] = {0};
    const double given_points[2 * KAUGRENNA_FLOATS_PER_STOP] = {0, 0, 0, 4};
    const uint32_t list[] = {0, 1}, marks[] = {MARK, MARK};
    uint32_t *en = COPY(given_edges), *wires = COPY(CUT_WIRES), *sizes = COPY(CUT_LENGTHS);
    uint32_t *ds = COPY(list), *us = COPY(marks), *ls = COPY(marks);
    double *ef = COPY(given_floats), *fs = COPY(given_points);
    size_t w = MARK, n = MARK, e = MARK;
    int32_t code = kaugrenna_split_boundaries_by_divisor(
        LEND(en, given_edges), LEND(ef, given_floats), LEND(wires, CUT_WIRES),
        LEND(sizes, CUT_LENGTHS), wires, 0, sizes, 0, LEND(ds, list), LEND(fs, given_points),
        LEND(us, marks), LEND(ls, marks), 4, 4, 2, 0, 2, 7, &w, &n, &e);
    const uint32_t edges[] = {CUT_RIMS, 0, 1, KAUGRENNA_SEAM, 7, KAUGRENNA_SQUARE};
    const uint32_t uses[] = {FORWARD(4), REVERSED(4)}, lengths[] = {2, MARK};
    tell("square seam", code == KAUGRENNA_DONE && w == 1 && n == 2 && e == 5 &&
                            SAME(en, edges) && SAME(us, uses) && SAME(ls, lengths));
    free(en), free(ef), free(wires), free(sizes), free(ds), free(fs), free(us), free(ls);
}

int main(void) {
    header();
    k1();
    k1_refused();
    parameters();
    parameters_refused();
    one_cut();
    two_cuts();
    cuts_refused();
    numbers();
    search();
    split();
    join();
    bevelled_rims();
    square_seam();
    return failures != 0;
}
