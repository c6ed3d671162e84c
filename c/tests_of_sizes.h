/* The tests at one width of calls with many edges: NUMBER is the type of coordinates, LIMIT the end of their range,
 * CONTOURS, OPTIONS, RESULT, NAME(call) and TEST(what) the names at that width. */

#include "tests_of_made_sizes.h"

static int TEST(is_rectangle)(const NUMBER *at, const size_t *low, const size_t *high) {
    return at[0] == (NUMBER)low[0] && at[1] == (NUMBER)high[1] && at[2] == (NUMBER)low[0] &&
           at[3] == (NUMBER)low[1] && at[4] == (NUMBER)high[0] && at[5] == (NUMBER)low[1] &&
           at[6] == (NUMBER)high[0] && at[7] == (NUMBER)high[1];
}

/* Whether the answer has a shape with one contour in each cell: its square, from the upper left corner on. */
static int TEST(are_squares)(const RESULT *result, size_t side, size_t cell, size_t low, size_t high) {
    size_t count = side * side;
    int same = result->coordinate_count == 8 * count && result->contour_count == count && result->shape_count == count;
    for (size_t i = 0; same && i < side; i++) {
        for (size_t j = 0; same && j < side; j++) {
            const size_t from[] = {cell * i + low, cell * j + low}, to[] = {cell * i + high, cell * j + high};
            size_t at = side * i + j;
            same = TEST(is_rectangle)(result->coordinates + 8 * at, from, to) &&
                   result->contour_ends[at] == 4 * (at + 1) && result->shape_ends[at] == at + 1;
        }
    }
    return same;
}

/* 12,544 squares, and as many others, of which each meets one of them. */
#define SIDE 112

static void TEST(many_squares)(polyover_solver solver) {
    TEST(made) subject = TEST(none)(), clip = TEST(none)();
    TEST(squares)(&subject, SIDE, 4, 0, 2);
    TEST(squares)(&clip, SIDE, 4, 1, 3);
    const TEST(question) of = {POLYOVER_INTERSECT, POLYOVER_EVEN_ODD, solver, TEST(given)(&subject),
                               TEST(given)(&clip)};
    RESULT result = TEST(answered)(&of, TEST(overlay), TEST(overlay_in_arrays));
    CHECK(TEST(are_squares)(&result, SIDE, 4, 1, 2));
    NAME(polyover_free)(&result);
    result = TEST(answered)(&of, TEST(simplify), TEST(simplify_in_arrays));
    CHECK(TEST(are_squares)(&result, SIDE, 4, 0, 2));
    NAME(polyover_free)(&result);
    polyover_relations relations = 77;
    CHECK(NAME(polyover_relate)(of.fill, solver, &of.subject, &of.clip, &relations) == POLYOVER_OK);
    CHECK(relations == (POLYOVER_INTERSECTS | POLYOVER_INTERIORS_INTERSECT));
    TEST(let_go)(&subject);
    TEST(let_go)(&clip);
}

/* The exact relations of both, told of all at once and of each alone. */
static polyover_relations TEST(exactly)(const TEST(made) *subject, const TEST(made) *clip) {
    const CONTOURS first = TEST(given)(subject), second = TEST(given)(clip);
    polyover_relations relations = 77;
    CHECK(NAME(polyover_relate_exact)(POLYOVER_NON_ZERO, &first, &second, &relations) == POLYOVER_OK);
    for (polyover_relations bit = POLYOVER_INTERSECTS; bit <= POLYOVER_COVERS; bit *= 2) {
        uint32_t holds = 77;
        CHECK(NAME(polyover_relate_one_exact)(bit, POLYOVER_NON_ZERO, &first, &second, &holds) == POLYOVER_OK);
        CHECK(holds == ((relations & bit) != 0));
    }
    return relations;
}

/* A triangle that is thin, level or upright, from 0 across all others. */
static void TEST(needle)(TEST(made) *it, size_t at, int is_level) {
    const size_t along[] = {0, 1000, 0}, across[] = {4 * at, 4 * at + 1, 4 * at + 2};
    for (size_t corner = 0; corner < 3; corner++) {
        TEST(point)(it, is_level ? along[corner] : across[corner], is_level ? across[corner] : along[corner]);
    }
    TEST(end)(it);
}

/* 200 needles across 200 others, which meet in 160,000 points; and 12,544 squares beside as many, which touch them. */
static void TEST(many_exactly)(void) {
    TEST(made) subject = TEST(none)(), clip = TEST(none)();
    for (size_t at = 0; at < 200; at++) {
        TEST(needle)(&subject, at, 1);
        TEST(needle)(&clip, at, 0);
    }
    CHECK(TEST(exactly)(&subject, &clip) == (POLYOVER_INTERSECTS | POLYOVER_INTERIORS_INTERSECT));
    CHECK(TEST(exactly)(&clip, &clip) ==
          (POLYOVER_INTERSECTS | POLYOVER_INTERIORS_INTERSECT | POLYOVER_WITHIN | POLYOVER_COVERS));
    subject.count = subject.end_count = clip.count = clip.end_count = 0;
    TEST(squares)(&subject, SIDE, 4, 0, 2);
    TEST(squares)(&clip, SIDE, 4, 2, 4);
    CHECK(TEST(exactly)(&subject, &clip) ==
          (POLYOVER_INTERSECTS | POLYOVER_TOUCHES | POLYOVER_POINT_INTERSECTS));
    TEST(let_go)(&subject);
    TEST(let_go)(&clip);
}

/* A square in a hole in each of 4,225 squares: of each column the outer ones come first. */
static void TEST(many_islands)(polyover_solver solver) {
    const size_t side = 65, count = side * side;
    TEST(made) subject = TEST(none)();
    const CONTOURS empty = {NULL, 0, NULL, 0};
    TEST(squares)(&subject, side, 8, 0, 6);
    TEST(squares)(&subject, side, 8, 1, 5);
    TEST(squares)(&subject, side, 8, 2, 4);
    const TEST(question) of = {POLYOVER_SUBJECT, POLYOVER_EVEN_ODD, solver, TEST(given)(&subject), empty};
    RESULT result = TEST(answered)(&of, TEST(hierarchy), TEST(hierarchy_in_arrays));
    CHECK(result.contour_count == 3 * count && result.shape_count == 2 * count && result.link_count == count);
    int same = result.link_count == count;
    for (size_t at = 0; same && at < count; at++) {
        size_t i = at / side, j = at % side;
        const polyover_link *link = &result.links[at];
        same = link->parent_shape == 2 * side * i + j && link->parent_contour == 3 * side * i + 2 * j + 1 &&
               link->child_shape == 2 * side * i + side + j;
    }
    CHECK(same);
    NAME(polyover_free)(&result);
    TEST(let_go)(&subject);
}

/* The edges of the squares, each with the side that is filled: of a column first those that begin on its left. */
static void TEST(many_edges)(polyover_solver solver) {
    TEST(made) subject = TEST(none)();
    const CONTOURS empty = {NULL, 0, NULL, 0};
    TEST(squares)(&subject, SIDE, 4, 0, 2);
    const TEST(question) of = {POLYOVER_SUBJECT, POLYOVER_NON_ZERO, solver, TEST(given)(&subject), empty};
    RESULT result = TEST(answered)(&of, TEST(edges), TEST(edges_in_arrays));
    int same = result.fill_count == 4 * SIDE * SIDE && result.coordinate_count == 16 * SIDE * SIDE;
    for (size_t at = 0; same && at < 4 * SIDE * SIDE; at++) {
        size_t i = at / (4 * SIDE), in_column = at % (4 * SIDE);
        int is_left = in_column < 3 * SIDE;
        NUMBER x = (NUMBER)(4 * i), y = (NUMBER)(4 * (is_left ? in_column / 3 : in_column - 3 * SIDE));
        const NUMBER edges[][4] = {
            {x, y, x, y + 2}, {x, y, x + 2, y}, {x, y + 2, x + 2, y + 2}, {x + 2, y, x + 2, y + 2}};
        const uint8_t fills[] = {POLYOVER_SUBJECT_RIGHT, POLYOVER_SUBJECT_LEFT, POLYOVER_SUBJECT_RIGHT,
                                 POLYOVER_SUBJECT_LEFT};
        size_t which = is_left ? in_column % 3 : 3;
        same = memcmp(result.coordinates + 4 * at, edges[which], sizeof edges[which]) == 0 &&
               result.fills[at] == fills[which];
    }
    CHECK(same);
    NAME(polyover_free)(&result);
    TEST(let_go)(&subject);
}

/* Squares that each lie in another: a step has both sides of the clip filled, and the left one of the subject. */
static void TEST(many_vectors)(polyover_solver solver) {
    TEST(made) subject = TEST(none)(), clip = TEST(none)();
    TEST(squares)(&subject, SIDE, 4, 1, 2);
    TEST(squares)(&clip, SIDE, 4, 0, 3);
    const TEST(question) of = {POLYOVER_INTERSECT, POLYOVER_NON_ZERO, solver, TEST(given)(&subject),
                               TEST(given)(&clip)};
    RESULT result;
    CHECK(TEST(vectors)(&of, &result) == POLYOVER_OK);
    int same = result.shape_count == SIDE * SIDE && result.contour_count == SIDE * SIDE &&
               result.fill_count == 4 * SIDE * SIDE && result.coordinate_count == 8 * SIDE * SIDE;
    for (size_t at = 0; same && at < result.fill_count; at++) {
        same = result.fills[at] == (POLYOVER_SUBJECT_LEFT | POLYOVER_CLIP_LEFT | POLYOVER_CLIP_RIGHT);
    }
    for (size_t at = 0; same && at < result.contour_count; at++) {
        same = result.contour_ends[at] == 4 * (at + 1) && result.shape_ends[at] == at + 1;
    }
    CHECK(same);
    NAME(polyover_free)(&result);
    TEST(let_go)(&subject);
    TEST(let_go)(&clip);
}

/* Each square is cut in two by a line through its column, and leaves a part of a line through its row. */
static void TEST(many_lines)(polyover_solver solver) {
    TEST(made) shape = TEST(none)(), columns = TEST(none)(), rows = TEST(none)();
    TEST(squares)(&shape, SIDE, 4, 1, 3);
    for (size_t at = 0; at < SIDE; at++) {
        TEST(point)(&columns, 4 * at + 2, 0);
        TEST(point)(&columns, 4 * at + 2, 4 * SIDE);
        TEST(end)(&columns);
        TEST(point)(&rows, 0, 4 * at + 2);
        TEST(point)(&rows, 4 * SIDE, 4 * at + 2);
        TEST(end)(&rows);
    }
    TEST(question) of = {0, POLYOVER_NON_ZERO, solver, TEST(given)(&shape), TEST(given)(&columns)};
    RESULT result = TEST(answered)(&of, TEST(slice), TEST(slice_in_arrays));
    int same = result.shape_count == 2 * SIDE * SIDE && result.contour_count == result.shape_count;
    for (size_t at = 0; same && at < result.contour_count; at++) {
        const NUMBER *it = result.coordinates + 8 * at;
        same = result.contour_ends[at] == 4 * (at + 1) && result.shape_ends[at] == at + 1 &&
               (it[4] - it[0]) * (it[7] - it[3]) - (it[6] - it[2]) * (it[5] - it[1]) == 4;
    }
    CHECK(same);
    NAME(polyover_free)(&result);
    of.clip = TEST(given)(&rows);
    result = TEST(answered)(&of, TEST(clip), TEST(clip_in_arrays));
    same = result.contour_count == SIDE * SIDE && result.coordinate_count == 4 * SIDE * SIDE;
    for (size_t at = 0; same && at < result.contour_count; at++) {
        NUMBER x = (NUMBER)(4 * (at / SIDE)), y = (NUMBER)(4 * (at % SIDE));
        const NUMBER part[] = {x + 1, y + 2, x + 3, y + 2};
        same = result.contour_ends[at] == 2 * (at + 1) && memcmp(result.coordinates + 4 * at, part, sizeof part) == 0;
    }
    CHECK(same);
    NAME(polyover_free)(&result);
    TEST(let_go)(&shape);
    TEST(let_go)(&columns);
    TEST(let_go)(&rows);
}

/* 4,225 squares, of which each is cut in four. */
static void TEST(many_tiles)(polyover_solver solver) {
    const size_t side = 65;
    TEST(made) shape = TEST(none)();
    TEST(squares)(&shape, side, 4, 1, 3);
    const CONTOURS given = TEST(given)(&shape);
    RESULT result;
    CHECK(NAME(polyover_tiles_result)(POLYOVER_NON_ZERO, solver, &given, 2, 2, &result) == POLYOVER_OK);
    int same = result.shape_count == 4 * side * side && result.contour_count == result.shape_count &&
               result.coordinate_count == 8 * result.contour_count;
    for (size_t at = 0; same && at < result.contour_count; at++) {
        const NUMBER *it = result.coordinates + 8 * at;
        same = result.contour_ends[at] == 4 * (at + 1) && result.shape_ends[at] == at + 1 &&
               (it[4] - it[0]) * (it[7] - it[3]) - (it[6] - it[2]) * (it[5] - it[1]) == 2;
    }
    CHECK(same);
    NAME(polyover_free)(&result);
    TEST(let_go)(&shape);
}

/* One contour of 50,000 points, counter-clockwise: a level edge, and teeth above it. */
static void TEST(one_contour)(polyover_solver solver) {
    const size_t count = 49998;
    TEST(made) teeth = TEST(none)();
    TEST(point)(&teeth, 0, 0);
    TEST(point)(&teeth, count - 1, 0);
    for (size_t at = count; at-- > 0;) {
        TEST(point)(&teeth, at, 10 + at % 2);
    }
    TEST(end)(&teeth);
    const CONTOURS empty = {NULL, 0, NULL, 0};
    const TEST(question) of = {0, POLYOVER_NON_ZERO, solver, TEST(given)(&teeth), empty};
    RESULT result = TEST(answered)(&of, TEST(simplify), TEST(simplify_in_arrays));
    CHECK(result.shape_count == 1 && result.contour_count == 1 && result.coordinate_count == teeth.count);
    CHECK(memcmp(result.coordinates, teeth.coordinates, teeth.count * sizeof(NUMBER)) == 0);
    NAME(polyover_free)(&result);
    CHECK(NAME(polyover_resolved)(&of.subject) == POLYOVER_OK);
    /* (the last tooth reaches through the level edge) */
    teeth.coordinates[teeth.count - 3] = -1;
    CHECK(NAME(polyover_resolved)(&of.subject) == POLYOVER_NOT_RESOLVED);
    CHECK(NAME(polyover_in_range)(teeth.coordinates, teeth.count) == 1);
    teeth.coordinates[teeth.count - 1] = -LIMIT - 1;
    CHECK(NAME(polyover_in_range)(teeth.coordinates, teeth.count) == 0);
    TEST(let_go)(&teeth);
}

/* Three points of each cell: inside its square, on an edge of it and beside it. */
static void TEST(many_points)(void) {
    const size_t count = 3 * SIDE * SIDE;
    TEST(made) shape = TEST(none)(), points = TEST(none)();
    TEST(squares)(&shape, SIDE, 4, 0, 2);
    for (size_t at = 0; at < SIDE * SIDE; at++) {
        for (size_t place = 1; place <= 3; place++) {
            TEST(point)(&points, 4 * (at / SIDE) + place, 4 * (at % SIDE) + 1);
        }
    }
    const CONTOURS given = TEST(given)(&shape);
    const uint8_t wanted[] = {POLYOVER_INSIDE, POLYOVER_BOUNDARY, POLYOVER_OUTSIDE};
    size_t unresolved = 77;
    CHECK(NAME(polyover_resolved)(&given) == POLYOVER_OK);
    CHECK(NAME(polyover_locate)(&given, points.coordinates, points.count, TEST(fills), count, &unresolved) ==
          POLYOVER_OK);
    int same = unresolved == 77;
    for (size_t at = 0; same && at < count; at++) {
        same = TEST(fills)[at] == wanted[at % 3];
    }
    CHECK(same);
    TEST(let_go)(&shape);
    TEST(let_go)(&points);
}

#include "tests_of_limit_sizes.h"

#include "tests_of_prepared_sizes.h"

#include "tests_of_graph_sizes.h"

#include "tests_of_traced_sizes.h"

static void TEST(sizes)(void) {
    TEST(many_points)();
    TEST(many_exactly)();
    for (polyover_solver solver = POLYOVER_SNAPPED; solver <= POLYOVER_ROUNDS; solver++) {
        TEST(many_squares)(solver);
        TEST(many_islands)(solver);
        TEST(many_edges)(solver);
        TEST(many_vectors)(solver);
        TEST(many_lines)(solver);
        TEST(many_tiles)(solver);
        TEST(one_contour)(solver);
        TEST(limits)(solver);
        TEST(prepared_sizes)(solver);
        TEST(graph_sizes)(solver);
        TEST(traced_sizes)(solver);
    }
}

#undef SIDE
