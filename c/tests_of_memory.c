/* Tests of the calls for C where memory is refused. POLYOVER_MEMORY comes only then, and never in place of a status
 * that is tested first. The linker hands each request of the library for memory to this file. */
#include <stdio.h>
#include <string.h>

#include "polyover.h"

void *__real_malloc(size_t size);
void *__real_realloc(void *old, size_t size);

static int passed = 0;
static int failed = 0;
/* the number of requests that are still granted, the number of refused requests, and whether one alone is refused */
static size_t granted = SIZE_MAX;
static size_t refused = 0;
static int refuses_once = 0;

static int grants(void) {
    if (granted == 0) {
        refused++;
        granted = refuses_once ? SIZE_MAX : 0;
        return 0;
    }
    granted--;
    return 1;
}

void *__wrap_malloc(size_t size) {
    return grants() ? __real_malloc(size) : NULL;
}

void *__wrap_realloc(void *old, size_t size) {
    return grants() ? __real_realloc(old, size) : NULL;
}

static void check(int holds, const char *what, size_t at, int line) {
    passed += holds != 0;
    failed += holds == 0;
    if (!holds) {
        printf("line %d, %zu requests granted: %s\n", line, at, what);
    }
}

#define COUNT(items) (sizeof items / sizeof items[0])

#include "tests_of_memory_calls.h"

/* Asks many points together, with one request more granted each time: the locations are as they are with all. The n-th
 * of 30 squares round (0, 0) reaches 2n units. Point n is (n, 0): on a square where n is even, from 2 to 60; else
 * inside where an odd number of squares reach further. */
static void many_points(void) {
    enum { SQUARES = 30, POINTS = 80 };
    int64_t corners[8 * SQUARES], points[2 * POINTS];
    size_t ends[SQUARES];
    polyover_location locations[POINTS];
    for (size_t n = 0; n < SQUARES; n++) {
        const int64_t r = 2 * (int64_t)(n + 1), square[] = {-r, -r, r, -r, r, r, -r, r};
        memcpy(corners + 8 * n, square, sizeof square);
        ends[n] = 4 * (n + 1);
    }
    for (size_t n = 0; n < POINTS; n++) {
        points[2 * n] = (int64_t)n;
        points[2 * n + 1] = 0;
    }
    const polyover_contours nested = {corners, 8 * SQUARES, ends, SQUARES};
    polyover_exact shape;
    check(polyover_prepare_exact(POLYOVER_EVEN_ODD, &nested, &shape) == POLYOVER_OK, "it is made", 0, __LINE__);
    size_t requests = 0;
    do {
        memset(locations, 77, sizeof locations);
        granted = requests;
        refused = 0;
        const polyover_status status = polyover_exact_locate(&shape, points, 2 * POINTS, locations, POINTS);
        granted = SIZE_MAX;
        check(status == POLYOVER_OK, "it is answered", requests, __LINE__);
        for (size_t n = 0; n < POINTS; n++) {
            const polyover_location is = n % 2 == 0 && n >= 2 && n <= 2 * SQUARES        ? POLYOVER_BOUNDARY
                                         : n < 2 * SQUARES && (SQUARES - n / 2) % 2 == 1 ? POLYOVER_INSIDE
                                                                                         : POLYOVER_OUTSIDE;
            check(locations[n] == is, "a point lies as it should", requests, __LINE__);
        }
        requests++;
    } while (refused > 0);
    check(requests > 4, "memory is taken", requests, __LINE__);
    polyover_exact_free(&shape);
}

/* Returns the status of a call with this number of requests granted, after a check that a refusal changes nothing. */
static polyover_status status_with(call made, const asked *of, size_t requests, int line) {
    static room before, to;
    memset(&before, 77, sizeof before);
    memcpy(&to, &before, sizeof to);
    granted = requests;
    refused = 0;
    polyover_status status = made(of, &to);
    granted = SIZE_MAX;
    check(status == POLYOVER_OK || memcmp(&to, &before, sizeof to) == 0, "nothing changes", requests, line);
    return status;
}

/* Refuses each request in turn, with all later requests, until the call needs no more and answers. */
static void refuse_each(call made, const asked *of, int line) {
    polyover_status status;
    size_t requests = 0;
    do {
        status = status_with(made, of, requests, line);
        check(status == (refused == 0 ? POLYOVER_OK : POLYOVER_MEMORY), "memory is told where it is wanting", requests,
              line);
        requests++;
    } while (refused != 0 && requests < 10000);
    check(status == POLYOVER_OK && requests > 1, "the call is answered", requests, line);
}

#define REFUSE_EACH(made, of) refuse_each(made, of, __LINE__)

/* Checks that the status comes without any request for memory. */
static void tested_first(call made, const asked *of, polyover_status wanted, int line) {
    check(status_with(made, of, 0, line) == wanted, "the status is the one wanted", 0, line);
    check(refused == 0, "no memory is asked for", 0, line);
}

#define TESTED_FIRST(made, of, wanted) tested_first(made, of, wanted, __LINE__)

static const int64_t left[] = {0, 0, 4, 0, 4, 4, 0, 4}, right[] = {2, 2, 6, 2, 6, 6, 2, 6};
static const int64_t beyond[] = {0, 0, 4, 0, 4, INT64_MAX};
#define WIDE ((int64_t)1 << 40)
static const int64_t wide_left[] = {0, 0, 4 * WIDE, 0, 4 * WIDE, 4 * WIDE, 0, 4 * WIDE};
static const int64_t wide_right[] = {2 * WIDE, 2 * WIDE, 6 * WIDE, 2 * WIDE, 6 * WIDE, 6 * WIDE, 2 * WIDE, 6 * WIDE};
static const size_t four[] = {4}, three[] = {3}, falling[] = {4, 3};
/* (edges that cross, and one that lies on the first of them) */
static const int64_t lines[] = {0, 0, 4, 4, 0, 4, 4, 0, 3, 3, 1, 1};
static const int64_t far_edge[] = {0, 0, 4, INT64_MAX};
static const uint8_t sides[] = {0, 1, 1}, no_side[] = {0, 2, 1};
static const polyover_contours far = {beyond, 6, three, 1}, bad = {right, 8, falling, 2};

static void choose_solver(asked *of, polyover_solver solver) {
    of->solver = of->options.solver = of->kept.solver = solver;
}

static asked squares_at(const int64_t *subject, const int64_t *clip) {
    asked of = {.rule = POLYOVER_XOR, .fill = POLYOVER_NON_ZERO, .point_coordinates = 6, .location_room = 3, .cell = 3};
    of.subject = (polyover_contours){subject, 8, four, 1};
    of.clip = (polyover_contours){clip, 8, four, 1};
    of.edges = (polyover_edge_list){lines, 12, sides, 3};
    return of;
}

static asked squares(void) {
    return squares_at(left, right);
}

static void answered(void) {
    const call all[] = {overlay, hierarchy, simplify, slice, clip, relate, edges, locate, resolved, overlay_result,
                        hierarchy_result, simplify_result, slice_result, clip_result, edges_result, prepare,
                        relate_one, tiles_result, graph_overlay, graph_hierarchy, graph_edges, slice_custom_result,
                        simplify_shape_result, relate_exact, trace, prepare_exact, vectors_result,
                        relate_one_exact};
    const call with_more[] = {overlay, hierarchy, simplify, slice, clip, relate, edges, overlay_result,
                              hierarchy_result, simplify_result, slice_result, clip_result, edges_result,
                              relate_one};
    asked of = squares(), wide = squares_at(wide_left, wide_right);
    for (size_t at = 0; at < COUNT(all); at++) {
        choose_solver(&of, POLYOVER_SNAPPED);
        REFUSE_EACH(all[at], &of);
        choose_solver(&of, POLYOVER_ROUNDS);
        REFUSE_EACH(all[at], &of);
    }
    /* (coordinates beyond the range of 32 bits; and where memory is refused for coordinates of 32 bits alone) */
    for (size_t at = 0; at < COUNT(with_more); at++) {
        choose_solver(&wide, POLYOVER_SNAPPED);
        REFUSE_EACH(with_more[at], &wide);
        refuses_once = 1;
        check(status_with(with_more[at], &of, 0, __LINE__) == POLYOVER_OK && refused == 1, "it is answered at 64 bits",
              0, __LINE__);
        refuses_once = 0;
    }
}

/* Tests numbers without a meaning. Each call also has contours with faults, which are tested later. */
static void numbers(void) {
    asked of = squares();
    of.subject = bad;
    of.clip = far;
    of.options.keep = 4;
    TESTED_FIRST(overlay, &of, POLYOVER_BAD_OPTION);
    TESTED_FIRST(hierarchy, &of, POLYOVER_BAD_OPTION);
    TESTED_FIRST(simplify, &of, POLYOVER_BAD_OPTION);
    of.kept.invert = 2;
    TESTED_FIRST(clip, &of, POLYOVER_BAD_OPTION);
    of.options.keep = of.kept.invert = 0;
    choose_solver(&of, 2);
    const call by_solver[] = {overlay, hierarchy, simplify, slice, clip, relate, edges, overlay_result,
                              hierarchy_result, simplify_result, slice_result, clip_result, edges_result, prepare,
                              relate_one, tiles_result, graph_overlay, slice_custom_result, simplify_shape_result,
                              vectors_result};
    for (size_t at = 0; at < COUNT(by_solver); at++) {
        TESTED_FIRST(by_solver[at], &of, POLYOVER_BAD_OPTION);
    }
    TESTED_FIRST(relate_unknown, &of, POLYOVER_BAD_OPTION);
    of.fill = 4;
    const call filled[] = {overlay, hierarchy, simplify, slice, clip, relate, edges, overlay_result,
                           hierarchy_result, simplify_result, slice_result, clip_result, edges_result, prepare,
                           relate_one, tiles_result, graph_overlay, slice_custom_result, simplify_shape_result,
                           relate_exact, prepare_exact, vectors_result, relate_one_exact, relate_unknown};
    for (size_t at = 0; at < COUNT(filled); at++) {
        TESTED_FIRST(filled[at], &of, POLYOVER_BAD_FILL);
    }
    of.rule = 7;
    TESTED_FIRST(overlay, &of, POLYOVER_BAD_RULE);
    TESTED_FIRST(hierarchy, &of, POLYOVER_BAD_RULE);
}

/* Tests contours with faults: those of the subject come first. */
static void faults(void) {
    const call one[] = {simplify, locate, resolved, simplify_result, prepare, tiles_result, simplify_shape_result,
                        prepare_exact};
    const call two[] = {overlay, hierarchy, slice, clip, relate, edges, overlay_result, hierarchy_result,
                        slice_result, clip_result, edges_result, relate_one, graph_overlay, slice_custom_result,
                        relate_exact, vectors_result, relate_one_exact};
    asked of = squares();
    of.clip = bad;
    for (size_t at = 0; at < COUNT(two); at++) {
        TESTED_FIRST(two[at], &of, POLYOVER_BAD_ENDS);
    }
    of.clip = far;
    for (size_t at = 0; at < COUNT(two); at++) {
        TESTED_FIRST(two[at], &of, POLYOVER_OUT_OF_RANGE);
    }
    of.subject = bad;
    for (size_t at = 0; at < COUNT(two); at++) {
        TESTED_FIRST(two[at], &of, POLYOVER_BAD_ENDS);
    }
    for (size_t at = 0; at < COUNT(one); at++) {
        TESTED_FIRST(one[at], &of, POLYOVER_BAD_ENDS);
    }
    of.subject = far;
    for (size_t at = 0; at < COUNT(one); at++) {
        TESTED_FIRST(one[at], &of, POLYOVER_OUT_OF_RANGE);
    }
}

static void points(void) {
    asked of = squares();
    of.location_room = 2;
    TESTED_FIRST(locate, &of, POLYOVER_TOO_SMALL);
    of.point_coordinates = 5;
    TESTED_FIRST(locate, &of, POLYOVER_BAD_ENDS);
}

/* Tests cells of no size, and more than a thousand lines. */
static void grids(void) {
    asked of = squares(), wide = squares_at(wide_left, wide_right);
    of.cell = 0;
    TESTED_FIRST(tiles_result, &of, POLYOVER_BAD_OPTION);
    TESTED_FIRST(tiles_result, &wide, POLYOVER_BAD_OPTION);
    wide.cell = 3 * WIDE;
    REFUSE_EACH(tiles_result, &wide);
}

/* Tests edges with faults, from the last one tested to the first. */
static void edge_lists(void) {
    asked of = squares();
    of.edges = (polyover_edge_list){far_edge, 4, sides, 1};
    TESTED_FIRST(trace, &of, POLYOVER_OUT_OF_RANGE);
    of.edges.side_count = 2;
    TESTED_FIRST(trace, &of, POLYOVER_BAD_ENDS);
    of.edges.sides = no_side;
    TESTED_FIRST(trace, &of, POLYOVER_BAD_OPTION);
    of.fill = 4;
    TESTED_FIRST(trace, &of, POLYOVER_BAD_FILL);
    of.rule = 8;
    TESTED_FIRST(trace, &of, POLYOVER_BAD_RULE);
}

int main(void) {
    answered();
    numbers();
    faults();
    points();
    many_points();
    grids();
    edge_lists();
    printf("c, memory refused: %d passed, %d failed\n", passed, failed);
    return failed == 0 ? 0 : 1;
}
