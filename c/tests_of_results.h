/* The tests of results at one width; the names are those of tests_of_width.h, and RESULT is the type of results. */

/* Arrays for any answer here. */
typedef struct {
    NUMBER coordinates[256];
    size_t contour_ends[32];
    size_t shape_ends[16];
    polyover_link links[8];
    uint8_t fills[64];
    polyover_counts counts;
    polyover_path_counts path_counts;
    size_t count;
} TEST(answer);

/* The arguments of a call. */
typedef struct {
    polyover_rule rule;
    polyover_fill fill;
    OPTIONS options;
    polyover_clip_options kept;
    CONTOURS subject;
    CONTOURS clip;
} TEST(question);

static int TEST(are_same)(const void *held, size_t held_count, const void *items, size_t count, size_t size) {
    return held_count == count && (count == 0 || memcmp(held, items, count * size) == 0);
}

static int TEST(holds)(const RESULT *result, const TEST(answer) *to, size_t coordinates, size_t contours,
                       size_t shapes, size_t links, size_t fills) {
    return TEST(are_same)(result->coordinates, result->coordinate_count, to->coordinates, coordinates,
                          sizeof(NUMBER)) &&
           TEST(are_same)(result->contour_ends, result->contour_count, to->contour_ends, contours, sizeof(size_t)) &&
           TEST(are_same)(result->shape_ends, result->shape_count, to->shape_ends, shapes, sizeof(size_t)) &&
           TEST(are_same)(result->links, result->link_count, to->links, links, sizeof(polyover_link)) &&
           TEST(are_same)(result->fills, result->fill_count, to->fills, fills, 1);
}

static int TEST(holds_nothing)(const RESULT *result) {
    return result->coordinate_count == 0 && result->contour_count == 0 && result->shape_count == 0 &&
           result->link_count == 0 && result->fill_count == 0;
}

/* A result with arbitrary content, as on the stack. */
static RESULT TEST(some_result)(void) {
    RESULT result;
    memset(&result, 77, sizeof result);
    return result;
}

static void TEST(freed)(RESULT *result) {
    NAME(polyover_free)(result);
    CHECK(TEST(holds_nothing)(result));
    CHECK(result->coordinates == NULL && result->contour_ends == NULL && result->shape_ends == NULL);
    CHECK(result->links == NULL && result->fills == NULL);
    NAME(polyover_free)(result);
}

/* Each of these makes a call with arrays and the call with a result, and compares the answers. */
static void TEST(overlay_twice)(const TEST(question) *of) {
    TEST(answer) to;
    RESULT result = TEST(some_result)();
    CHECK(NAME(polyover_overlay)(of->rule, of->fill, &of->options, &of->subject, &of->clip, to.coordinates, 256,
                                 to.contour_ends, 32, to.shape_ends, 16, &to.counts) == POLYOVER_OK);
    CHECK(NAME(polyover_overlay_result)(of->rule, of->fill, &of->options, &of->subject, &of->clip, &result) ==
          POLYOVER_OK);
    CHECK(TEST(holds)(&result, &to, to.counts.coordinates, to.counts.contours, to.counts.shapes, 0, 0));
    TEST(freed)(&result);
}

static void TEST(simplified_twice)(const TEST(question) *of) {
    TEST(answer) to;
    RESULT result = TEST(some_result)();
    CHECK(NAME(polyover_simplify)(of->fill, &of->options, &of->subject, to.coordinates, 256, to.contour_ends, 32,
                                  to.shape_ends, 16, &to.counts) == POLYOVER_OK);
    CHECK(NAME(polyover_simplify_result)(of->fill, &of->options, &of->subject, &result) == POLYOVER_OK);
    CHECK(TEST(holds)(&result, &to, to.counts.coordinates, to.counts.contours, to.counts.shapes, 0, 0));
    TEST(freed)(&result);
}

static void TEST(hierarchy_twice)(const TEST(question) *of) {
    TEST(answer) to;
    RESULT result = TEST(some_result)();
    CHECK(NAME(polyover_hierarchy)(of->rule, of->fill, &of->options, &of->subject, &of->clip, to.coordinates, 256,
                                   to.contour_ends, 32, to.shape_ends, 16, to.links, 8, &to.counts,
                                   &to.count) == POLYOVER_OK);
    CHECK(NAME(polyover_hierarchy_result)(of->rule, of->fill, &of->options, &of->subject, &of->clip, &result) ==
          POLYOVER_OK);
    CHECK(TEST(holds)(&result, &to, to.counts.coordinates, to.counts.contours, to.counts.shapes, to.count, 0));
    TEST(freed)(&result);
}

static void TEST(sliced_twice)(const TEST(question) *of) {
    TEST(answer) to;
    RESULT result = TEST(some_result)();
    CHECK(NAME(polyover_slice)(of->fill, POLYOVER_SNAPPED, &of->subject, &of->clip, to.coordinates, 256,
                               to.contour_ends, 32, to.shape_ends, 16, &to.counts) == POLYOVER_OK);
    CHECK(NAME(polyover_slice_result)(of->fill, POLYOVER_SNAPPED, &of->subject, &of->clip, &result) == POLYOVER_OK);
    CHECK(TEST(holds)(&result, &to, to.counts.coordinates, to.counts.contours, to.counts.shapes, 0, 0));
    TEST(freed)(&result);
}

static void TEST(clipped_twice)(const TEST(question) *of) {
    TEST(answer) to;
    RESULT result = TEST(some_result)();
    CHECK(NAME(polyover_clip)(of->fill, &of->kept, &of->subject, &of->clip, to.coordinates, 256, to.contour_ends, 32,
                              &to.path_counts) == POLYOVER_OK);
    CHECK(NAME(polyover_clip_result)(of->fill, &of->kept, &of->subject, &of->clip, &result) == POLYOVER_OK);
    CHECK(TEST(holds)(&result, &to, to.path_counts.coordinates, to.path_counts.paths, 0, 0, 0));
    TEST(freed)(&result);
}

static void TEST(edges_twice)(const TEST(question) *of) {
    TEST(answer) to;
    RESULT result = TEST(some_result)();
    CHECK(NAME(polyover_edges)(of->fill, POLYOVER_SNAPPED, &of->subject, &of->clip, to.coordinates, 256, to.fills, 64,
                               &to.count) == POLYOVER_OK);
    CHECK(NAME(polyover_edges_result)(of->fill, POLYOVER_SNAPPED, &of->subject, &of->clip, &result) == POLYOVER_OK);
    CHECK(TEST(holds)(&result, &to, 4 * to.count, 0, 0, 0, to.count));
    TEST(freed)(&result);
}

static void TEST(all_twice)(const TEST(question) *of) {
    TEST(overlay_twice)(of);
    TEST(simplified_twice)(of);
    TEST(hierarchy_twice)(of);
    TEST(sliced_twice)(of);
    TEST(clipped_twice)(of);
    TEST(edges_twice)(of);
}

static void TEST(results)(void) {
    const NUMBER nested[] = {0, 100, 10, 90, 20, 80, 30, 70, 40, 60};
    const size_t four[] = {4};
    NUMBER coordinates[40];
    size_t ends[5];
    TEST(question) of = {.rule = POLYOVER_XOR, .fill = POLYOVER_NON_ZERO};
    of.subject = (CONTOURS){TEST(subject_at), 8, four, 1};
    of.clip = (CONTOURS){TEST(clip_at), 8, four, 1};
    TEST(all_twice)(&of);
    of.fill = POLYOVER_NEGATIVE;
    TEST(all_twice)(&of);
    /* (five nested squares, filled by turns, have two links) */
    TEST(squares_at)(coordinates, ends, nested, 5);
    of = (TEST(question)){.rule = POLYOVER_SUBJECT, .fill = POLYOVER_EVEN_ODD, .kept = {.boundary = 1}};
    of.options.direction = of.options.keep = 1;
    of.subject = (CONTOURS){coordinates, 40, ends, 5};
    TEST(all_twice)(&of);
    of.clip = (CONTOURS){TEST(clip_at), 8, four, 1};
    TEST(all_twice)(&of);
    RESULT result = TEST(some_result)();
    CHECK(NAME(polyover_hierarchy_result)(of.rule, of.fill, &of.options, &of.subject, &of.clip, &result) ==
          POLYOVER_OK);
    CHECK(result.coordinate_count == 40 && result.contour_count == 5 && result.shape_count == 3);
    CHECK(result.link_count == 2 && TEST(is_link)(&result.links[1], 1, 3, 2) && result.fill_count == 0);
    TEST(freed)(&result);
    of.subject = of.clip = (CONTOURS){NULL, 0, NULL, 0};
    TEST(all_twice)(&of);
}

/* Null options are the defaults; each fill bit belongs to one side. */
static void TEST(results_by_default)(void) {
    const size_t four[] = {4}, two[] = {2};
    const NUMBER across[] = {-1, 2, 5, 2};
    const CONTOURS subject = {TEST(subject_at), 8, four, 1}, clip = {TEST(clip_at), 8, four, 1};
    const CONTOURS line = {across, 4, two, 1}, none = {NULL, 0, NULL, 0};
    const NUMBER common[] = {2, 4, 2, 2, 4, 2, 4, 4}, inside[] = {0, 2, 4, 2};
    RESULT result;
    CHECK(NAME(polyover_overlay_result)(POLYOVER_INTERSECT, POLYOVER_NON_ZERO, NULL, &subject, &clip, &result) ==
          POLYOVER_OK);
    CHECK(TEST(are_same)(result.coordinates, result.coordinate_count, common, 8, sizeof(NUMBER)));
    CHECK(result.contour_count == 1 && result.contour_ends[0] == 4);
    CHECK(result.shape_count == 1 && result.shape_ends[0] == 1 && result.link_count == 0 && result.fill_count == 0);
    TEST(freed)(&result);
    CHECK(NAME(polyover_simplify_result)(POLYOVER_NON_ZERO, NULL, &subject, &result) == POLYOVER_OK);
    CHECK(TEST(are_same)(result.coordinates, result.coordinate_count, TEST(subject_at), 8, sizeof(NUMBER)));
    TEST(freed)(&result);
    CHECK(NAME(polyover_overlay_result)(POLYOVER_UNION, POLYOVER_NON_ZERO, NULL, &subject, NULL, &result) ==
          POLYOVER_OK);
    CHECK(result.shape_count == 1 && result.contour_count == 1);
    NAME(polyover_free)(&result);
    CHECK(NAME(polyover_hierarchy_result)(POLYOVER_INTERSECT, POLYOVER_NON_ZERO, NULL, &subject, NULL, &result) ==
          POLYOVER_OK);
    CHECK(result.shape_count == 0 && result.link_count == 0);
    NAME(polyover_free)(&result);
    CHECK(NAME(polyover_hierarchy_result)(POLYOVER_INTERSECT, POLYOVER_NON_ZERO, NULL, &subject, &clip, &result) ==
          POLYOVER_OK);
    CHECK(TEST(are_same)(result.coordinates, result.coordinate_count, common, 8, sizeof(NUMBER)));
    TEST(freed)(&result);
    CHECK(NAME(polyover_clip_result)(POLYOVER_NON_ZERO, NULL, &subject, &line, &result) == POLYOVER_OK);
    CHECK(TEST(are_same)(result.coordinates, result.coordinate_count, inside, 4, sizeof(NUMBER)));
    CHECK(result.contour_count == 1 && result.contour_ends[0] == 2 && result.shape_count == 0);
    TEST(freed)(&result);
    CHECK(NAME(polyover_edges_result)(POLYOVER_NON_ZERO, POLYOVER_SNAPPED, &subject, &none, &result) == POLYOVER_OK);
    CHECK(result.coordinate_count == 16 && result.contour_count == 0 && result.shape_count == 0);
    CHECK(TEST(are_same)(result.fills, result.fill_count, (uint8_t[]){2, 1, 2, 1}, 4, 1));
    TEST(freed)(&result);
    CHECK(NAME(polyover_edges_result)(POLYOVER_NON_ZERO, POLYOVER_SNAPPED, &subject, NULL, &result) == POLYOVER_OK);
    CHECK(TEST(are_same)(result.fills, result.fill_count, (uint8_t[]){2, 1, 2, 1}, 4, 1));
    TEST(freed)(&result);
    NAME(polyover_free)(NULL);
}

/* After a refusal a result has no item. */
#define REFUSED(wanted, call, ...)                                                                                    \
    do {                                                                                                              \
        RESULT result = TEST(some_result)();                                                                          \
        CHECK(NAME(call)(__VA_ARGS__, &result) == wanted);                                                            \
        CHECK(TEST(holds_nothing)(&result));                                                                          \
        TEST(freed)(&result);                                                                                         \
    } while (0)

static void TEST(results_refused)(void) {
    const OPTIONS bad_option = {.keep = 4}, by_default = {0};
    const polyover_clip_options bad_kept = {.boundary = 2}, kept = {0};
    const NUMBER beyond[] = {0, 0, LIMIT, 0, -LIMIT - 1, 4, 0, 4};
    const size_t four[] = {4}, falling[] = {4, 3};
    const CONTOURS square = {TEST(subject_at), 8, four, 1}, bad = {TEST(subject_at), 8, falling, 2};
    const CONTOURS out = {beyond, 8, four, 1};
    REFUSED(POLYOVER_BAD_RULE, polyover_overlay_result, 7, 4, &bad_option, &bad, &out);
    REFUSED(POLYOVER_BAD_RULE, polyover_hierarchy_result, 7, 4, &bad_option, &bad, &out);
    REFUSED(POLYOVER_BAD_FILL, polyover_overlay_result, 6, 4, &bad_option, &bad, &out);
    REFUSED(POLYOVER_BAD_FILL, polyover_hierarchy_result, 6, 4, &bad_option, &bad, &out);
    REFUSED(POLYOVER_BAD_FILL, polyover_simplify_result, 4, &bad_option, &bad);
    REFUSED(POLYOVER_BAD_FILL, polyover_slice_result, 4, 2, &bad, &out);
    REFUSED(POLYOVER_BAD_FILL, polyover_clip_result, 4, &bad_kept, &bad, &out);
    REFUSED(POLYOVER_BAD_FILL, polyover_edges_result, 4, 2, &bad, &out);
    REFUSED(POLYOVER_BAD_OPTION, polyover_overlay_result, 6, 3, &bad_option, &bad, &out);
    REFUSED(POLYOVER_BAD_OPTION, polyover_hierarchy_result, 6, 3, &bad_option, &bad, &out);
    REFUSED(POLYOVER_BAD_OPTION, polyover_simplify_result, 3, &bad_option, &bad);
    REFUSED(POLYOVER_BAD_OPTION, polyover_slice_result, 3, 2, &bad, &out);
    REFUSED(POLYOVER_BAD_OPTION, polyover_clip_result, 3, &bad_kept, &bad, &out);
    REFUSED(POLYOVER_BAD_OPTION, polyover_edges_result, 3, 2, &bad, &out);
    REFUSED(POLYOVER_BAD_ENDS, polyover_overlay_result, 6, 3, &by_default, &bad, &out);
    REFUSED(POLYOVER_BAD_ENDS, polyover_hierarchy_result, 6, 3, NULL, &bad, &out);
    REFUSED(POLYOVER_BAD_ENDS, polyover_simplify_result, 3, NULL, &bad);
    REFUSED(POLYOVER_BAD_ENDS, polyover_slice_result, 3, 1, &bad, &out);
    REFUSED(POLYOVER_BAD_ENDS, polyover_clip_result, 3, &kept, &bad, &out);
    REFUSED(POLYOVER_BAD_ENDS, polyover_edges_result, 3, 1, &bad, &out);
    REFUSED(POLYOVER_OUT_OF_RANGE, polyover_overlay_result, 6, 3, NULL, &square, &out);
    REFUSED(POLYOVER_OUT_OF_RANGE, polyover_hierarchy_result, 6, 3, &by_default, &out, &bad);
    REFUSED(POLYOVER_OUT_OF_RANGE, polyover_simplify_result, 3, &by_default, &out);
    REFUSED(POLYOVER_OUT_OF_RANGE, polyover_slice_result, 3, 0, &square, &out);
    REFUSED(POLYOVER_OUT_OF_RANGE, polyover_clip_result, 3, NULL, &out, &bad);
    REFUSED(POLYOVER_OUT_OF_RANGE, polyover_edges_result, 3, 0, &square, &out);
}

/* The needles of tests_of_solvers.h, which rounds do not settle: as two contours, as one that runs round both, and with
 * a line along one of them. */
static void TEST(results_not_settled)(void) {
    const NUMBER around[] = {2, 0, 0, 66, 2, -66, -1, 0, 1, 0, 0, 67, -1, 0, 2, -66};
    const OPTIONS rounds = {.solver = POLYOVER_ROUNDS};
    const polyover_clip_options kept = {.solver = POLYOVER_ROUNDS};
    const size_t two[] = {2}, three[] = {3}, eight[] = {8}, both_ends[] = {3, 6};
    const CONTOURS first = {TEST(needles_at), 6, three, 1}, second = {TEST(needles_at) + 6, 6, three, 1};
    const CONTOURS both = {TEST(needles_at), 12, both_ends, 2}, one = {around, 16, eight, 1};
    const CONTOURS line = {TEST(needles_at) + 6, 4, two, 1};
    REFUSED(POLYOVER_NOT_SETTLED, polyover_overlay_result, 3, 1, &rounds, &first, &second);
    REFUSED(POLYOVER_NOT_SETTLED, polyover_hierarchy_result, 3, 1, &rounds, &first, &second);
    REFUSED(POLYOVER_NOT_SETTLED, polyover_simplify_result, 1, &rounds, &both);
    REFUSED(POLYOVER_NOT_SETTLED, polyover_simplify_result, 1, &rounds, &one);
    REFUSED(POLYOVER_NOT_SETTLED, polyover_edges_result, 1, POLYOVER_ROUNDS, &first, &second);
    REFUSED(POLYOVER_NOT_SETTLED, polyover_slice_result, 1, POLYOVER_ROUNDS, &first, &line);
    REFUSED(POLYOVER_NOT_SETTLED, polyover_clip_result, 1, &kept, &first, &line);
}
#undef REFUSED
