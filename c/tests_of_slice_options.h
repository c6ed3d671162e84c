/* Tests at one width of slices by options; the names are those of tests_of_lines.h and tests_of_results.h, and
 * SLICE_OPTIONS is the type of their options. */

/* Slices the square of 20 by lines. */
static polyover_status TEST(sliced_so)(const SLICE_OPTIONS *options, const NUMBER *lines, size_t count,
                                       const size_t *ends, size_t end_count, RESULT *result) {
    static const size_t four[] = {4};
    const CONTOURS subject = {TEST(square_at), 8, four, 1}, paths = {lines, count, ends, end_count};
    *result = TEST(some_result)();
    return NAME(polyover_slice_custom_result)(POLYOVER_NON_ZERO, options, &subject, &paths, result);
}

/* Whether the shapes are these contours, in shapes with these ends. */
static int TEST(are_slices)(RESULT *result, const NUMBER *coordinates, size_t count, const size_t *ends,
                            size_t end_count, const size_t *shape_ends, size_t shape_count) {
    int same = TEST(are_same)(result->coordinates, result->coordinate_count, coordinates, count, sizeof(NUMBER)) &&
               TEST(are_same)(result->contour_ends, result->contour_count, ends, end_count, sizeof(size_t)) &&
               TEST(are_same)(result->shape_ends, result->shape_count, shape_ends, shape_count, sizeof(size_t)) &&
               result->link_count == 0 && result->fill_count == 0;
    TEST(freed)(result);
    return same;
}

/* A square of 400 is cut into halves of 200, or by a closed line into a ring, whose hole is of 100, and a square. */
static void TEST(slices_by_options)(void) {
    const NUMBER across[] = {-20, 0, 20, 0}, closed[] = {-5, -5, -5, 5, 5, 5, 5, -5, -5, -5};
    const NUMBER halves[] = {10, -10, 10, 0, -10, 0, -10, -10, 10, 0, 10, 10, -10, 10, -10, 0};
    const NUMBER back[] = {-10, -10, -10, 0, 10, 0, 10, -10, -10, 0, -10, 10, 10, 10, 10, 0};
    const NUMBER ring[] = {10, -10, 10, 10, -10, 10, -10, -10, -5, -5, -5, 5, 5, 5, 5, -5, 5, -5, 5, 5, -5, 5, -5, -5};
    const NUMBER ring_back[] = {-10, -10, -10, 10, 10, 10,  10, -10, 5,  -5, 5, 5,
                                -5,  5,   -5,  -5, -5, -5, -5, 5,   5,  5,  5, -5};
    const size_t two[] = {2}, five[] = {5}, ends[] = {4, 8, 12}, each[] = {1, 2}, both[] = {2, 3};
    const SLICE_OPTIONS by_default = {0}, clockwise = {.direction = 1}, rounds = {.solver = POLYOVER_ROUNDS};
    const SLICE_OPTIONS half = SMALLEST(200), more = SMALLEST(201), hole = SMALLEST(100), no_hole = SMALLEST(101);
    const SLICE_OPTIONS all = SMALLEST(400), none = SMALLEST(401);
    RESULT result;
    CHECK(TEST(sliced_so)(NULL, across, 4, two, 1, &result) == POLYOVER_OK);
    CHECK(TEST(are_slices)(&result, halves, 16, ends, 2, each, 2));
    CHECK(TEST(sliced_so)(&by_default, across, 4, two, 1, &result) == POLYOVER_OK);
    CHECK(TEST(are_slices)(&result, halves, 16, ends, 2, each, 2));
    CHECK(TEST(sliced_so)(&rounds, across, 4, two, 1, &result) == POLYOVER_OK);
    CHECK(TEST(are_slices)(&result, halves, 16, ends, 2, each, 2));
    CHECK(TEST(sliced_so)(&clockwise, across, 4, two, 1, &result) == POLYOVER_OK);
    CHECK(TEST(are_slices)(&result, back, 16, ends, 2, each, 2));
    CHECK(TEST(sliced_so)(&half, across, 4, two, 1, &result) == POLYOVER_OK);
    CHECK(TEST(are_slices)(&result, halves, 16, ends, 2, each, 2));
    CHECK(TEST(sliced_so)(&more, across, 4, two, 1, &result) == POLYOVER_OK);
    CHECK(TEST(are_slices)(&result, NULL, 0, NULL, 0, NULL, 0));
    CHECK(TEST(sliced_so)(&hole, closed, 10, five, 1, &result) == POLYOVER_OK);
    CHECK(TEST(are_slices)(&result, ring, 24, ends, 3, both, 2));
    CHECK(TEST(sliced_so)(&clockwise, closed, 10, five, 1, &result) == POLYOVER_OK);
    CHECK(TEST(are_slices)(&result, ring_back, 24, ends, 3, both, 2));
    CHECK(TEST(sliced_so)(&no_hole, closed, 10, five, 1, &result) == POLYOVER_OK);
    CHECK(TEST(are_slices)(&result, ring, 8, ends, 1, each, 1));
    CHECK(TEST(sliced_so)(&all, closed, 10, five, 1, &result) == POLYOVER_OK);
    CHECK(TEST(are_slices)(&result, ring, 8, ends, 1, each, 1));
    CHECK(TEST(sliced_so)(&none, closed, 10, five, 1, &result) == POLYOVER_OK);
    CHECK(TEST(are_slices)(&result, NULL, 0, NULL, 0, NULL, 0));
}

/* Checks a status that leaves nothing, or that of an answer without shapes. */
static void TEST(not_sliced)(polyover_fill fill, const SLICE_OPTIONS *options, const CONTOURS *subject,
                             const CONTOURS *lines, polyover_status wanted, int line) {
    RESULT result = TEST(some_result)();
    check(NAME(polyover_slice_custom_result)(fill, options, subject, lines, &result) == wanted,
          "the status is the one wanted", line);
    check(TEST(holds_nothing)(&result), "nothing is held", line);
    TEST(freed)(&result);
}

static void TEST(slices_by_options_refused)(void) {
    const NUMBER far[] = {-LIMIT, 2, LIMIT, 2}, beyond[] = {0, 0, -LIMIT - 1, 4};
    const size_t four[] = {4}, three[] = {3}, two[] = {2}, falling[] = {2, 1};
    const CONTOURS square = {TEST(subject_at), 8, four, 1}, bad = {TEST(subject_at), 8, three, 1};
    const CONTOURS whole = {far, 4, two, 1}, out = {beyond, 4, two, 1}, back = {far, 4, falling, 2};
    const CONTOURS none = {NULL, 0, NULL, 0};
    const CONTOURS first = {TEST(needles_at), 6, three, 1}, second = {TEST(needles_at) + 6, 6, three, 1};
    const SLICE_OPTIONS turned = {.direction = 2}, unknown = {.solver = 2}, rounds = {.solver = POLYOVER_ROUNDS};
    const SLICE_OPTIONS clockwise = {.direction = 1}, far_turned = {.direction = UINT32_MAX};
    TEST(not_sliced)(POLYOVER_NEGATIVE, NULL, &square, &whole, POLYOVER_OK, __LINE__);
    TEST(not_sliced)(POLYOVER_NON_ZERO, NULL, &none, &whole, POLYOVER_OK, __LINE__);
    TEST(not_sliced)(POLYOVER_NON_ZERO, &clockwise, &none, &none, POLYOVER_OK, __LINE__);
    TEST(not_sliced)(4, &turned, &bad, &out, POLYOVER_BAD_FILL, __LINE__);
    TEST(not_sliced)(UINT32_MAX, NULL, &square, &whole, POLYOVER_BAD_FILL, __LINE__);
    TEST(not_sliced)(3, &turned, &bad, &out, POLYOVER_BAD_OPTION, __LINE__);
    TEST(not_sliced)(3, &far_turned, &bad, &out, POLYOVER_BAD_OPTION, __LINE__);
    TEST(not_sliced)(3, &unknown, &square, &whole, POLYOVER_BAD_OPTION, __LINE__);
    TEST(not_sliced)(3, NULL, &bad, &out, POLYOVER_BAD_ENDS, __LINE__);
    TEST(not_sliced)(3, NULL, &out, &back, POLYOVER_OUT_OF_RANGE, __LINE__);
    TEST(not_sliced)(3, NULL, &square, &back, POLYOVER_BAD_ENDS, __LINE__);
    TEST(not_sliced)(3, NULL, &square, &out, POLYOVER_OUT_OF_RANGE, __LINE__);
    TEST(not_sliced)(1, &rounds, &first, &second, POLYOVER_NOT_SETTLED, __LINE__);
}
