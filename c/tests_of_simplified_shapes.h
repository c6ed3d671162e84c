/* Tests at one width of shapes that are simplified, where it is told whether they stay as they are given; the names are
 * those of tests_of_width.h and tests_of_results.h. */

/* Whether one shape with one contour is held, and it is told so. */
static int TEST(stays_so)(RESULT *result, const NUMBER *coordinates, size_t count, uint32_t as_given, uint32_t told) {
    const size_t end[] = {count / 2}, one[] = {1};
    int same = TEST(are_same)(result->coordinates, result->coordinate_count, coordinates, count, sizeof(NUMBER)) &&
               TEST(are_same)(result->contour_ends, result->contour_count, end, 1, sizeof(size_t)) &&
               TEST(are_same)(result->shape_ends, result->shape_count, one, 1, sizeof(size_t)) && as_given == told;
    TEST(freed)(result);
    return same;
}

static polyover_status TEST(simplified_so)(polyover_fill fill, const OPTIONS *options, const CONTOURS *contours,
                                           RESULT *result, uint32_t *as_given) {
    *result = TEST(some_result)();
    *as_given = 77;
    return NAME(polyover_simplify_shape_result)(fill, options, contours, result, as_given);
}

static void TEST(simplified_shapes)(void) {
    const NUMBER turned[] = {0, 4, 4, 4, 4, 0, 0, 0}, crossing[] = {0, 0, 4, 4, 4, 0, 0, 4};
    const NUMBER longer[] = {0, 0, 2, 0, 4, 0, 4, 4, 0, 4}, shorter[] = {0, 4, 0, 0, 4, 0, 4, 4};
    const size_t four[] = {4}, five[] = {5}, none[] = {0};
    const CONTOURS square = {TEST(subject_at), 8, four, 1}, cross = {crossing, 8, four, 1};
    const CONTOURS on_side = {longer, 10, five, 1}, nothing = {NULL, 0, NULL, 0}, empty = {NULL, 0, none, 1};
    const OPTIONS clockwise = {.direction = 1}, given = {.keep = 2}, large = SMALLEST(17), small = SMALLEST(5);
    const OPTIONS equal = SMALLEST(4);
    RESULT result;
    uint32_t as_given;
    CHECK(TEST(simplified_so)(POLYOVER_NON_ZERO, NULL, &square, &result, &as_given) == POLYOVER_OK);
    CHECK(TEST(stays_so)(&result, TEST(subject_at), 8, as_given, 1));
    /* (whatever the smallest area is; the call without a number has no shape then) */
    CHECK(TEST(simplified_so)(POLYOVER_POSITIVE, &large, &square, &result, &as_given) == POLYOVER_OK);
    CHECK(TEST(stays_so)(&result, TEST(subject_at), 8, as_given, 1));
    CHECK(TEST(simplified_so)(POLYOVER_EVEN_ODD, &clockwise, &square, &result, &as_given) == POLYOVER_OK);
    CHECK(TEST(stays_so)(&result, turned, 8, as_given, 0));
    CHECK(TEST(simplified_so)(POLYOVER_NEGATIVE, NULL, &square, &result, &as_given) == POLYOVER_OK);
    CHECK(TEST(holds_nothing)(&result) && as_given == 0);
    /* (a contour with a point on a side is simple where that point is kept) */
    CHECK(TEST(simplified_so)(POLYOVER_NON_ZERO, NULL, &on_side, &result, &as_given) == POLYOVER_OK);
    CHECK(TEST(stays_so)(&result, shorter, 8, as_given, 0));
    CHECK(TEST(simplified_so)(POLYOVER_NON_ZERO, &given, &on_side, &result, &as_given) == POLYOVER_OK);
    CHECK(TEST(stays_so)(&result, longer, 10, as_given, 1));
    /* (two triangles of 4 each, which are left out as of an overlay) */
    CHECK(TEST(simplified_so)(POLYOVER_NON_ZERO, &equal, &cross, &result, &as_given) == POLYOVER_OK);
    CHECK(result.shape_count == 2 && result.coordinate_count == 12 && as_given == 0);
    TEST(freed)(&result);
    CHECK(TEST(simplified_so)(POLYOVER_NON_ZERO, &small, &cross, &result, &as_given) == POLYOVER_OK);
    CHECK(TEST(holds_nothing)(&result) && as_given == 0);
    CHECK(TEST(simplified_so)(POLYOVER_NON_ZERO, NULL, &nothing, &result, &as_given) == POLYOVER_OK);
    CHECK(TEST(holds_nothing)(&result) && as_given == 0);
    CHECK(TEST(simplified_so)(POLYOVER_NON_ZERO, NULL, &empty, &result, &as_given) == POLYOVER_OK);
    CHECK(TEST(holds_nothing)(&result) && as_given == 0);
}

/* Of two contours the answer is that of an overlay, with small ones left out. */
static void TEST(simplified_pairs)(void) {
    const NUMBER apart[] = {0, 0, 4, 0, 4, 4, 0, 4, 9, 9, 10, 9, 10, 10, 9, 10};
    const NUMBER first[] = {0, 4, 0, 0, 4, 0, 4, 4};
    const size_t ends[] = {4, 8};
    const CONTOURS both = {apart, 16, ends, 2};
    const OPTIONS small = SMALLEST(2);
    RESULT result;
    uint32_t as_given;
    CHECK(TEST(simplified_so)(POLYOVER_NON_ZERO, NULL, &both, &result, &as_given) == POLYOVER_OK);
    CHECK(result.shape_count == 2 && result.coordinate_count == 16 && as_given == 0);
    TEST(freed)(&result);
    CHECK(TEST(simplified_so)(POLYOVER_NON_ZERO, &small, &both, &result, &as_given) == POLYOVER_OK);
    CHECK(TEST(stays_so)(&result, first, 8, as_given, 0));
}

/* Checks a status that leaves nothing, and 0. */
static void TEST(not_simplified_so)(polyover_fill fill, const OPTIONS *options, const CONTOURS *contours,
                                    polyover_status wanted, int line) {
    RESULT result;
    uint32_t as_given;
    check(TEST(simplified_so)(fill, options, contours, &result, &as_given) == wanted, "the status is the one wanted",
          line);
    check(TEST(holds_nothing)(&result) && as_given == 0, "nothing is held, and 0 is told", line);
    TEST(freed)(&result);
}

static void TEST(simplified_shapes_refused)(void) {
    const NUMBER beyond[] = {LIMIT, 0, 0, LIMIT, -LIMIT - 1, 0};
    const size_t four[] = {4}, three[] = {3}, both[] = {3, 6};
    const CONTOURS square = {TEST(subject_at), 8, four, 1}, far = {beyond, 6, three, 1}, bad = {beyond, 6, four, 1};
    const CONTOURS needles = {TEST(needles_at), 12, both, 2};
    const OPTIONS unknown[] = {{.direction = 2}, {.keep = 4}, {.touching = 2}, {.solver = 2}};
    const OPTIONS rounds = {.solver = POLYOVER_ROUNDS};
    for (size_t at = 0; at < 4; at++) {
        TEST(not_simplified_so)(4, &unknown[at], &bad, POLYOVER_BAD_FILL, __LINE__);
        TEST(not_simplified_so)(3, &unknown[at], &bad, POLYOVER_BAD_OPTION, __LINE__);
        TEST(not_simplified_so)(3, &unknown[at], &square, POLYOVER_BAD_OPTION, __LINE__);
    }
    TEST(not_simplified_so)(3, NULL, &bad, POLYOVER_BAD_ENDS, __LINE__);
    TEST(not_simplified_so)(3, NULL, &far, POLYOVER_OUT_OF_RANGE, __LINE__);
    TEST(not_simplified_so)(1, &rounds, &needles, POLYOVER_NOT_SETTLED, __LINE__);
}
