/* Tests at one width of shapes with the filled sides of each step; the names are those of tests_of_width.h and
 * tests_of_results.h. */

/* Whether the answer is one contour of these steps, wherever it begins; it frees it. */
static int TEST(is_round)(RESULT *result, const NUMBER *coordinates, const uint8_t *fills, size_t count) {
    int same = result->coordinate_count == 2 * count && result->fill_count == count && result->contour_count == 1 &&
               result->shape_count == 1 && result->link_count == 0;
    same = same && result->contour_ends[0] == count && result->shape_ends[0] == 1;
    size_t begin = 0;
    while (same && begin < count && memcmp(result->coordinates + 2 * begin, coordinates, 2 * sizeof(NUMBER)) != 0) {
        begin++;
    }
    for (size_t at = 0; same && at < count; at++) {
        const size_t of = (begin + at) % count;
        same = memcmp(result->coordinates + 2 * of, coordinates + 2 * at, 2 * sizeof(NUMBER)) == 0 &&
               result->fills[of] == fills[at];
    }
    TEST(freed)(result);
    return same;
}

static polyover_status TEST(vectors_of)(polyover_rule rule, polyover_fill fill, const OPTIONS *options,
                                        RESULT *result) {
    static const size_t four[] = {4};
    const CONTOURS subject = {TEST(subject_at), 8, four, 1}, clip = {TEST(clip_at), 8, four, 1};
    *result = TEST(some_result)();
    return NAME(polyover_vectors_result)(rule, fill, options, &subject, &clip, result);
}

/* The squares that cross in (4, 2) and (2, 4). */
static void TEST(vectors)(void) {
    const NUMBER both[] = {2, 2, 4, 2, 4, 4, 2, 4}, back[] = {2, 2, 2, 4, 4, 4, 4, 2};
    const NUMBER united[] = {0, 0, 4, 0, 4, 2, 6, 2, 6, 6, 2, 6, 2, 4, 0, 4};
    const NUMBER subject[] = {0, 0, 4, 0, 4, 2, 4, 4, 2, 4, 0, 4};
    const uint8_t of_both[] = {7, 13, 13, 7}, of_back[] = {11, 14, 14, 11}, of_united[] = {1, 1, 4, 4, 4, 4, 1, 1};
    const uint8_t of_subject[] = {1, 1, 13, 13, 1, 1};
    const OPTIONS clockwise = {.direction = 1}, small = SMALLEST(4), large = SMALLEST(5), rounds = {.solver = 1};
    RESULT result;
    CHECK(TEST(vectors_of)(POLYOVER_INTERSECT, POLYOVER_NON_ZERO, NULL, &result) == POLYOVER_OK);
    CHECK(TEST(is_round)(&result, both, of_both, 4));
    CHECK(TEST(vectors_of)(POLYOVER_INTERSECT, POLYOVER_NON_ZERO, &rounds, &result) == POLYOVER_OK);
    CHECK(TEST(is_round)(&result, both, of_both, 4));
    CHECK(TEST(vectors_of)(POLYOVER_INTERSECT, POLYOVER_NON_ZERO, &clockwise, &result) == POLYOVER_OK);
    CHECK(TEST(is_round)(&result, back, of_back, 4));
    CHECK(TEST(vectors_of)(POLYOVER_UNION, POLYOVER_NON_ZERO, NULL, &result) == POLYOVER_OK);
    CHECK(TEST(is_round)(&result, united, of_united, 8));
    /* (steps on one line, whose sides differ) */
    CHECK(TEST(vectors_of)(POLYOVER_SUBJECT, POLYOVER_NON_ZERO, NULL, &result) == POLYOVER_OK);
    CHECK(TEST(is_round)(&result, subject, of_subject, 6));
    CHECK(TEST(vectors_of)(POLYOVER_INTERSECT, POLYOVER_NON_ZERO, &small, &result) == POLYOVER_OK);
    CHECK(TEST(is_round)(&result, both, of_both, 4));
    CHECK(TEST(vectors_of)(POLYOVER_INTERSECT, POLYOVER_NON_ZERO, &large, &result) == POLYOVER_OK);
    CHECK(TEST(holds_nothing)(&result));
    TEST(freed)(&result);
}

/* A point on a side of a triangle is there where given ones and those of the answer are kept. */
static void TEST(vectors_kept)(void) {
    const NUMBER line[] = {0, 0, 2, 0, 4, 0, 4, 4}, three[] = {0, 0, 4, 0, 4, 4};
    const uint8_t fills[] = {1, 1, 1, 1};
    const size_t four[] = {4};
    const CONTOURS subject = {line, 8, four, 1};
    for (uint32_t keep = 0; keep < 4; keep++) {
        const OPTIONS options = {.keep = keep};
        RESULT result = TEST(some_result)();
        CHECK(NAME(polyover_vectors_result)(POLYOVER_SUBJECT, POLYOVER_NON_ZERO, &options, &subject, NULL, &result) ==
              POLYOVER_OK);
        CHECK(keep == 3 ? TEST(is_round)(&result, line, fills, 4) : TEST(is_round)(&result, three, fills, 3));
    }
}

/* A square with a hole: the region is on the left of each step. */
static void TEST(vectors_round_holes)(void) {
    const NUMBER frame[] = {0, 0, 9, 0, 9, 9, 0, 9, 1, 1, 8, 1, 8, 8, 1, 8};
    const uint8_t fills[] = {4, 4, 4, 4, 4, 4, 4, 4};
    const size_t ends[] = {4, 8}, two[] = {2};
    const CONTOURS none = {NULL, 0, NULL, 0}, clip = {frame, 16, ends, 2};
    RESULT result = TEST(some_result)();
    CHECK(NAME(polyover_vectors_result)(POLYOVER_UNION, POLYOVER_EVEN_ODD, NULL, &none, &clip, &result) ==
          POLYOVER_OK);
    CHECK(result.coordinate_count == 16 && result.link_count == 0);
    CHECK(TEST(are_same)(result.contour_ends, result.contour_count, ends, 2, sizeof(size_t)));
    CHECK(TEST(are_same)(result.shape_ends, result.shape_count, two, 1, sizeof(size_t)));
    CHECK(TEST(are_same)(result.fills, result.fill_count, fills, 8, 1));
    TEST(freed)(&result);
}

/* Checks a status that leaves nothing. */
static void TEST(no_vectors)(polyover_rule rule, polyover_fill fill, const OPTIONS *options, const CONTOURS *subject,
                             const CONTOURS *clip, polyover_status wanted, int line) {
    RESULT result = TEST(some_result)();
    check(NAME(polyover_vectors_result)(rule, fill, options, subject, clip, &result) == wanted,
          "the status is the one wanted", line);
    check(TEST(holds_nothing)(&result), "nothing is held", line);
    TEST(freed)(&result);
}

static void TEST(vectors_refused)(void) {
    const NUMBER beyond[] = {LIMIT, 0, 0, LIMIT, -LIMIT - 1, 0};
    const size_t four[] = {4}, three[] = {3}, both_ends[] = {3, 6};
    const CONTOURS square = {TEST(subject_at), 8, four, 1}, far = {beyond, 6, three, 1}, bad = {beyond, 6, four, 1};
    const CONTOURS needles = {TEST(needles_at), 12, both_ends, 2};
    const OPTIONS unknown[] = {{.direction = 2}, {.keep = 4}, {.touching = 2}, {.solver = 2}};
    const OPTIONS rounds = {.solver = POLYOVER_ROUNDS};
    for (size_t at = 0; at < 4; at++) {
        TEST(no_vectors)(7, 4, &unknown[at], &bad, &far, POLYOVER_BAD_RULE, __LINE__);
        TEST(no_vectors)(6, 4, &unknown[at], &bad, &far, POLYOVER_BAD_FILL, __LINE__);
        TEST(no_vectors)(6, 3, &unknown[at], &bad, &far, POLYOVER_BAD_OPTION, __LINE__);
    }
    TEST(no_vectors)(6, 3, NULL, &bad, &far, POLYOVER_BAD_ENDS, __LINE__);
    TEST(no_vectors)(6, 3, NULL, &far, &bad, POLYOVER_OUT_OF_RANGE, __LINE__);
    TEST(no_vectors)(6, 3, NULL, &square, &bad, POLYOVER_BAD_ENDS, __LINE__);
    TEST(no_vectors)(6, 3, NULL, &square, &far, POLYOVER_OUT_OF_RANGE, __LINE__);
    TEST(no_vectors)(3, 1, &rounds, &needles, NULL, POLYOVER_NOT_SETTLED, __LINE__);
}
