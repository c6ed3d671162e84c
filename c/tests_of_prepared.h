/* Tests at one width of prepared shapes; the names are those of tests_of_width.h, and PREPARED is the type of prepared
 * shapes. */

/* A prepared shape with arbitrary content, as on the stack. */
static PREPARED TEST(some_prepared)(void) {
    PREPARED prepared;
    memset(&prepared, 77, sizeof prepared);
    return prepared;
}

static int TEST(is_bare)(const PREPARED *prepared) {
    return prepared->edge_count == 0 && prepared->block_count == 0 && prepared->group_count == 0;
}

static void TEST(let_go)(PREPARED *prepared) {
    NAME(polyover_prepared_free)(prepared);
    CHECK(TEST(is_bare)(prepared));
    CHECK(prepared->edges == NULL && prepared->blocks == NULL && prepared->groups == NULL);
    NAME(polyover_prepared_free)(prepared);
}

/* Checks that the points lie so, twice: the second answer is that of the same shape. */
static void TEST(lie)(const PREPARED *prepared, const NUMBER *points, size_t count, const char *wanted, int line) {
    polyover_location locations[16];
    for (int turn = 0; turn < 2; turn++) {
        memset(locations, 77, sizeof locations);
        const polyover_status status = NAME(polyover_prepared_locate)(prepared, points, count, locations, count / 2);
        check(status == POLYOVER_OK, "it is told", line);
        TEST(told_so)(locations, count / 2, wanted, line);
    }
}

/* Prepares the contours by both solvers, and as they are given, and checks that points lie so: a letter for each. */
static void TEST(lie_in)(polyover_fill fill, const CONTOURS *contours, const NUMBER *points, const char *wanted,
                         int line) {
    for (polyover_solver solver = POLYOVER_SNAPPED; solver <= POLYOVER_ROUNDS; solver++) {
        PREPARED prepared = TEST(some_prepared)();
        check(NAME(polyover_prepare)(fill, solver, contours, &prepared) == POLYOVER_OK, "it is prepared", line);
        TEST(lie)(&prepared, points, 2 * strlen(wanted), wanted, line);
        TEST(let_go)(&prepared);
    }
    TEST(lie_exactly_in)(fill, contours, points, wanted, line);
}

#define LIE_IN(fill, contours, points, wanted) TEST(lie_in)(fill, &contours, points, wanted, __LINE__)

/* Two squares that overlap. Where the second one runs against the first one, the winding is 1 in the first one alone,
 * -1 in the second one alone, and 0 in both; else it is 1, 1 and 2. */
static void TEST(prepared_under_rules)(void) {
    const NUMBER against[] = {0, 0, 4, 0, 4, 4, 0, 4, 2, 2, 2, 6, 6, 6, 6, 2};
    const NUMBER along[] = {0, 0, 4, 0, 4, 4, 0, 4, 2, 2, 6, 2, 6, 6, 2, 6};
    const size_t both[] = {4, 8};
    const CONTOURS turned = {against, 16, both, 2}, alike = {along, 16, both, 2};
    /* (in the first alone, in the second alone, in both, in none; on an edge of each outside the other, and on an edge
     * of each inside the other) */
    const NUMBER points[] = {1, 1, 5, 5, 3, 3, 5, 1, 0, 2, 6, 4, 4, 3, 2, 3};
    LIE_IN(POLYOVER_EVEN_ODD, turned, points, "iioobbbb");
    LIE_IN(POLYOVER_NON_ZERO, turned, points, "iioobbbb");
    LIE_IN(POLYOVER_POSITIVE, turned, points, "ioooboob");
    LIE_IN(POLYOVER_NEGATIVE, turned, points, "oiooobbo");
    LIE_IN(POLYOVER_EVEN_ODD, alike, points, "iioobbbb");
    LIE_IN(POLYOVER_NON_ZERO, alike, points, "iiiobbii");
    LIE_IN(POLYOVER_POSITIVE, alike, points, "iiiobbii");
    LIE_IN(POLYOVER_NEGATIVE, alike, points, "oooooooo");
}

/* A square with a hole; a contour that crosses itself in (2, 2), with the winding 1 at the left and -1 at the right; a
 * square with a spike, which is no boundary; a square twice; and the whole range. */
static void TEST(prepared_contours)(void) {
    const NUMBER holed[] = {0, 0, 10, 0, 10, 10, 0, 10, 3, 7, 7, 7, 7, 3, 3, 3};
    const NUMBER crossed[] = {0, 0, 4, 4, 4, 0, 0, 4}, spiked[] = {0, 0, 4, 0, 8, 0, 4, 0, 4, 4, 0, 4};
    const NUMBER twice[] = {0, 0, 4, 0, 4, 4, 0, 4, 0, 0, 4, 0, 4, 4, 0, 4};
    const NUMBER back[] = {0, 0, 4, 0, 4, 4, 0, 4, 0, 0, 0, 4, 4, 4, 4, 0};
    const NUMBER all[] = {-LIMIT, -LIMIT, LIMIT, -LIMIT, LIMIT, LIMIT, -LIMIT, LIMIT};
    const size_t four[] = {4}, both[] = {4, 8}, six[] = {6}, apart[] = {0, 4, 4, 8};
    const CONTOURS ring = {holed, 16, both, 2}, bow = {crossed, 8, four, 1}, spike = {spiked, 12, six, 1};
    const CONTOURS ring_apart = {holed, 16, apart, 4}, two = {twice, 16, both, 2}, none = {back, 16, both, 2};
    const CONTOURS range = {all, 8, four, 1};
    const NUMBER of_ring[] = {5, 5, 1, 1, 3, 5, 3, 3, 10, 10, 20, 20, -1, 5, 5, 0, 5, 7, 5, 8, 3, 0, 3, -1};
    LIE_IN(POLYOVER_NON_ZERO, ring, of_ring, "oibbboobbibo");
    LIE_IN(POLYOVER_EVEN_ODD, ring, of_ring, "oibbboobbibo");
    LIE_IN(POLYOVER_NON_ZERO, ring_apart, of_ring, "oibbboobbibo");
    LIE_IN(POLYOVER_NEGATIVE, ring, of_ring, "oooooooooooo");
    const NUMBER of_bow[] = {1, 2, 3, 2, 2, 1, 2, 3, 2, 2, 1, 1, 3, 3, 0, 2, 4, 2, 0, 4};
    LIE_IN(POLYOVER_EVEN_ODD, bow, of_bow, "iioobbbbbb");
    LIE_IN(POLYOVER_NON_ZERO, bow, of_bow, "iioobbbbbb");
    LIE_IN(POLYOVER_POSITIVE, bow, of_bow, "iooobbobob");
    LIE_IN(POLYOVER_NEGATIVE, bow, of_bow, "oioobobobo");
    const NUMBER of_spike[] = {2, 2, 6, 0, 4, 0, 2, 0, 8, 0, 4, 2};
    LIE_IN(POLYOVER_NON_ZERO, spike, of_spike, "iobbob");
    const NUMBER of_two[] = {2, 2, 4, 2, 0, 0, 5, 2};
    LIE_IN(POLYOVER_EVEN_ODD, two, of_two, "oooo");
    LIE_IN(POLYOVER_NON_ZERO, two, of_two, "ibbo");
    LIE_IN(POLYOVER_NON_ZERO, none, of_two, "oooo");
    const NUMBER of_range[] = {LIMIT, LIMIT, LIMIT - 1, 0, 0, -LIMIT, 0, 0, -LIMIT, LIMIT - 1};
    LIE_IN(POLYOVER_NON_ZERO, range, of_range, "bibib");
}

/* Without a boundary all points are outside. */
static void TEST(prepared_bare)(void) {
    const size_t ends[] = {0, 0};
    const CONTOURS none = {NULL, 0, NULL, 0}, empty = {NULL, 0, ends, 2};
    const NUMBER points[] = {0, 0, LIMIT, -LIMIT};
    PREPARED zero = {0};
    TEST(lie)(&zero, points, 4, "oo", __LINE__);
    TEST(let_go)(&zero);
    TEST(lie)(&zero, points, 4, "oo", __LINE__);
    CHECK(NAME(polyover_prepared_locate)(&zero, NULL, 0, NULL, 0) == POLYOVER_OK);
    LIE_IN(POLYOVER_EVEN_ODD, none, points, "oo");
    LIE_IN(POLYOVER_NON_ZERO, empty, points, "oo");
    LIE_IN(POLYOVER_NON_ZERO, empty, points, "");
    NAME(polyover_prepared_free)(NULL);
}

/* Checks a status of preparing that leaves no boundary. */
static void TEST(not_prepared)(polyover_fill fill, polyover_solver solver, const CONTOURS *contours,
                               polyover_status wanted, int line) {
    const NUMBER points[] = {1, 1};
    PREPARED prepared = TEST(some_prepared)();
    check(NAME(polyover_prepare)(fill, solver, contours, &prepared) == wanted, "the status is the one wanted", line);
    check(TEST(is_bare)(&prepared), "it has no boundary", line);
    TEST(lie)(&prepared, points, 2, "o", line);
    TEST(let_go)(&prepared);
}

static void TEST(preparing_refused)(void) {
    const NUMBER beyond[] = {0, 0, LIMIT, 0, -LIMIT - 1, 4, 0, 4};
    const size_t four[] = {4}, falling[] = {4, 3}, both_ends[] = {3, 6};
    const CONTOURS bad = {beyond, 8, falling, 2}, odd = {beyond, 7, four, 1}, out = {beyond, 8, four, 1};
    const CONTOURS needles = {TEST(needles_at), 12, both_ends, 2};
    TEST(not_prepared)(4, 2, &bad, POLYOVER_BAD_FILL, __LINE__);
    TEST(not_prepared)(UINT32_MAX, 0, &bad, POLYOVER_BAD_FILL, __LINE__);
    TEST(not_prepared)(3, 2, &bad, POLYOVER_BAD_OPTION, __LINE__);
    TEST(not_prepared)(3, 1, &bad, POLYOVER_BAD_ENDS, __LINE__);
    TEST(not_prepared)(3, 1, &odd, POLYOVER_BAD_ENDS, __LINE__);
    TEST(not_prepared)(3, 1, &out, POLYOVER_OUT_OF_RANGE, __LINE__);
    TEST(not_prepared)(1, POLYOVER_ROUNDS, &needles, POLYOVER_NOT_SETTLED, __LINE__);
    PREPARED prepared = TEST(some_prepared)();
    CHECK(NAME(polyover_prepare)(1, POLYOVER_SNAPPED, &needles, &prepared) == POLYOVER_OK);
    CHECK(!TEST(is_bare)(&prepared));
    TEST(let_go)(&prepared);
}

/* Where no location is told, nothing is written; the prepared shape stays in any case. */
static void TEST(asking_refused)(void) {
    const size_t four[] = {4};
    const CONTOURS square = {TEST(subject_at), 8, four, 1};
    const NUMBER points[] = {1, 1, 2, 2, LIMIT, -LIMIT - 1};
    polyover_location locations[4] = {77, 77, 77, 77};
    PREPARED prepared = TEST(some_prepared)(), before;
    CHECK(NAME(polyover_prepare)(POLYOVER_NON_ZERO, POLYOVER_SNAPPED, &square, &prepared) == POLYOVER_OK);
    CHECK(prepared.edge_count == 4 && prepared.block_count == 1 && prepared.group_count == 1);
    memcpy(&before, &prepared, sizeof before);
    CHECK(NAME(polyover_prepared_locate)(&prepared, points, 5, locations, 0) == POLYOVER_BAD_ENDS);
    CHECK(NAME(polyover_prepared_locate)(&prepared, points, 6, locations, 0) == POLYOVER_OUT_OF_RANGE);
    CHECK(NAME(polyover_prepared_locate)(&prepared, points, 4, locations, 1) == POLYOVER_TOO_SMALL);
    for (size_t at = 0; at < 4; at++) {
        CHECK(locations[at] == 77);
    }
    CHECK(NAME(polyover_prepared_locate)(&prepared, points, 4, locations, 4) == POLYOVER_OK);
    CHECK(locations[0] == POLYOVER_INSIDE && locations[1] == POLYOVER_INSIDE);
    CHECK(locations[2] == 77 && locations[3] == 77);
    CHECK(NAME(polyover_prepared_locate)(&prepared, NULL, 0, NULL, 0) == POLYOVER_OK);
    CHECK(memcmp(&before, &prepared, sizeof before) == 0);
    TEST(let_go)(&prepared);
}
#undef LIE_IN
