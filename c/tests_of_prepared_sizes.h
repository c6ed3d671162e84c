/* Tests at one width of prepared shapes of some 50,000 edges; the names are those of tests_of_sizes.h, PREPARED is the
 * type of prepared shapes, and EXACT that of shapes as they are given. */

/* Prepares the subject; a prepared shape has edges where it is answered. */
static polyover_status TEST(prepare)(const TEST(question) *of, RESULT *result) {
    PREPARED prepared;
    memset(result, 0, sizeof *result);
    polyover_status status = NAME(polyover_prepare)(of->fill, of->solver, &of->subject, &prepared);
    CHECK((prepared.edge_count == 0) == (status != POLYOVER_OK));
    NAME(polyover_prepared_free)(&prepared);
    return status;
}

/* Checks that the first `count` locations are these in turn. */
static void TEST(told_by_turns)(const polyover_location *wanted, size_t turn, size_t count) {
    int same = 1;
    for (size_t at = 0; same && at < count; at++) {
        same = TEST(fills)[at] == wanted[at % turn];
    }
    CHECK(same);
}

/* Checks that the points lie so, as the locations in turn. */
static void TEST(lie_by_turns)(polyover_solver solver, const TEST(made) *shape, const TEST(made) *points,
                               const polyover_location *wanted, size_t turn, size_t edges) {
    const CONTOURS given = TEST(given)(shape);
    const size_t count = points->count / 2;
    PREPARED prepared;
    CHECK(NAME(polyover_prepare)(POLYOVER_NON_ZERO, solver, &given, &prepared) == POLYOVER_OK);
    CHECK(prepared.edge_count == edges && prepared.block_count == (edges + 63) / 64);
    CHECK(prepared.group_count == (edges + 4095) / 4096);
    CHECK(NAME(polyover_prepared_locate)(&prepared, points->coordinates, points->count, TEST(fills), count - 1) ==
          POLYOVER_TOO_SMALL);
    CHECK(NAME(polyover_prepared_locate)(&prepared, points->coordinates, points->count, TEST(fills), count) ==
          POLYOVER_OK);
    TEST(told_by_turns)(wanted, turn, count);
    NAME(polyover_prepared_free)(&prepared);
    EXACT exact;
    CHECK(NAME(polyover_prepare_exact)(POLYOVER_NON_ZERO, &given, &exact) == POLYOVER_OK);
    CHECK(exact.edge_count >= edges && exact.block_count == (exact.edge_count + 63) / 64);
    CHECK(exact.group_count == (exact.edge_count + 4095) / 4096);
    memset(TEST(fills), 77, count);
    CHECK(NAME(polyover_exact_locate)(&exact, points->coordinates, points->count, TEST(fills), count - 1) ==
          POLYOVER_TOO_SMALL);
    CHECK(NAME(polyover_exact_locate)(&exact, points->coordinates, points->count, TEST(fills), count) == POLYOVER_OK);
    TEST(told_by_turns)(wanted, turn, count);
    NAME(polyover_exact_free)(&exact);
}

/* Squares in a grid: of each cell a point inside its square, one on an edge of it, one on a corner and one beside. */
static void TEST(squares_prepared)(polyover_solver solver) {
    const size_t side = 112;
    const polyover_location wanted[] = {POLYOVER_INSIDE, POLYOVER_BOUNDARY, POLYOVER_BOUNDARY, POLYOVER_OUTSIDE};
    TEST(made) shape = TEST(none)(), points = TEST(none)();
    TEST(squares)(&shape, side, 4, 0, 2);
    for (size_t at = 0; at < side * side; at++) {
        const size_t x = 4 * (at / side), y = 4 * (at % side);
        TEST(point)(&points, x + 1, y + 1);
        TEST(point)(&points, x + 2, y + 1);
        TEST(point)(&points, x, y + 2);
        TEST(point)(&points, x + 3, y + 1);
    }
    TEST(lie_by_turns)(solver, &shape, &points, wanted, 4, 4 * side * side);
    TEST(let_go)(&shape);
    TEST(let_go)(&points);
}

/* One contour with teeth: it runs along y = 0 and back by (x, 10) at each even x and (x, 5) at each odd one. Of each
 * pair of teeth a point on a tip, one below it and one above it, and the same at the foot between them. */
static void TEST(teeth_prepared)(polyover_solver solver) {
    const size_t width = 50000;
    const polyover_location wanted[] = {POLYOVER_BOUNDARY, POLYOVER_INSIDE, POLYOVER_OUTSIDE, POLYOVER_BOUNDARY,
                                        POLYOVER_INSIDE, POLYOVER_OUTSIDE, POLYOVER_BOUNDARY};
    TEST(made) shape = TEST(none)(), points = TEST(none)();
    TEST(point)(&shape, 0, 0);
    TEST(point)(&shape, width, 0);
    for (size_t x = width + 1; x-- > 0;) {
        TEST(point)(&shape, x, x % 2 == 0 ? 10 : 5);
    }
    TEST(end)(&shape);
    for (size_t x = 2; x < width; x += 2) {
        TEST(point)(&points, x, 10);
        TEST(point)(&points, x, 9);
        TEST(point)(&points, x, 11);
        TEST(point)(&points, x + 1, 5);
        TEST(point)(&points, x + 1, 4);
        TEST(point)(&points, x + 1, 6);
        TEST(point)(&points, x + 1, 0);
    }
    TEST(lie_by_turns)(solver, &shape, &points, wanted, 7, width + 3);
    TEST(let_go)(&shape);
    TEST(let_go)(&points);
}

static void TEST(prepared_sizes)(polyover_solver solver) {
    TEST(squares_prepared)(solver);
    TEST(teeth_prepared)(solver);
    TEST(limit_of)(TEST(prepare), solver, 0, 1);
}
