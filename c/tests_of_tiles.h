/* The tests of tiles at one width; the names are those of tests_of_width.h, and RESULT is the type of results. */

static polyover_status TEST(tiled_by)(polyover_solver solver, const NUMBER *coordinates, size_t count, NUMBER width,
                                      NUMBER height, RESULT *result) {
    const size_t ends[] = {count / 2};
    const CONTOURS contours = {coordinates, count, ends, 1};
    *result = TEST(some_result)();
    return NAME(polyover_tiles_result)(POLYOVER_NON_ZERO, solver, &contours, width, height, result);
}

static polyover_status TEST(tiled)(const NUMBER *coordinates, size_t count, NUMBER width, NUMBER height,
                                   RESULT *result) {
    return TEST(tiled_by)(POLYOVER_SNAPPED, coordinates, count, width, height, result);
}

/* Whether the tiles are these contours, each the outline of a shape. */
static int TEST(are_tiles)(RESULT *result, const NUMBER *coordinates, size_t count, const size_t *ends,
                           size_t end_count) {
    int same = TEST(are_same)(result->coordinates, result->coordinate_count, coordinates, count, sizeof(NUMBER)) &&
               TEST(are_same)(result->contour_ends, result->contour_count, ends, end_count, sizeof(size_t)) &&
               result->shape_count == end_count && result->link_count == 0 && result->fill_count == 0;
    for (size_t at = 0; same && at < end_count; at++) {
        same = result->shape_ends[at] == at + 1;
    }
    TEST(freed)(result);
    return same;
}

static void TEST(tiles)(void) {
    const NUMBER square[] = {0, 0, 4, 0, 4, 4, 0, 4}, whole[] = {4, 0, 4, 4, 0, 4, 0, 0};
    const NUMBER four[] = {2, 0, 2, 2, 0, 2, 0, 0, 2, 2, 2, 4, 0, 4, 0, 2,
                           4, 0, 4, 2, 2, 2, 2, 0, 4, 2, 4, 4, 2, 4, 2, 2};
    const NUMBER bent[] = {0, 0, 3, 0, 3, 1, 1, 1, 1, 3, 0, 3};
    const NUMBER parts[] = {2, 0, 2, 1, 1, 1, 1, 3, 0, 3, 0, 0, 3, 0, 3, 1, 2, 1, 2, 0};
    const NUMBER triangle[] = {0, 0, 3, 0, 0, 2};
    const NUMBER strips[] = {1, 0, 1, 1, 0, 2, 0, 0, 2, 0, 2, 1, 1, 1, 1, 0, 3, 0, 2, 1, 2, 0};
    const NUMBER snapped[] = {1, 0, 1, 1, 1, 2, 0, 2, 0, 0, 2, 0, 2, 1, 1, 1, 1, 0};
    const size_t of_square[] = {4, 8, 12, 16}, of_bent[] = {6, 10}, of_triangle[] = {4, 8, 11}, of_snapped[] = {5, 9};
    const CONTOURS none = {NULL, 0, NULL, 0};
    RESULT result;
    CHECK(TEST(tiled)(square, 8, 2, 2, &result) == POLYOVER_OK && TEST(are_tiles)(&result, four, 32, of_square, 4));
    CHECK(TEST(tiled)(square, 8, 4, 4, &result) == POLYOVER_OK && TEST(are_tiles)(&result, whole, 8, of_square, 1));
    CHECK(TEST(tiled)(square, 8, LIMIT, LIMIT, &result) == POLYOVER_OK);
    CHECK(TEST(are_tiles)(&result, whole, 8, of_square, 1));
    CHECK(TEST(tiled)(bent, 12, 2, 5, &result) == POLYOVER_OK && TEST(are_tiles)(&result, parts, 20, of_bent, 2));
    /* (the hypotenuse is cut in points that are rounded; or led through these and (1, 2) and (2, 0), ends of lines) */
    CHECK(TEST(tiled_by)(POLYOVER_ROUNDS, triangle, 6, 1, 9, &result) == POLYOVER_OK);
    CHECK(TEST(are_tiles)(&result, strips, 22, of_triangle, 3));
    CHECK(TEST(tiled)(triangle, 6, 1, 9, &result) == POLYOVER_OK);
    CHECK(TEST(are_tiles)(&result, snapped, 18, of_snapped, 2));
    CHECK(NAME(polyover_tiles_result)(POLYOVER_EVEN_ODD, POLYOVER_ROUNDS, &none, 1, 1, &result) == POLYOVER_OK);
    CHECK(TEST(are_tiles)(&result, NULL, 0, NULL, 0));
}

/* The square from one end of the range to the other has four quarters. */
static void TEST(far_tiles)(void) {
    const NUMBER far[] = {-LIMIT, -LIMIT, LIMIT, -LIMIT, LIMIT, LIMIT, -LIMIT, LIMIT};
    RESULT result;
    CHECK(TEST(tiled)(far, 8, LIMIT, LIMIT, &result) == POLYOVER_OK);
    CHECK(result.shape_count == 4 && result.contour_count == 4 && result.coordinate_count == 32);
    for (size_t at = 0; at < result.contour_count; at++) {
        CHECK(result.contour_ends[at] == 4 * (at + 1));
    }
    TEST(freed)(&result);
}

static polyover_status TEST(tile_status)(polyover_fill fill, polyover_solver solver, const CONTOURS *contours,
                                         NUMBER width, NUMBER height) {
    RESULT result = TEST(some_result)();
    polyover_status status = NAME(polyover_tiles_result)(fill, solver, contours, width, height, &result);
    CHECK((status == POLYOVER_OK) == !TEST(holds_nothing)(&result));
    TEST(freed)(&result);
    return status;
}

/* Grids with a thousand lines in a direction, and with one more; and faults in the order in which they are tested. */
static void TEST(tiles_refused)(void) {
    const NUMBER wide[] = {0, 0, 1001, 0, 0, 1}, wider[] = {0, 0, 1002, 0, 0, 1}, high[] = {0, -501, 1, 0, 0, 501};
    const NUMBER beyond[] = {0, 0, LIMIT, 0, -LIMIT - 1, 4, 0, 4};
    const size_t three[] = {3}, four[] = {4}, falling[] = {4, 3};
    const CONTOURS square = {TEST(subject_at), 8, four, 1}, bad = {TEST(subject_at), 8, falling, 2};
    const CONTOURS out = {beyond, 8, four, 1}, few = {wide, 6, three, 1}, many = {wider, 6, three, 1};
    const CONTOURS tall = {high, 6, three, 1};
    CHECK(TEST(tile_status)(1, 0, &few, 1, 1) == POLYOVER_OK);
    CHECK(TEST(tile_status)(1, 0, &many, 1, 1) == POLYOVER_BAD_OPTION);
    CHECK(TEST(tile_status)(1, 0, &many, 2, 1) == POLYOVER_OK);
    CHECK(TEST(tile_status)(1, 0, &tall, 1, 1) == POLYOVER_BAD_OPTION);
    CHECK(TEST(tile_status)(1, 0, &tall, 1, 2) == POLYOVER_OK);
    CHECK(TEST(tile_status)(4, 2, &bad, 0, 0) == POLYOVER_BAD_FILL);
    CHECK(TEST(tile_status)(UINT32_MAX, 0, &square, 1, 1) == POLYOVER_BAD_FILL);
    CHECK(TEST(tile_status)(3, 2, &bad, 0, 0) == POLYOVER_BAD_OPTION);
    CHECK(TEST(tile_status)(3, UINT32_MAX, &square, 1, 1) == POLYOVER_BAD_OPTION);
    CHECK(TEST(tile_status)(3, 1, &bad, 0, 1) == POLYOVER_BAD_OPTION);
    CHECK(TEST(tile_status)(3, 1, &bad, 1, 0) == POLYOVER_BAD_OPTION);
    CHECK(TEST(tile_status)(3, 1, &square, -1, 1) == POLYOVER_BAD_OPTION);
    CHECK(TEST(tile_status)(3, 1, &square, 1, -LIMIT - 1) == POLYOVER_BAD_OPTION);
    CHECK(TEST(tile_status)(3, 1, &square, LIMIT + 1, 1) == POLYOVER_BAD_OPTION);
    CHECK(TEST(tile_status)(3, 1, &square, 1, LIMIT + 1) == POLYOVER_BAD_OPTION);
    CHECK(TEST(tile_status)(3, 1, &bad, 1, 1) == POLYOVER_BAD_ENDS);
    CHECK(TEST(tile_status)(3, 1, &out, 1, 1) == POLYOVER_OUT_OF_RANGE);
}

/* The needles of tests_of_solvers.h, which rounds do not settle, in one cell. */
static void TEST(tiles_not_settled)(void) {
    const size_t both_ends[] = {3, 6};
    const CONTOURS both = {TEST(needles_at), 12, both_ends, 2};
    CHECK(TEST(tile_status)(1, POLYOVER_ROUNDS, &both, LIMIT, LIMIT) == POLYOVER_NOT_SETTLED);
    CHECK(TEST(tile_status)(1, POLYOVER_SNAPPED, &both, LIMIT, LIMIT) == POLYOVER_OK);
}
