/* Tests at one width of both solvers; the names are those of tests_of_width.h.
 *
 * Two needles, whose long sides cross so flatly that each round moves their crossing on by one unit: 66 rounds would
 * settle them. By snap rounding (0, 65) is led into the long sides, and the tips above it fall to lines. Then the first
 * needle is (2, 0), (0, 65), (1, 0), (2, -66), of twice the area 131, and the second (0, 65), (-1, 0), (1, 0), of
 * twice the area 130. They share the edge from (0, 65) to (1, 0). */

static const NUMBER TEST(needles_at)[] = {2, 0, 0, 66, 2, -66, 1, 0, 0, 67, -1, 0};

/* Returns twice the area that a counter-clockwise contour encloses. */
static NUMBER TEST(doubled_area)(const NUMBER *points, size_t coordinates) {
    NUMBER area = 0;
    for (size_t at = 0; at < coordinates; at += 2) {
        const NUMBER *to = points + (at + 2) % coordinates;
        area += points[at] * to[1] - to[0] * points[at + 1];
    }
    return area;
}

static void TEST(shapes_by_solver)(const CONTOURS *first, const CONTOURS *second) {
    const NUMBER united[] = {0, 65, -1, 0, 1, 0, 2, -66, 2, 0};
    const size_t both_ends[] = {3, 6};
    const CONTOURS both = {TEST(needles_at), 12, both_ends, 2};
    const OPTIONS by_default = {0}, rounds = {.solver = POLYOVER_ROUNDS};
    TEST(linked_room) linked;
    TEST(room) room;
    CHECK(TEST(asked)(&room, POLYOVER_UNION, POLYOVER_NON_ZERO, &by_default, first, second) == POLYOVER_OK);
    CHECK(TEST(has_counts)(&room, 10, 1, 1) && memcmp(room.coordinates, united, sizeof united) == 0);
    CHECK(TEST(asked)(&room, POLYOVER_UNION, POLYOVER_NON_ZERO, NULL, first, second) == POLYOVER_OK);
    CHECK(TEST(has_counts)(&room, 10, 1, 1) && memcmp(room.coordinates, united, sizeof united) == 0);
    CHECK(TEST(asked)(&room, POLYOVER_UNION, POLYOVER_NON_ZERO, &rounds, first, second) == POLYOVER_NOT_SETTLED);
    CHECK(TEST(simplified)(&room, POLYOVER_NON_ZERO, &by_default, &both, 64) == POLYOVER_OK);
    CHECK(TEST(has_counts)(&room, 10, 1, 1) && TEST(doubled_area)(room.coordinates, 10) == 261);
    CHECK(TEST(simplified)(&room, POLYOVER_NON_ZERO, NULL, &both, 64) == POLYOVER_OK);
    CHECK(TEST(has_counts)(&room, 10, 1, 1) && TEST(doubled_area)(room.coordinates, 10) == 261);
    CHECK(TEST(simplified)(&room, POLYOVER_NON_ZERO, &rounds, &both, 64) == POLYOVER_NOT_SETTLED);
    CHECK(TEST(hierarchy_asked)(&linked, POLYOVER_UNION, POLYOVER_NON_ZERO, NULL, first, second, TEST(ample)) ==
          POLYOVER_OK);
    CHECK(TEST(has_counts)(&linked.shapes, 10, 1, 1) && linked.link_count == 0);
    CHECK(memcmp(linked.shapes.coordinates, united, sizeof united) == 0);
    CHECK(TEST(hierarchy_asked)(&linked, POLYOVER_UNION, POLYOVER_NON_ZERO, &rounds, first, second, TEST(ample)) ==
          POLYOVER_NOT_SETTLED);
}

static void TEST(lines_by_solver)(const CONTOURS *needle) {
    /* the long side of the second needle, which runs along the first up to (0, 65) */
    const NUMBER along[] = {1, 0, 0, 65};
    const size_t two[] = {2};
    const CONTOURS line = {TEST(needles_at) + 6, 4, two, 1};
    const polyover_clip_options rounds = {.boundary = 1, .solver = POLYOVER_ROUNDS};
    TEST(path_room) paths;
    TEST(room) room;
    CHECK(TEST(slice_by)(&room, POLYOVER_NON_ZERO, POLYOVER_SNAPPED, needle, &line) == POLYOVER_OK);
    CHECK(TEST(has_counts)(&room, 8, 1, 1) && TEST(doubled_area)(room.coordinates, 8) == 131);
    CHECK(TEST(slice_by)(&room, POLYOVER_NON_ZERO, POLYOVER_ROUNDS, needle, &line) == POLYOVER_NOT_SETTLED);
    CHECK(TEST(clip_asked)(&paths, POLYOVER_NON_ZERO, TEST(closure), needle, &line, 64, 8) == POLYOVER_OK);
    CHECK(TEST(has_paths)(&paths, 4, 1) && memcmp(paths.coordinates, along, sizeof along) == 0);
    CHECK(TEST(clip_asked)(&paths, POLYOVER_NON_ZERO, TEST(inside), needle, &line, 64, 8) == POLYOVER_OK);
    CHECK(TEST(has_paths)(&paths, 0, 0));
    CHECK(TEST(clip_asked)(&paths, POLYOVER_NON_ZERO, rounds, needle, &line, 64, 8) == POLYOVER_NOT_SETTLED);
}

static void TEST(solvers)(void) {
    const size_t three[] = {3};
    const CONTOURS first = {TEST(needles_at), 6, three, 1}, second = {TEST(needles_at) + 6, 6, three, 1};
    polyover_relations relations = 77;
    TEST(edge_room) edges;
    TEST(shapes_by_solver)(&first, &second);
    TEST(lines_by_solver)(&first);
    CHECK(NAME(polyover_relate)(POLYOVER_NON_ZERO, POLYOVER_ROUNDS, &first, &second, &relations) ==
          POLYOVER_NOT_SETTLED);
    CHECK(relations == 77);
    CHECK(NAME(polyover_relate)(POLYOVER_NON_ZERO, POLYOVER_SNAPPED, &first, &second, &relations) == POLYOVER_OK);
    CHECK(relations == (POLYOVER_INTERSECTS | POLYOVER_TOUCHES));
    /* (four sides of the first needle, and two more of the second) */
    CHECK(TEST(listed_by)(&edges, POLYOVER_NON_ZERO, POLYOVER_SNAPPED, &first, &second, 64, 16) == POLYOVER_OK);
    CHECK(edges.count == 6);
    CHECK(TEST(listed_by)(&edges, POLYOVER_NON_ZERO, POLYOVER_ROUNDS, &first, &second, 64, 16) ==
          POLYOVER_NOT_SETTLED);
}
