/* The tests of shapes with links at one width; the names are those of tests_of_width.h. */

/* Arrays for shapes and links, filled with a pattern before each call. */
typedef struct {
    TEST(room) shapes;
    polyover_link links[8];
    size_t link_count;
} TEST(linked_room);

static int TEST(is_link)(const polyover_link *link, size_t shape, size_t contour, size_t child) {
    return link->parent_shape == shape && link->parent_contour == contour && link->child_shape == child;
}

static int TEST(links_untouched)(const TEST(linked_room) *room) {
    int same = TEST(is_untouched)(&room->shapes);
    for (size_t at = 0; at < 8; at++) {
        same = same && TEST(is_link)(&room->links[at], 77, 77, 77);
    }
    return same;
}

static polyover_status TEST(hierarchy_asked)(TEST(linked_room) *room, polyover_rule rule, polyover_fill fill,
                                             const OPTIONS *options, const CONTOURS *subject, const CONTOURS *clip,
                                             const size_t *rooms) {
    TEST(fill_room)(&room->shapes);
    for (size_t at = 0; at < 8; at++) {
        room->links[at] = (polyover_link){77, 77, 77};
    }
    room->link_count = 77;
    polyover_status status = NAME(polyover_hierarchy)(
        rule, fill, options, subject, clip, room->shapes.coordinates, rooms[0], room->shapes.contour_ends, rooms[1],
        room->shapes.shape_ends, rooms[2], room->links, rooms[3], &room->shapes.counts, &room->link_count);
    CHECK(status == POLYOVER_OK || TEST(links_untouched)(room));
    CHECK(status == POLYOVER_OK || status == POLYOVER_TOO_SMALL ||
          (TEST(has_counts)(&room->shapes, 77, 77, 77) && room->link_count == 77));
    return status;
}

/* Squares, each by the ends of its sides in x and y. */
static void TEST(squares_at)(NUMBER *coordinates, size_t *ends, const NUMBER *sides, size_t count) {
    for (size_t at = 0; at < count; at++) {
        const NUMBER low = sides[2 * at], high = sides[2 * at + 1];
        const NUMBER square[] = {low, low, high, low, high, high, low, high};
        memcpy(coordinates + 8 * at, square, sizeof square);
        ends[at] = 4 * (at + 1);
    }
}

static const size_t TEST(ample)[] = {64, 8, 8, 8};

static void TEST(hierarchies)(void) {
    const NUMBER nested[] = {0, 100, 10, 90, 20, 80, 30, 70, 40, 60}, beside[] = {0, 100, 10, 90, 20, 30, 60, 70};
    const OPTIONS by_default = {0}, large = SMALLEST(6401);
    NUMBER coordinates[40];
    size_t ends[5];
    TEST(linked_room) room;
    TEST(squares_at)(coordinates, ends, nested, 5);
    const CONTOURS five = {coordinates, 40, ends, 5}, four = {coordinates, 32, ends, 4}, none = {NULL, 0, NULL, 0};
    CHECK(TEST(hierarchy_asked)(&room, POLYOVER_SUBJECT, POLYOVER_EVEN_ODD, &by_default, &five, &none, TEST(ample)) ==
          POLYOVER_OK);
    CHECK(TEST(has_counts)(&room.shapes, 40, 5, 3) && room.link_count == 2);
    CHECK(room.shapes.shape_ends[0] == 2 && room.shapes.shape_ends[1] == 4 && room.shapes.shape_ends[2] == 5);
    CHECK(room.shapes.contour_ends[0] == 4 && room.shapes.contour_ends[4] == 20 && room.shapes.contour_ends[5] == 77);
    CHECK(TEST(is_link)(&room.links[0], 0, 1, 1) && TEST(is_link)(&room.links[1], 1, 3, 2));
    CHECK(TEST(is_link)(&room.links[2], 77, 77, 77));
    const size_t rooms[][4] = {{39, 5, 3, 2}, {40, 4, 3, 2}, {40, 5, 2, 2}, {40, 5, 3, 1}, {0, 0, 0, 0}};
    for (size_t at = 0; at < 5; at++) {
        CHECK(TEST(hierarchy_asked)(&room, POLYOVER_SUBJECT, POLYOVER_EVEN_ODD, &by_default, &five, &none, rooms[at]) ==
              POLYOVER_TOO_SMALL);
        CHECK(TEST(has_counts)(&room.shapes, 40, 5, 3) && room.link_count == 2);
    }
    const size_t exact[] = {40, 5, 3, 2}, without[] = {64, 8, 8, 0};
    CHECK(TEST(hierarchy_asked)(&room, POLYOVER_SUBJECT, POLYOVER_EVEN_ODD, &by_default, &five, &none, exact) ==
          POLYOVER_OK);
    /* (a positive smallest area keeps the outermost square alone; there is no link) */
    CHECK(TEST(hierarchy_asked)(&room, POLYOVER_SUBJECT, POLYOVER_EVEN_ODD, &large, &five, &none, without) ==
          POLYOVER_OK);
    CHECK(TEST(has_counts)(&room.shapes, 8, 1, 1) && room.link_count == 0);
    TEST(squares_at)(coordinates, ends, beside, 4);
    CHECK(TEST(hierarchy_asked)(&room, POLYOVER_SUBJECT, POLYOVER_EVEN_ODD, &by_default, &four, NULL, TEST(ample)) ==
          POLYOVER_OK);
    CHECK(TEST(has_counts)(&room.shapes, 32, 4, 3) && room.link_count == 2);
    CHECK(room.shapes.shape_ends[0] == 2 && room.shapes.shape_ends[1] == 3 && room.shapes.shape_ends[2] == 4);
    CHECK(TEST(is_link)(&room.links[0], 0, 1, 1) && TEST(is_link)(&room.links[1], 0, 1, 2));
    CHECK(TEST(hierarchy_asked)(&room, POLYOVER_UNION, POLYOVER_NON_ZERO, &by_default, &none, &none, without) ==
          POLYOVER_OK);
    CHECK(TEST(has_counts)(&room.shapes, 0, 0, 0) && room.link_count == 0);
}

static polyover_status TEST(linked)(polyover_rule rule, polyover_fill fill, const OPTIONS *options,
                                    const CONTOURS *subject, const CONTOURS *clip) {
    TEST(linked_room) room;
    return TEST(hierarchy_asked)(&room, rule, fill, options, subject, clip, TEST(ample));
}

static void TEST(hierarchy_statuses)(void) {
    const OPTIONS by_default = {0}, direction = {.direction = 2}, keep = {.keep = 4}, solver = {.solver = 2};
    const OPTIONS touching = {.touching = UINT32_MAX};
    const NUMBER beyond[] = {0, 0, LIMIT, 0, -LIMIT - 1, 4, 0, 4}, far[] = {-LIMIT, -LIMIT, LIMIT, -LIMIT, 0, LIMIT};
    const size_t four[] = {4}, three[] = {3}, falling[] = {4, 3};
    const CONTOURS square = {TEST(subject_at), 8, four, 1}, bad = {TEST(subject_at), 8, falling, 2};
    const CONTOURS out = {beyond, 8, four, 1}, whole = {far, 6, three, 1}, none = {NULL, 0, NULL, 0};
    CHECK(TEST(linked)(7, 4, &touching, &bad, &out) == POLYOVER_BAD_RULE);
    CHECK(TEST(linked)(6, UINT32_MAX, &touching, &bad, &out) == POLYOVER_BAD_FILL);
    CHECK(TEST(linked)(6, 3, &direction, &bad, &out) == POLYOVER_BAD_OPTION);
    CHECK(TEST(linked)(6, 3, &keep, &bad, &out) == POLYOVER_BAD_OPTION);
    CHECK(TEST(linked)(6, 3, &touching, &bad, &out) == POLYOVER_BAD_OPTION);
    CHECK(TEST(linked)(6, 3, &solver, &bad, &out) == POLYOVER_BAD_OPTION);
    CHECK(TEST(linked)(6, 3, NULL, &bad, &out) == POLYOVER_BAD_ENDS);
    CHECK(TEST(linked)(6, 3, NULL, &square, &square) == POLYOVER_OK);
    CHECK(TEST(linked)(6, 3, &by_default, &bad, &out) == POLYOVER_BAD_ENDS);
    CHECK(TEST(linked)(6, 3, &by_default, &out, &bad) == POLYOVER_OUT_OF_RANGE);
    CHECK(TEST(linked)(6, 3, &by_default, &square, &bad) == POLYOVER_BAD_ENDS);
    CHECK(TEST(linked)(6, 3, &by_default, &none, &out) == POLYOVER_OUT_OF_RANGE);
    /* (a square in a triangle to the ends of the range leaves a hole, and nothing in it) */
    TEST(linked_room) room;
    CHECK(TEST(hierarchy_asked)(&room, POLYOVER_DIFFERENCE, POLYOVER_NON_ZERO, &by_default, &whole, &square,
                                TEST(ample)) == POLYOVER_OK);
    CHECK(TEST(has_counts)(&room.shapes, 14, 2, 1) && room.link_count == 0);
}
