/* The tests of slices and clips at one width; the names are those of tests_of_width.h. */

static const NUMBER TEST(square_at)[] = {-10, 10, -10, -10, 10, -10, 10, 10};

/* Slices the square of 20 by lines, into arrays of these lengths. */
static polyover_status TEST(sliced_into)(TEST(room) *room, const NUMBER *lines, size_t count, const size_t *ends,
                                         size_t end_count, size_t coordinates, size_t contours, size_t shapes) {
    static const size_t four[] = {4};
    const CONTOURS subject = {TEST(square_at), 8, four, 1}, paths = {lines, count, ends, end_count};
    TEST(fill_room)(room);
    return NAME(polyover_slice)(POLYOVER_NON_ZERO, POLYOVER_SNAPPED, &subject, &paths, room->coordinates, coordinates,
                                room->contour_ends, contours, room->shape_ends, shapes, &room->counts);
}

static void TEST(slices)(void) {
    const NUMBER across[] = {-20, 0, 20, 0}, closed[] = {-5, -5, -5, 5, 5, 5, 5, -5, -5, -5};
    const NUMBER lower[] = {10, -10, 10, 0, -10, 0, -10, -10, 10, 0, 10, 10, -10, 10, -10, 0};
    const NUMBER ring[] = {10, -10, 10, 10, -10, 10, -10, -10, -5, -5, -5, 5, 5, 5, 5, -5, 5, -5, 5, 5, -5, 5, -5, -5};
    const size_t one[] = {1}, two[] = {2}, five[] = {5}, each[] = {1, 2};
    TEST(room) room;
    CHECK(TEST(sliced_into)(&room, across, 4, two, 1, 64, 8, 8) == POLYOVER_OK);
    CHECK(TEST(has_counts)(&room, 16, 2, 2));
    CHECK(memcmp(room.coordinates, lower, sizeof lower) == 0 && room.coordinates[16] == 77);
    CHECK(room.contour_ends[0] == 4 && room.contour_ends[1] == 8 && room.contour_ends[2] == 77);
    CHECK(room.shape_ends[0] == 1 && room.shape_ends[1] == 2 && room.shape_ends[2] == 77);
    /* (a closed line cuts a hole, and a shape that fills it) */
    CHECK(TEST(sliced_into)(&room, closed, 10, five, 1, 64, 8, 8) == POLYOVER_OK);
    CHECK(TEST(has_counts)(&room, 24, 3, 2));
    CHECK(memcmp(room.coordinates, ring, sizeof ring) == 0);
    CHECK(room.shape_ends[0] == 2 && room.shape_ends[1] == 3);
    /* (no line, and lines of one point) */
    CHECK(TEST(sliced_into)(&room, NULL, 0, NULL, 0, 64, 8, 8) == POLYOVER_OK);
    CHECK(TEST(has_counts)(&room, 8, 1, 1));
    CHECK(TEST(sliced_into)(&room, across, 4, each, 2, 64, 8, 8) == POLYOVER_OK);
    CHECK(TEST(has_counts)(&room, 8, 1, 1));
    CHECK(TEST(sliced_into)(&room, across, 2, one, 1, 64, 8, 8) == POLYOVER_OK);
    CHECK(TEST(has_counts)(&room, 8, 1, 1));
    const size_t rooms[][3] = {{15, 2, 2}, {16, 1, 2}, {16, 2, 1}, {0, 0, 0}};
    for (size_t at = 0; at < 4; at++) {
        CHECK(TEST(sliced_into)(&room, across, 4, two, 1, rooms[at][0], rooms[at][1], rooms[at][2]) ==
              POLYOVER_TOO_SMALL);
        CHECK(TEST(has_counts)(&room, 16, 2, 2) && TEST(is_untouched)(&room));
    }
    CHECK(TEST(sliced_into)(&room, across, 4, two, 1, 16, 2, 2) == POLYOVER_OK);
}

static polyover_status TEST(slice_by)(TEST(room) *room, polyover_fill fill, polyover_solver solver,
                                      const CONTOURS *subject, const CONTOURS *lines) {
    TEST(fill_room)(room);
    polyover_status status = NAME(polyover_slice)(fill, solver, subject, lines, room->coordinates, 64,
                                                  room->contour_ends, 8, room->shape_ends, 8, &room->counts);
    CHECK(status == POLYOVER_OK || (TEST(is_untouched)(room) && TEST(has_counts)(room, 77, 77, 77)));
    return status;
}

static polyover_status TEST(slice_asked)(TEST(room) *room, polyover_fill fill, const CONTOURS *subject,
                                         const CONTOURS *lines) {
    return TEST(slice_by)(room, fill, POLYOVER_SNAPPED, subject, lines);
}

static void TEST(slice_statuses)(void) {
    /* a line that ends inside, and one to both ends of the range */
    const NUMBER ending[] = {-1, 2, 2, 2}, dangling[] = {4, 0, 4, 4, 0, 4, 0, 2, 0, 0};
    const NUMBER far[] = {-LIMIT, 2, LIMIT, 2}, beyond[] = {0, 0, -LIMIT - 1, 4};
    const size_t four[] = {4}, three[] = {3}, two[] = {2}, falling[] = {2, 1};
    const CONTOURS square = {TEST(subject_at), 8, four, 1}, bad = {TEST(subject_at), 8, three, 1};
    const CONTOURS inside = {ending, 4, two, 1}, whole = {far, 4, two, 1}, out = {beyond, 4, two, 1};
    const CONTOURS back = {ending, 4, falling, 2}, none = {NULL, 0, NULL, 0};
    TEST(room) room;
    CHECK(TEST(slice_asked)(&room, POLYOVER_NON_ZERO, &square, &inside) == POLYOVER_OK);
    CHECK(TEST(has_counts)(&room, 10, 1, 1));
    CHECK(memcmp(room.coordinates, dangling, sizeof dangling) == 0);
    CHECK(TEST(slice_asked)(&room, POLYOVER_EVEN_ODD, &square, &whole) == POLYOVER_OK);
    CHECK(TEST(has_counts)(&room, 16, 2, 2));
    CHECK(TEST(slice_asked)(&room, POLYOVER_NEGATIVE, &square, &whole) == POLYOVER_OK);
    CHECK(TEST(has_counts)(&room, 0, 0, 0));
    CHECK(TEST(slice_asked)(&room, POLYOVER_NON_ZERO, &none, &whole) == POLYOVER_OK);
    CHECK(TEST(has_counts)(&room, 0, 0, 0));
    CHECK(TEST(slice_asked)(&room, POLYOVER_NON_ZERO, &none, &none) == POLYOVER_OK);
    CHECK(TEST(has_counts)(&room, 0, 0, 0));
    CHECK(TEST(slice_asked)(&room, 4, &bad, &out) == POLYOVER_BAD_FILL);
    CHECK(TEST(slice_asked)(&room, UINT32_MAX, &square, &inside) == POLYOVER_BAD_FILL);
    CHECK(TEST(slice_by)(&room, 4, 2, &bad, &out) == POLYOVER_BAD_FILL);
    CHECK(TEST(slice_by)(&room, 3, 2, &bad, &out) == POLYOVER_BAD_OPTION);
    CHECK(TEST(slice_by)(&room, 3, UINT32_MAX, &square, &inside) == POLYOVER_BAD_OPTION);
    CHECK(TEST(slice_asked)(&room, 3, &bad, &out) == POLYOVER_BAD_ENDS);
    CHECK(TEST(slice_asked)(&room, 3, &out, &back) == POLYOVER_OUT_OF_RANGE);
    CHECK(TEST(slice_asked)(&room, 3, &square, &back) == POLYOVER_BAD_ENDS);
    CHECK(TEST(slice_asked)(&room, 3, &square, &out) == POLYOVER_OUT_OF_RANGE);
}

/* Arrays for paths, filled with a pattern before each call. */
typedef struct {
    NUMBER coordinates[64];
    size_t ends[8];
    polyover_path_counts counts;
} TEST(path_room);

static int TEST(paths_untouched)(const TEST(path_room) *room) {
    int same = 1;
    for (size_t at = 0; at < 64; at++) {
        same = same && room->coordinates[at] == 77;
    }
    for (size_t at = 0; at < 8; at++) {
        same = same && room->ends[at] == 77;
    }
    return same;
}

/* Clips lines by a shape, into arrays of these lengths. */
static polyover_status TEST(clip_asked)(TEST(path_room) *room, polyover_fill fill, polyover_clip_options options,
                                        const CONTOURS *shape, const CONTOURS *lines, size_t coordinates,
                                        size_t paths) {
    for (size_t at = 0; at < 64; at++) {
        room->coordinates[at] = 77;
    }
    for (size_t at = 0; at < 8; at++) {
        room->ends[at] = 77;
    }
    room->counts = (polyover_path_counts){77, 77};
    polyover_status status = NAME(polyover_clip)(fill, &options, shape, lines, room->coordinates, coordinates,
                                                 room->ends, paths, &room->counts);
    CHECK(status == POLYOVER_OK || TEST(paths_untouched)(room));
    CHECK(status == POLYOVER_OK || status == POLYOVER_TOO_SMALL ||
          (room->counts.coordinates == 77 && room->counts.paths == 77));
    return status;
}

static int TEST(has_paths)(const TEST(path_room) *room, size_t coordinates, size_t paths) {
    return room->counts.coordinates == coordinates && room->counts.paths == paths;
}

static const polyover_clip_options TEST(inside) = {0}, TEST(closure) = {.boundary = 1}, TEST(outside) = {.invert = 1};

static void TEST(clips)(void) {
    const NUMBER upright[] = {0, -15, 0, 15}, there[] = {0, -10, 0, 10}, left[] = {0, -15, 0, -10, 0, 10, 0, 15};
    const NUMBER both_ways[] = {0, -15, 0, 15, 0, 15, 0, -15}, returned[] = {0, -10, 0, 10, 0, -10};
    const NUMBER along[] = {-10, -15, -10, 15}, edge[] = {-10, -10, -10, 10}, apart[] = {0, 0, 10, 0};
    const size_t four[] = {4}, two[] = {2}, twice[] = {2, 4};
    const CONTOURS square = {TEST(square_at), 8, four, 1}, line = {upright, 4, two, 1}, none = {NULL, 0, NULL, 0};
    const CONTOURS back = {both_ways, 8, twice, 2}, side = {along, 4, two, 1}, free_line = {apart, 4, two, 1};
    TEST(path_room) room;
    CHECK(TEST(clip_asked)(&room, POLYOVER_NON_ZERO, TEST(inside), &square, &line, 64, 8) == POLYOVER_OK);
    CHECK(TEST(has_paths)(&room, 4, 1) && memcmp(room.coordinates, there, sizeof there) == 0);
    CHECK(room.coordinates[4] == 77 && room.ends[0] == 2 && room.ends[1] == 77);
    CHECK(TEST(clip_asked)(&room, POLYOVER_NON_ZERO, TEST(outside), &square, &line, 64, 8) == POLYOVER_OK);
    CHECK(TEST(has_paths)(&room, 8, 2) && memcmp(room.coordinates, left, sizeof left) == 0);
    CHECK(room.ends[0] == 2 && room.ends[1] == 4 && room.ends[2] == 77);
    CHECK(TEST(clip_asked)(&room, POLYOVER_NON_ZERO, TEST(inside), &square, &back, 64, 8) == POLYOVER_OK);
    CHECK(TEST(has_paths)(&room, 6, 1) && memcmp(room.coordinates, returned, sizeof returned) == 0);
    CHECK(TEST(clip_asked)(&room, POLYOVER_NON_ZERO, TEST(inside), &square, &side, 64, 8) == POLYOVER_OK);
    CHECK(TEST(has_paths)(&room, 0, 0) && TEST(paths_untouched)(&room));
    CHECK(TEST(clip_asked)(&room, POLYOVER_NON_ZERO, TEST(closure), &square, &side, 64, 8) == POLYOVER_OK);
    CHECK(TEST(has_paths)(&room, 4, 1) && memcmp(room.coordinates, edge, sizeof edge) == 0);
    CHECK(TEST(clip_asked)(&room, POLYOVER_NON_ZERO, TEST(outside), &none, &free_line, 64, 8) == POLYOVER_OK);
    CHECK(TEST(has_paths)(&room, 4, 1) && memcmp(room.coordinates, apart, sizeof apart) == 0);
    CHECK(TEST(clip_asked)(&room, POLYOVER_NON_ZERO, TEST(inside), &square, &none, 0, 0) == POLYOVER_OK);
    CHECK(TEST(has_paths)(&room, 0, 0));
    const size_t rooms[][2] = {{7, 2}, {8, 1}, {0, 0}};
    for (size_t at = 0; at < 3; at++) {
        CHECK(TEST(clip_asked)(&room, POLYOVER_NON_ZERO, TEST(outside), &square, &line, rooms[at][0], rooms[at][1]) ==
              POLYOVER_TOO_SMALL);
        CHECK(TEST(has_paths)(&room, 8, 2));
    }
    CHECK(TEST(clip_asked)(&room, POLYOVER_NON_ZERO, TEST(outside), &square, &line, 8, 2) == POLYOVER_OK);
}

static void TEST(clipped_path)(void) {
    const NUMBER path[] = {-20, 10, -20, 0, 0, 0, 0, 10, 5, 10, 20, -5, 5, -5, 0, -10, -5, -5, -15, -15};
    const NUMBER first[] = {10, -5, 5, -5, 0, -10, -5, -5, -10, -10, -10, 0, 0, 0, 0, 10, 5, 10, 10, 5};
    const size_t four[] = {4}, ten[] = {10};
    const CONTOURS square = {TEST(square_at), 8, four, 1}, line = {path, 20, ten, 1};
    TEST(path_room) room;
    CHECK(TEST(clip_asked)(&room, POLYOVER_NON_ZERO, TEST(inside), &square, &line, 64, 8) == POLYOVER_OK);
    CHECK(TEST(has_paths)(&room, 20, 3) && memcmp(room.coordinates, first, sizeof first) == 0);
    CHECK(room.ends[0] == 5 && room.ends[1] == 8 && room.ends[2] == 10);
    CHECK(TEST(clip_asked)(&room, POLYOVER_NON_ZERO, TEST(closure), &square, &line, 64, 8) == POLYOVER_OK);
    CHECK(TEST(has_paths)(&room, 20, 2) && memcmp(room.coordinates, first, sizeof first) == 0);
    CHECK(room.ends[0] == 5 && room.ends[1] == 10);
}

static void TEST(clip_statuses)(void) {
    const NUMBER far[] = {-LIMIT, 2, LIMIT, 2}, part[] = {0, 2, 4, 2}, beyond[] = {0, 0, -LIMIT - 1, 4};
    const size_t four[] = {4}, three[] = {3}, two[] = {2}, falling[] = {2, 1};
    const CONTOURS square = {TEST(subject_at), 8, four, 1}, bad = {TEST(subject_at), 8, three, 1};
    const CONTOURS whole = {far, 4, two, 1}, out = {beyond, 4, two, 1}, back = {far, 4, falling, 2};
    const polyover_clip_options invert = {.invert = 2}, boundary = {.boundary = UINT32_MAX}, solver = {.solver = 2};
    TEST(path_room) room;
    CHECK(TEST(clip_asked)(&room, POLYOVER_EVEN_ODD, TEST(inside), &square, &whole, 64, 8) == POLYOVER_OK);
    CHECK(TEST(has_paths)(&room, 4, 1) && memcmp(room.coordinates, part, sizeof part) == 0);
    CHECK(TEST(clip_asked)(&room, POLYOVER_EVEN_ODD, TEST(outside), &square, &whole, 64, 8) == POLYOVER_OK);
    CHECK(TEST(has_paths)(&room, 8, 2) && room.coordinates[0] == -LIMIT && room.coordinates[6] == LIMIT);
    CHECK(TEST(clip_asked)(&room, POLYOVER_NEGATIVE, TEST(inside), &square, &whole, 64, 8) == POLYOVER_OK);
    CHECK(TEST(has_paths)(&room, 0, 0));
    CHECK(TEST(clip_asked)(&room, 4, invert, &bad, &out, 64, 8) == POLYOVER_BAD_FILL);
    CHECK(TEST(clip_asked)(&room, UINT32_MAX, TEST(inside), &square, &whole, 64, 8) == POLYOVER_BAD_FILL);
    CHECK(TEST(clip_asked)(&room, 3, invert, &bad, &out, 64, 8) == POLYOVER_BAD_OPTION);
    CHECK(TEST(clip_asked)(&room, 3, boundary, &bad, &out, 64, 8) == POLYOVER_BAD_OPTION);
    CHECK(TEST(clip_asked)(&room, 3, solver, &bad, &out, 64, 8) == POLYOVER_BAD_OPTION);
    CHECK(TEST(clip_asked)(&room, 3, TEST(closure), &bad, &out, 64, 8) == POLYOVER_BAD_ENDS);
    CHECK(TEST(clip_asked)(&room, 3, TEST(closure), &out, &back, 64, 8) == POLYOVER_OUT_OF_RANGE);
    CHECK(TEST(clip_asked)(&room, 3, TEST(closure), &square, &back, 64, 8) == POLYOVER_BAD_ENDS);
    CHECK(TEST(clip_asked)(&room, 3, TEST(closure), &square, &out, 64, 8) == POLYOVER_OUT_OF_RANGE);
    /* (no options: the parts inside) */
    CHECK(NAME(polyover_clip)(POLYOVER_EVEN_ODD, NULL, &square, &whole, room.coordinates, 64, room.ends, 8,
                              &room.counts) == POLYOVER_OK);
    CHECK(TEST(has_paths)(&room, 4, 1) && memcmp(room.coordinates, part, sizeof part) == 0);
    CHECK(NAME(polyover_clip)(3, NULL, &bad, &out, room.coordinates, 64, room.ends, 8, &room.counts) ==
          POLYOVER_BAD_ENDS);
}
