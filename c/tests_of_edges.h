/* Tests at one width of the edges of an arrangement; the names are those of tests_of_width.h. */

/* Arrays for edges, filled with a pattern before each call, so that writes are seen. */
typedef struct {
    NUMBER coordinates[64];
    uint8_t fills[16];
    size_t count;
} TEST(edge_room);

static polyover_status TEST(listed_by)(TEST(edge_room) *room, polyover_fill fill, polyover_solver solver,
                                       const CONTOURS *subject, const CONTOURS *clip, size_t coordinates,
                                       size_t fills) {
    for (size_t at = 0; at < 64; at++) {
        room->coordinates[at] = 77;
    }
    memset(room->fills, 77, 16);
    room->count = 77;
    polyover_status status = NAME(polyover_edges)(fill, solver, subject, clip, room->coordinates, coordinates,
                                                  room->fills, fills, &room->count);
    size_t written = status == POLYOVER_OK ? room->count : 0;
    for (size_t at = 4 * written; at < 64; at++) {
        CHECK(room->coordinates[at] == 77);
    }
    for (size_t at = written; at < 16; at++) {
        CHECK(room->fills[at] == 77);
    }
    CHECK(status == POLYOVER_OK || status == POLYOVER_TOO_SMALL || room->count == 77);
    return status;
}

static polyover_status TEST(listed)(TEST(edge_room) *room, polyover_fill fill, const CONTOURS *subject,
                                    const CONTOURS *clip, size_t coordinates, size_t fills) {
    return TEST(listed_by)(room, fill, POLYOVER_SNAPPED, subject, clip, coordinates, fills);
}

static void TEST(edges)(void) {
    /* two squares side by side share a single edge, with both sides filled */
    const NUMBER beside[] = {4, 0, 8, 0, 8, 4, 4, 4};
    const NUMBER of_both[] = {0, 0, 0, 4, 0, 0, 4, 0, 0, 4, 4, 4, 4, 0, 4, 4, 4, 0, 8, 0, 4, 4, 8, 4, 8, 0, 8, 4};
    const uint8_t fills[] = {2, 1, 2, 9, 4, 8, 4};
    const NUMBER all[] = {-LIMIT, -LIMIT, LIMIT, -LIMIT, LIMIT, LIMIT};
    const NUMBER of_all[] = {-LIMIT, -LIMIT, LIMIT, -LIMIT, -LIMIT, -LIMIT, LIMIT, LIMIT, LIMIT, -LIMIT, LIMIT, LIMIT};
    const size_t four[] = {4}, three[] = {3};
    const CONTOURS square = {TEST(subject_at), 8, four, 1}, other = {beside, 8, four, 1}, far = {all, 6, three, 1};
    const CONTOURS none = {NULL, 0, NULL, 0};
    TEST(edge_room) room;
    CHECK(TEST(listed)(&room, POLYOVER_NON_ZERO, &square, &other, 64, 16) == POLYOVER_OK);
    CHECK(room.count == 7 && memcmp(room.coordinates, of_both, sizeof of_both) == 0);
    CHECK(memcmp(room.fills, fills, sizeof fills) == 0);
    CHECK(TEST(listed)(&room, POLYOVER_NON_ZERO, &square, &other, 28, 7) == POLYOVER_OK);
    CHECK(TEST(listed)(&room, POLYOVER_NON_ZERO, &square, &other, 27, 7) == POLYOVER_TOO_SMALL && room.count == 7);
    CHECK(TEST(listed)(&room, POLYOVER_NON_ZERO, &square, &other, 28, 6) == POLYOVER_TOO_SMALL && room.count == 7);
    /* (an edge that fills no side is there, with no bit) */
    CHECK(TEST(listed)(&room, POLYOVER_NEGATIVE, &square, &other, 64, 16) == POLYOVER_OK);
    CHECK(room.count == 7 && room.fills[0] == 0 && room.fills[6] == 0);
    CHECK(TEST(listed)(&room, POLYOVER_EVEN_ODD, &none, &far, 64, 16) == POLYOVER_OK);
    CHECK(room.count == 3 && memcmp(room.coordinates, of_all, sizeof of_all) == 0);
    CHECK(room.fills[0] == POLYOVER_CLIP_LEFT && room.fills[1] == POLYOVER_CLIP_RIGHT);
    CHECK(room.fills[2] == POLYOVER_CLIP_LEFT);
    /* (a clip that is not given has no contours) */
    CHECK(TEST(listed)(&room, POLYOVER_NON_ZERO, &square, NULL, 64, 16) == POLYOVER_OK && room.count == 4);
    CHECK(memcmp(room.fills, ((uint8_t[]){2, 1, 2, 1}), 4) == 0);
    CHECK(NAME(polyover_edges)(POLYOVER_EVEN_ODD, POLYOVER_ROUNDS, &none, &none, NULL, 0, NULL, 0, &room.count) ==
          POLYOVER_OK);
    CHECK(room.count == 0);
}

static void TEST(listing_refused)(void) {
    const NUMBER beyond[] = {0, 0, LIMIT, 0, -LIMIT - 1, 4, 0, 4};
    const size_t four[] = {4}, falling[] = {4, 3};
    const CONTOURS square = {TEST(subject_at), 8, four, 1}, bad = {TEST(subject_at), 8, falling, 2};
    const CONTOURS far = {beyond, 8, four, 1}, none = {NULL, 0, NULL, 0};
    TEST(edge_room) room;
    CHECK(TEST(listed_by)(&room, 4, 2, &bad, &far, 0, 0) == POLYOVER_BAD_FILL);
    CHECK(TEST(listed_by)(&room, 3, 2, &bad, &far, 0, 0) == POLYOVER_BAD_OPTION);
    CHECK(TEST(listed_by)(&room, 3, UINT32_MAX, &square, &square, 64, 16) == POLYOVER_BAD_OPTION);
    CHECK(TEST(listed)(&room, 3, &bad, &far, 0, 0) == POLYOVER_BAD_ENDS);
    CHECK(TEST(listed)(&room, 3, &far, &bad, 0, 0) == POLYOVER_OUT_OF_RANGE);
    CHECK(TEST(listed)(&room, 3, &square, &bad, 0, 0) == POLYOVER_BAD_ENDS);
    CHECK(TEST(listed)(&room, 3, &none, &far, 0, 0) == POLYOVER_OUT_OF_RANGE);
}
