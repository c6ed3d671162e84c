/* Tests at one width of the locations of points; the names are those of tests_of_width.h. */

/* An array for locations, filled with a pattern before each call, so that writes are seen. */
typedef struct {
    uint8_t locations[8];
    size_t unresolved;
} TEST(places);

static polyover_status TEST(located)(TEST(places) *places, const CONTOURS *shape, const NUMBER *points, size_t count,
                                     size_t room) {
    memset(places->locations, 77, 8);
    places->unresolved = 77;
    polyover_status status =
        NAME(polyover_locate)(shape, points, count, places->locations, room, &places->unresolved);
    for (size_t at = status == POLYOVER_OK ? count / 2 : 0; at < 8; at++) {
        CHECK(places->locations[at] == 77);
    }
    CHECK(status == POLYOVER_NOT_RESOLVED || places->unresolved == 77);
    return status;
}

static void TEST(locations)(void) {
    const NUMBER bent[] = {0, 0, 10, 0, 10, 10, 5, 10, 5, 5, 0, 5};
    const NUMBER holed[] = {0, 0, 10, 0, 10, 10, 0, 10, 3, 7, 7, 7, 7, 3, 3, 3};
    const NUMBER all[] = {-LIMIT, -LIMIT, LIMIT, -LIMIT, LIMIT, LIMIT, -LIMIT, LIMIT};
    const size_t six[] = {6}, both[] = {4, 8}, four[] = {4};
    const CONTOURS first = {bent, 12, six, 1}, second = {holed, 16, both, 2}, third = {all, 8, four, 1};
    const CONTOURS none = {NULL, 0, NULL, 0};
    const NUMBER of_bent[] = {5, 2, 4, 7, 6, 7, 5, 12, 5, 7, 0, 0};
    const NUMBER of_holed[] = {5, 5, 1, 1, 2, 5, 3, 5, 20, 20};
    const NUMBER of_all[] = {LIMIT, LIMIT, LIMIT - 1, 0, 0, -LIMIT};
    TEST(places) places;
    CHECK(TEST(located)(&places, &first, of_bent, 12, 8) == POLYOVER_OK);
    CHECK(memcmp(places.locations, (uint8_t[]){1, 0, 1, 0, 2, 2}, 6) == 0);
    CHECK(TEST(located)(&places, &second, of_holed, 10, 5) == POLYOVER_OK);
    CHECK(memcmp(places.locations, (uint8_t[]){0, 1, 1, 2, 0}, 5) == 0);
    CHECK(TEST(located)(&places, &third, of_all, 6, 3) == POLYOVER_OK);
    CHECK(memcmp(places.locations, (uint8_t[]){2, 1, 2}, 3) == 0);
    CHECK(TEST(located)(&places, &none, of_all, 6, 3) == POLYOVER_OK);
    CHECK(memcmp(places.locations, (uint8_t[]){0, 0, 0}, 3) == 0);
    CHECK(TEST(located)(&places, &first, NULL, 0, 0) == POLYOVER_OK);
    CHECK(NAME(polyover_locate)(&none, NULL, 0, NULL, 0, &places.unresolved) == POLYOVER_OK);
}

static void TEST(locating_refused)(void) {
    const NUMBER crossing[] = {0, 0, 4, 0, 4, 4, 0, 4, 0, 0, 4, 4, 4, 0, 0, 4, 1, 1, 2, 2};
    const NUMBER beyond[] = {0, 0, 4, 0, 4, LIMIT + 1};
    const size_t four[] = {4}, parts[] = {4, 8, 10}, falling[] = {4, 3}, three[] = {3};
    const CONTOURS square = {crossing, 8, four, 1}, bad = {crossing, 8, falling, 2}, far = {beyond, 6, three, 1};
    const CONTOURS crossed = {crossing, 20, parts, 3};
    const NUMBER points[] = {1, 1, 2, 2, LIMIT, -LIMIT - 1};
    TEST(places) places;
    CHECK(TEST(located)(&places, &bad, points, 5, 8) == POLYOVER_BAD_ENDS);
    CHECK(TEST(located)(&places, &far, points, 5, 8) == POLYOVER_OUT_OF_RANGE);
    CHECK(TEST(located)(&places, &crossed, points, 5, 1) == POLYOVER_BAD_ENDS);
    CHECK(TEST(located)(&places, &crossed, points, 6, 1) == POLYOVER_OUT_OF_RANGE);
    CHECK(TEST(located)(&places, &crossed, points, 4, 1) == POLYOVER_TOO_SMALL);
    CHECK(TEST(located)(&places, &crossed, points, 4, 2) == POLYOVER_NOT_RESOLVED);
    CHECK(places.unresolved == 1);
    CHECK(TEST(located)(&places, &square, points, 4, 1) == POLYOVER_TOO_SMALL);
    CHECK(TEST(located)(&places, &square, points, 4, 2) == POLYOVER_OK);
    CHECK(places.locations[0] == POLYOVER_INSIDE && places.locations[1] == POLYOVER_INSIDE);
}
