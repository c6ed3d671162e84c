/* Tests at one width of the relations of shapes; the names are those of tests_of_width.h. */

/* The relations of two squares, told by their lower left and upper right corners. */
static polyover_relations TEST(related)(const NUMBER *subject, const NUMBER *clip, polyover_fill fill) {
    static const size_t four[] = {4};
    const NUMBER first[] = {subject[0], subject[1], subject[2], subject[1],
                            subject[2], subject[3], subject[0], subject[3]};
    const NUMBER second[] = {clip[0], clip[1], clip[2], clip[1], clip[2], clip[3], clip[0], clip[3]};
    const CONTOURS given = {first, 8, four, 1}, other = {second, 8, four, 1};
    polyover_relations relations = 77, exact = 77;
    CHECK(NAME(polyover_relate)(fill, POLYOVER_SNAPPED, &given, &other, &relations) == POLYOVER_OK);
    CHECK(NAME(polyover_relate_exact)(fill, &given, &other, &exact) == POLYOVER_OK);
    CHECK(exact == relations);
    for (polyover_relations bit = POLYOVER_INTERSECTS; bit <= POLYOVER_COVERS; bit *= 2) {
        uint32_t holds = 77;
        CHECK(NAME(polyover_relate_one)(bit, fill, POLYOVER_SNAPPED, &given, &other, &holds) == POLYOVER_OK);
        CHECK(holds == ((relations & bit) != 0));
        holds = 77;
        CHECK(NAME(polyover_relate_one_exact)(bit, fill, &given, &other, &holds) == POLYOVER_OK);
        CHECK(holds == ((relations & bit) != 0));
    }
    return relations;
}

static void TEST(relations)(void) {
    const NUMBER square[] = {0, 0, 2, 2}, corner[] = {2, 2, 4, 4}, beside[] = {2, 0, 4, 2}, far[] = {9, 9, 10, 10};
    const NUMBER around[] = {-1, -1, 3, 3}, across[] = {1, 1, 3, 3};
    const NUMBER all[] = {-LIMIT, -LIMIT, LIMIT, LIMIT};
    const polyover_relations touches = POLYOVER_INTERSECTS | POLYOVER_TOUCHES;
    const polyover_relations overlaps = POLYOVER_INTERSECTS | POLYOVER_INTERIORS_INTERSECT;
    CHECK(TEST(related)(square, corner, POLYOVER_EVEN_ODD) == (touches | POLYOVER_POINT_INTERSECTS));
    CHECK(TEST(related)(square, beside, POLYOVER_EVEN_ODD) == touches);
    CHECK(TEST(related)(square, square, POLYOVER_EVEN_ODD) == (overlaps | POLYOVER_WITHIN | POLYOVER_COVERS));
    CHECK(TEST(related)(square, far, POLYOVER_EVEN_ODD) == POLYOVER_DISJOINT);
    CHECK(TEST(related)(square, across, POLYOVER_POSITIVE) == overlaps);
    CHECK(TEST(related)(square, around, POLYOVER_NON_ZERO) == (overlaps | POLYOVER_WITHIN));
    CHECK(TEST(related)(around, square, POLYOVER_NON_ZERO) == (overlaps | POLYOVER_COVERS));
    CHECK(TEST(related)(square, around, POLYOVER_NEGATIVE) == POLYOVER_DISJOINT);
    CHECK(TEST(related)(all, all, POLYOVER_NON_ZERO) == (overlaps | POLYOVER_WITHIN | POLYOVER_COVERS));
}

/* Two small triangles. The second collapses to a line; multiplied by 4 they have their true relations. */
static void TEST(small_triangles)(void) {
    const NUMBER first[] = {1, 2, 2, 0, 3, 2}, second[] = {0, 0, 3, 2, 2, 1};
    NUMBER first_by_4[6], second_by_4[6];
    for (size_t at = 0; at < 6; at++) {
        first_by_4[at] = 4 * first[at];
        second_by_4[at] = 4 * second[at];
    }
    const size_t three[] = {3};
    const CONTOURS subject = {first, 6, three, 1}, clip = {second, 6, three, 1};
    const CONTOURS subject_by_4 = {first_by_4, 6, three, 1}, clip_by_4 = {second_by_4, 6, three, 1};
    for (polyover_solver solver = POLYOVER_SNAPPED; solver <= POLYOVER_ROUNDS; solver++) {
        polyover_relations relations = 77;
        CHECK(NAME(polyover_relate)(POLYOVER_NON_ZERO, solver, &subject, &clip, &relations) == POLYOVER_OK);
        CHECK(relations == POLYOVER_DISJOINT);
        CHECK(NAME(polyover_relate)(POLYOVER_NON_ZERO, solver, &subject_by_4, &clip_by_4, &relations) == POLYOVER_OK);
        CHECK(relations == (POLYOVER_INTERSECTS | POLYOVER_INTERIORS_INTERSECT));
    }
}

static polyover_status TEST(not_related_by)(polyover_fill fill, polyover_solver solver, const CONTOURS *subject,
                                            const CONTOURS *clip) {
    polyover_relations relations = 77;
    polyover_status status = NAME(polyover_relate)(fill, solver, subject, clip, &relations);
    CHECK(status == POLYOVER_OK || relations == 77);
    CHECK(status != POLYOVER_OK || relations == POLYOVER_DISJOINT);
    return status;
}

static polyover_status TEST(not_related)(polyover_fill fill, const CONTOURS *subject, const CONTOURS *clip) {
    return TEST(not_related_by)(fill, POLYOVER_SNAPPED, subject, clip);
}

static void TEST(relating_refused)(void) {
    const NUMBER beyond[] = {0, 0, LIMIT, 0, -LIMIT - 1, 4, 0, 4};
    const size_t four[] = {4}, falling[] = {4, 3};
    const CONTOURS square = {TEST(subject_at), 8, four, 1}, bad = {TEST(subject_at), 8, falling, 2};
    const CONTOURS far = {beyond, 8, four, 1}, none = {NULL, 0, NULL, 0};
    CHECK(TEST(not_related)(4, &bad, &far) == POLYOVER_BAD_FILL);
    CHECK(TEST(not_related)(UINT32_MAX, &square, &square) == POLYOVER_BAD_FILL);
    CHECK(TEST(not_related_by)(4, 2, &bad, &far) == POLYOVER_BAD_FILL);
    CHECK(TEST(not_related_by)(3, 2, &bad, &far) == POLYOVER_BAD_OPTION);
    CHECK(TEST(not_related_by)(3, UINT32_MAX, &square, &square) == POLYOVER_BAD_OPTION);
    CHECK(TEST(not_related)(3, &bad, &far) == POLYOVER_BAD_ENDS);
    CHECK(TEST(not_related)(3, &far, &bad) == POLYOVER_OUT_OF_RANGE);
    CHECK(TEST(not_related)(3, &square, &bad) == POLYOVER_BAD_ENDS);
    CHECK(TEST(not_related)(3, &none, &far) == POLYOVER_OUT_OF_RANGE);
    CHECK(TEST(not_related)(0, &none, &none) == POLYOVER_OK);
    CHECK(TEST(not_related)(0, &square, &none) == POLYOVER_OK);
    CHECK(TEST(not_related)(0, &square, NULL) == POLYOVER_OK);
}

/* The exact relations of two contours of n points, told of all at once and of each alone. */
static polyover_relations TEST(exactly_related)(const NUMBER *subject, const NUMBER *clip, size_t n,
                                                polyover_fill fill) {
    const CONTOURS first = {subject, 2 * n, &n, 1}, second = {clip, 2 * n, &n, 1};
    polyover_relations relations = 77;
    CHECK(NAME(polyover_relate_exact)(fill, &first, &second, &relations) == POLYOVER_OK);
    for (polyover_relations bit = POLYOVER_INTERSECTS; bit <= POLYOVER_COVERS; bit *= 2) {
        uint32_t holds = 77;
        CHECK(NAME(polyover_relate_one_exact)(bit, fill, &first, &second, &holds) == POLYOVER_OK);
        CHECK(holds == ((relations & bit) != 0));
    }
    return relations;
}

/* Relations where edges cross in points that are not whole. */
static void TEST(exact_relations)(void) {
    const polyover_relations overlaps = POLYOVER_INTERSECTS | POLYOVER_INTERIORS_INTERSECT;
    const polyover_relations touches = POLYOVER_INTERSECTS | POLYOVER_TOUCHES;
    /* (2, 1) is inside the first. */
    const NUMBER first[] = {1, 2, 3, 2, 2, 0}, second[] = {0, 0, 2, 1, 3, 2};
    /* The clip runs clockwise, so that positive filling fills nothing of it. */
    const NUMBER sliver[] = {0, -1, 4, 5, 1, 2}, turned[] = {0, 0, 4, 5, 5, 6};
    /* They touch the first square in its corner, and along its side. */
    const NUMBER square[] = {0, 0, 2, 0, 2, 2, 0, 2}, corner[] = {2, 2, 4, 2, 4, 4, 2, 4};
    const NUMBER beside[] = {2, 0, 4, 0, 4, 2, 2, 2};
    /* Both meet in (1/3, 2/3) alone, where the lines y = 2x, y = 5x - 1, y = 1 - x and y = 2 - 4x cross. */
    const NUMBER bow[] = {0, 0, 1, 2, 1, 4, 0, -1}, other[] = {0, 1, 1, 0, 1, -2, 0, 2};
    /* They have the border from (0, 0) to (5, 2), above (3, 1) and below (2, 1). */
    const NUMBER below[] = {0, 0, 3, 1, 5, 2}, above[] = {0, 0, 5, 2, 2, 1}, around[] = {0, 0, 5, 0, 5, 2};
    CHECK(TEST(exactly_related)(first, second, 3, POLYOVER_NON_ZERO) == overlaps);
    CHECK(TEST(exactly_related)(sliver, turned, 3, POLYOVER_EVEN_ODD) == overlaps);
    CHECK(TEST(exactly_related)(sliver, turned, 3, POLYOVER_POSITIVE) == POLYOVER_DISJOINT);
    CHECK(TEST(exactly_related)(square, corner, 4, POLYOVER_NON_ZERO) == (touches | POLYOVER_POINT_INTERSECTS));
    CHECK(TEST(exactly_related)(square, beside, 4, POLYOVER_NON_ZERO) == touches);
    CHECK(TEST(exactly_related)(square, square, 4, POLYOVER_NON_ZERO) ==
          (overlaps | POLYOVER_WITHIN | POLYOVER_COVERS));
    CHECK(TEST(exactly_related)(bow, other, 4, POLYOVER_EVEN_ODD) == (touches | POLYOVER_POINT_INTERSECTS));
    CHECK(TEST(exactly_related)(below, above, 3, POLYOVER_NON_ZERO) == touches);
    CHECK(TEST(exactly_related)(below, around, 3, POLYOVER_NON_ZERO) == (overlaps | POLYOVER_WITHIN));
    CHECK(TEST(exactly_related)(around, below, 3, POLYOVER_POSITIVE) == (overlaps | POLYOVER_COVERS));
}

static polyover_status TEST(not_exactly_related)(polyover_fill fill, const CONTOURS *subject, const CONTOURS *clip) {
    polyover_relations relations = 77;
    polyover_status status = NAME(polyover_relate_exact)(fill, subject, clip, &relations);
    CHECK(status == POLYOVER_OK ? relations == POLYOVER_DISJOINT : relations == 77);
    return status;
}

static void TEST(exact_relating_refused)(void) {
    const NUMBER beyond[] = {0, 0, LIMIT, 0, -LIMIT - 1, 4, 0, 4};
    const size_t four[] = {4}, falling[] = {4, 3};
    const CONTOURS square = {TEST(subject_at), 8, four, 1}, bad = {TEST(subject_at), 8, falling, 2};
    const CONTOURS far = {beyond, 8, four, 1}, none = {NULL, 0, NULL, 0};
    CHECK(TEST(not_exactly_related)(4, &bad, &far) == POLYOVER_BAD_FILL);
    CHECK(TEST(not_exactly_related)(UINT32_MAX, &square, &square) == POLYOVER_BAD_FILL);
    CHECK(TEST(not_exactly_related)(3, &bad, &far) == POLYOVER_BAD_ENDS);
    CHECK(TEST(not_exactly_related)(3, &far, &bad) == POLYOVER_OUT_OF_RANGE);
    CHECK(TEST(not_exactly_related)(3, &square, &bad) == POLYOVER_BAD_ENDS);
    CHECK(TEST(not_exactly_related)(3, &none, &far) == POLYOVER_OUT_OF_RANGE);
    CHECK(TEST(not_exactly_related)(0, &none, &none) == POLYOVER_OK);
    CHECK(TEST(not_exactly_related)(0, &square, &none) == POLYOVER_OK);
    CHECK(TEST(not_exactly_related)(0, &square, NULL) == POLYOVER_OK);
}

/* One relation: by both solvers, and by numbers that are the bit of none. */
static void TEST(one_relation)(void) {
    const NUMBER beyond[] = {0, 0, LIMIT, 0, -LIMIT - 1, 4, 0, 4}, inner[] = {1, 1, 2, 1, 2, 2, 1, 2};
    const size_t four[] = {4}, falling[] = {4, 3};
    const CONTOURS square = {TEST(subject_at), 8, four, 1}, bad = {TEST(subject_at), 8, falling, 2};
    const CONTOURS far = {beyond, 8, four, 1}, small = {inner, 8, four, 1};
    const polyover_relations unknown[] = {0, 3, 127, 128, UINT32_MAX};
    uint32_t holds = 77;
    for (size_t at = 0; at < sizeof unknown / sizeof *unknown; at++) {
        CHECK(NAME(polyover_relate_one)(unknown[at], 3, 0, &bad, &far, &holds) == POLYOVER_BAD_OPTION);
        CHECK(NAME(polyover_relate_one)(unknown[at], 4, 2, &bad, &far, &holds) == POLYOVER_BAD_FILL);
    }
    CHECK(NAME(polyover_relate_one)(POLYOVER_WITHIN, 3, 2, &bad, &far, &holds) == POLYOVER_BAD_OPTION);
    CHECK(NAME(polyover_relate_one)(POLYOVER_WITHIN, 3, 0, &bad, &far, &holds) == POLYOVER_BAD_ENDS);
    CHECK(NAME(polyover_relate_one)(POLYOVER_WITHIN, 3, 1, &square, &far, &holds) == POLYOVER_OUT_OF_RANGE);
    CHECK(holds == 77);
    for (polyover_solver solver = POLYOVER_SNAPPED; solver <= POLYOVER_ROUNDS; solver++) {
        CHECK(NAME(polyover_relate_one)(POLYOVER_COVERS, 0, solver, &square, &small, &holds) == POLYOVER_OK);
        CHECK(holds == 1);
        CHECK(NAME(polyover_relate_one)(POLYOVER_WITHIN, 0, solver, &square, &small, &holds) == POLYOVER_OK);
        CHECK(holds == 0);
        CHECK(NAME(polyover_relate_one)(POLYOVER_DISJOINT, 0, solver, &square, NULL, &holds) == POLYOVER_OK);
        CHECK(holds == 1);
    }
}

/* One relation of contours as they are given, and numbers that are the bit of none. */
static void TEST(one_exact_relation)(void) {
    const NUMBER beyond[] = {0, 0, LIMIT, 0, -LIMIT - 1, 4, 0, 4}, inner[] = {1, 1, 2, 1, 2, 2, 1, 2};
    const size_t four[] = {4}, falling[] = {4, 3};
    const CONTOURS square = {TEST(subject_at), 8, four, 1}, bad = {TEST(subject_at), 8, falling, 2};
    const CONTOURS far = {beyond, 8, four, 1}, small = {inner, 8, four, 1}, none = {NULL, 0, NULL, 0};
    const polyover_relations unknown[] = {0, 3, 127, 128, UINT32_MAX};
    uint32_t holds = 77;
    for (size_t at = 0; at < sizeof unknown / sizeof *unknown; at++) {
        CHECK(NAME(polyover_relate_one_exact)(unknown[at], 3, &bad, &far, &holds) == POLYOVER_BAD_OPTION);
        CHECK(NAME(polyover_relate_one_exact)(unknown[at], 4, &bad, &far, &holds) == POLYOVER_BAD_FILL);
    }
    CHECK(NAME(polyover_relate_one_exact)(POLYOVER_WITHIN, UINT32_MAX, &bad, &far, &holds) == POLYOVER_BAD_FILL);
    CHECK(NAME(polyover_relate_one_exact)(POLYOVER_WITHIN, 3, &bad, &far, &holds) == POLYOVER_BAD_ENDS);
    CHECK(NAME(polyover_relate_one_exact)(POLYOVER_WITHIN, 3, &square, &bad, &holds) == POLYOVER_BAD_ENDS);
    CHECK(NAME(polyover_relate_one_exact)(POLYOVER_WITHIN, 3, &far, &bad, &holds) == POLYOVER_OUT_OF_RANGE);
    CHECK(NAME(polyover_relate_one_exact)(POLYOVER_COVERS, 3, &square, &far, &holds) == POLYOVER_OUT_OF_RANGE);
    CHECK(holds == 77);
    CHECK(NAME(polyover_relate_one_exact)(POLYOVER_COVERS, 0, &square, &small, &holds) == POLYOVER_OK);
    CHECK(holds == 1);
    CHECK(NAME(polyover_relate_one_exact)(POLYOVER_WITHIN, 0, &square, &small, &holds) == POLYOVER_OK);
    CHECK(holds == 0);
    CHECK(NAME(polyover_relate_one_exact)(POLYOVER_DISJOINT, 0, &square, NULL, &holds) == POLYOVER_OK);
    CHECK(holds == 1);
    CHECK(NAME(polyover_relate_one_exact)(POLYOVER_INTERSECTS, 0, &none, &none, &holds) == POLYOVER_OK);
    CHECK(holds == 0);
}
