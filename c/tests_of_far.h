/* Tests at 64 bits of coordinates within the range of 32 bits and beyond it. Multiplied inputs whose edges meet in
 * whole points have multiplied answers. The other files test the calls at small coordinates. */

/* Factors of coordinates up to 6: the greatest whose products fit 32 bits, the next one, and one near the end of the
 * range of 64 bits. */
static const int64_t factors[] = {178956970, 178956971, (int64_t)1 << 59};

/* Arrays for any answer here. */
typedef struct {
    int64_t coordinates[128];
    size_t contour_ends[16];
    size_t shape_ends[16];
    polyover_link links[8];
    uint8_t fills[32];
    polyover_counts counts;
    polyover_path_counts path_counts;
    size_t count;
    polyover_relations relations;
} far_answer;

/* The coordinates of the subject, of the clip and of the lines, multiplied by a factor. */
typedef struct {
    int64_t subject[24];
    int64_t clip[8];
    int64_t lines[10];
} far_given;

static const size_t far_ends[] = {4, 8, 12}, far_line_ends[] = {2, 5};

static far_given multiplied(int64_t factor) {
    /* three squares in one another; a square over a corner of theirs; a line, and a path of two steps */
    static const int64_t subject[] = {0, 0, 6, 0, 6, 6, 0, 6, 1, 1, 5, 1, 5, 5, 1, 5, 2, 2, 4, 2, 4, 4, 2, 4};
    static const int64_t clip[] = {3, 3, 6, 3, 6, 6, 3, 6}, lines[] = {-3, 3, 6, 3, 1, -1, 1, 4, 4, 4};
    far_given given;
    for (size_t at = 0; at < 24; at++) {
        given.subject[at] = factor * subject[at];
    }
    for (size_t at = 0; at < 8; at++) {
        given.clip[at] = factor * clip[at];
    }
    for (size_t at = 0; at < 10; at++) {
        given.lines[at] = factor * lines[at];
    }
    return given;
}

/* Each of these answers a query on the contours, into arrays that are zero before. */
static polyover_status far_overlay(polyover_rule rule, const polyover_contours *subject, const polyover_contours *clip,
                                   far_answer *to) {
    const polyover_options options = {0};
    return polyover_overlay(rule, POLYOVER_EVEN_ODD, &options, subject, clip, to->coordinates, 128, to->contour_ends,
                            16, to->shape_ends, 16, &to->counts);
}

static polyover_status far_hierarchy(polyover_rule rule, const polyover_contours *subject,
                                     const polyover_contours *clip, far_answer *to) {
    const polyover_options options = {.keep = 1};
    return polyover_hierarchy(rule, POLYOVER_EVEN_ODD, &options, subject, clip, to->coordinates, 128, to->contour_ends,
                              16, to->shape_ends, 16, to->links, 8, &to->counts, &to->count);
}

static polyover_status far_simplified(const polyover_contours *subject, far_answer *to) {
    const polyover_options options = {.direction = 1};
    return polyover_simplify(POLYOVER_EVEN_ODD, &options, subject, to->coordinates, 128, to->contour_ends, 16,
                             to->shape_ends, 16, &to->counts);
}

static polyover_status far_slices(polyover_solver solver, const polyover_contours *subject,
                                  const polyover_contours *lines, far_answer *to) {
    return polyover_slice(POLYOVER_EVEN_ODD, solver, subject, lines, to->coordinates, 128, to->contour_ends, 16,
                          to->shape_ends, 16, &to->counts);
}

static polyover_status far_clips(const polyover_contours *subject, const polyover_contours *lines, far_answer *to) {
    const polyover_clip_options options = {.boundary = 1};
    return polyover_clip(POLYOVER_EVEN_ODD, &options, subject, lines, to->coordinates, 128, to->contour_ends, 16,
                         &to->path_counts);
}

/* Whether the second answer is the first, its coordinates multiplied. */
static int is_multiplied(const far_answer *first, const far_answer *second, int64_t factor) {
    far_answer expected = *first;
    for (size_t at = 0; at < 128; at++) {
        expected.coordinates[at] *= factor;
    }
    return memcmp(&expected, second, sizeof expected) == 0;
}

static void far_answers(int64_t factor, far_answer *answers) {
    const far_given given = multiplied(factor);
    const polyover_contours subject = {given.subject, 24, far_ends, 3}, clip = {given.clip, 8, far_ends, 1};
    const polyover_contours lines = {given.lines, 10, far_line_ends, 2};
    memset(answers, 0, 21 * sizeof *answers);
    for (polyover_rule rule = POLYOVER_SUBJECT; rule <= POLYOVER_XOR; rule++) {
        CHECK(far_overlay(rule, &subject, &clip, &answers[rule]) == POLYOVER_OK);
        CHECK(far_hierarchy(rule, &subject, &clip, &answers[7 + rule]) == POLYOVER_OK);
    }
    CHECK(far_simplified(&subject, &answers[14]) == POLYOVER_OK);
    CHECK(far_slices(POLYOVER_SNAPPED, &subject, &lines, &answers[15]) == POLYOVER_OK);
    CHECK(far_slices(POLYOVER_ROUNDS, &subject, &lines, &answers[16]) == POLYOVER_OK);
    CHECK(far_clips(&subject, &lines, &answers[17]) == POLYOVER_OK);
    CHECK(polyover_edges(POLYOVER_EVEN_ODD, POLYOVER_SNAPPED, &subject, &clip, answers[18].coordinates, 128,
                         answers[18].fills, 32, &answers[18].count) == POLYOVER_OK);
    CHECK(polyover_relate(POLYOVER_EVEN_ODD, POLYOVER_SNAPPED, &subject, &clip, &answers[19].relations) == POLYOVER_OK);
    CHECK(polyover_relate_exact(POLYOVER_EVEN_ODD, &subject, &clip, &answers[20].relations) == POLYOVER_OK);
}

static void far_coordinates(void) {
    static far_answer here[21], far[21];
    far_answers(1, here);
    CHECK(here[POLYOVER_SUBJECT].counts.shapes == 2 && here[7].count == 1 && here[17].path_counts.paths > 0);
    for (size_t at = 0; at < sizeof factors / sizeof *factors; at++) {
        far_answers(factors[at], far);
        for (size_t call = 0; call < 21; call++) {
            CHECK(is_multiplied(&here[call], &far[call], factors[at]));
        }
    }
}

/* Where one of two lists alone fits 32 bits. */
static void one_far_list(void) {
    const far_given near = multiplied(1), far = multiplied((int64_t)1 << 40);
    const polyover_contours first = {near.clip, 8, far_ends, 1}, second = {far.clip, 8, far_ends, 1};
    far_answer union_of_both = {0}, union_exchanged = {0};
    polyover_relations relations = 77;
    CHECK(far_overlay(POLYOVER_UNION, &first, &second, &union_of_both) == POLYOVER_OK);
    CHECK(far_overlay(POLYOVER_UNION, &second, &first, &union_exchanged) == POLYOVER_OK);
    CHECK(union_of_both.counts.shapes == 2 && memcmp(&union_of_both, &union_exchanged, sizeof union_of_both) == 0);
    CHECK(polyover_relate(POLYOVER_EVEN_ODD, POLYOVER_ROUNDS, &first, &second, &relations) == POLYOVER_OK);
    CHECK(relations == POLYOVER_DISJOINT);
    relations = 77;
    CHECK(polyover_relate_exact(POLYOVER_EVEN_ODD, &second, &first, &relations) == POLYOVER_OK);
    CHECK(relations == POLYOVER_DISJOINT);
    uint32_t holds = 77;
    CHECK(polyover_relate_one_exact(POLYOVER_DISJOINT, POLYOVER_EVEN_ODD, &second, &first, &holds) == POLYOVER_OK);
    CHECK(holds == 1);
}
