/* Contours with many edges that are made, at one width, and the calls that are asked of them; the names are those of
 * tests_of_sizes.h. */

/* Contours, or lines, with their points. */
typedef struct {
    NUMBER *coordinates;
    size_t count;
    size_t *ends;
    size_t end_count;
} TEST(made);

/* None, and room for more than any of these tests has. */
static TEST(made) TEST(none)(void) {
    const size_t most = 400000;
    TEST(made) it = {malloc(most * sizeof(NUMBER)), 0, malloc(most * sizeof(size_t)), 0};
    if (!it.coordinates || !it.ends) {
        abort();
    }
    return it;
}

static void TEST(let_go)(TEST(made) *it) {
    free(it->coordinates);
    free(it->ends);
}

static void TEST(point)(TEST(made) *it, size_t x, size_t y) {
    it->coordinates[it->count++] = (NUMBER)x;
    it->coordinates[it->count++] = (NUMBER)y;
}

/* Ends a contour, or a line. */
static void TEST(end)(TEST(made) *it) {
    it->ends[it->end_count++] = it->count / 2;
}

static CONTOURS TEST(given)(const TEST(made) *it) {
    const CONTOURS contours = {it->coordinates, it->count, it->ends, it->end_count};
    return contours;
}

/* A rectangle, counter-clockwise. */
static void TEST(rectangle)(TEST(made) *it, const size_t *low, const size_t *high) {
    TEST(point)(it, low[0], low[1]);
    TEST(point)(it, high[0], low[1]);
    TEST(point)(it, high[0], high[1]);
    TEST(point)(it, low[0], high[1]);
    TEST(end)(it);
}

/* A square in each cell of `side` times `side` cells, which are so wide, column by column. */
static void TEST(squares)(TEST(made) *it, size_t side, size_t cell, size_t low, size_t high) {
    for (size_t i = 0; i < side; i++) {
        for (size_t j = 0; j < side; j++) {
            const size_t from[] = {cell * i + low, cell * j + low}, to[] = {cell * i + high, cell * j + high};
            TEST(rectangle)(it, from, to);
        }
    }
}

/* What is asked, by all calls alike. */
typedef struct {
    polyover_rule rule;
    polyover_fill fill;
    polyover_solver solver;
    CONTOURS subject;
    CONTOURS clip;
} TEST(question);

typedef polyover_status (*TEST(call))(const TEST(question) *of, RESULT *result);

static OPTIONS TEST(options_of)(const TEST(question) *of) {
    const OPTIONS options = {.solver = of->solver};
    return options;
}

static polyover_clip_options TEST(clip_options_of)(const TEST(question) *of) {
    const polyover_clip_options options = {.solver = of->solver};
    return options;
}

static polyover_status TEST(overlay)(const TEST(question) *of, RESULT *result) {
    const OPTIONS options = TEST(options_of)(of);
    return NAME(polyover_overlay_result)(of->rule, of->fill, &options, &of->subject, &of->clip, result);
}

static polyover_status TEST(hierarchy)(const TEST(question) *of, RESULT *result) {
    const OPTIONS options = TEST(options_of)(of);
    return NAME(polyover_hierarchy_result)(of->rule, of->fill, &options, &of->subject, &of->clip, result);
}

static polyover_status TEST(simplify)(const TEST(question) *of, RESULT *result) {
    const OPTIONS options = TEST(options_of)(of);
    return NAME(polyover_simplify_result)(of->fill, &options, &of->subject, result);
}

static polyover_status TEST(slice)(const TEST(question) *of, RESULT *result) {
    return NAME(polyover_slice_result)(of->fill, of->solver, &of->subject, &of->clip, result);
}

static polyover_status TEST(slice_custom)(const TEST(question) *of, RESULT *result) {
    const SLICE_OPTIONS options = {.solver = of->solver};
    return NAME(polyover_slice_custom_result)(of->fill, &options, &of->subject, &of->clip, result);
}

static polyover_status TEST(simplify_shape)(const TEST(question) *of, RESULT *result) {
    const OPTIONS options = TEST(options_of)(of);
    uint32_t as_given = 77;
    polyover_status status =
        NAME(polyover_simplify_shape_result)(of->fill, &options, &of->subject, result, &as_given);
    CHECK(as_given == (status == POLYOVER_OK && of->subject.end_count == 1));
    return status;
}

/* (without a line, since all coordinates are 0 or greater) */
static polyover_status TEST(tiles)(const TEST(question) *of, RESULT *result) {
    return NAME(polyover_tiles_result)(of->fill, of->solver, &of->subject, LIMIT, LIMIT, result);
}

static polyover_status TEST(clip)(const TEST(question) *of, RESULT *result) {
    const polyover_clip_options options = TEST(clip_options_of)(of);
    return NAME(polyover_clip_result)(of->fill, &options, &of->subject, &of->clip, result);
}

static polyover_status TEST(edges)(const TEST(question) *of, RESULT *result) {
    return NAME(polyover_edges_result)(of->fill, of->solver, &of->subject, &of->clip, result);
}

static polyover_status TEST(vectors)(const TEST(question) *of, RESULT *result) {
    const OPTIONS options = TEST(options_of)(of);
    return NAME(polyover_vectors_result)(of->rule, of->fill, &options, &of->subject, &of->clip, result);
}

/* Each call with arrays, which have just the room that the result has: POLYOVER_OK where they are filled with the same
 * numbers, and POLYOVER_MEMORY where they are not. */
static NUMBER TEST(coordinates)[2000000];
static size_t TEST(contour_ends)[200000], TEST(shape_ends)[200000];
static polyover_link TEST(links)[20000];
static uint8_t TEST(fills)[500000];

static int TEST(are_same)(const RESULT *result) {
    return memcmp(result->coordinates, TEST(coordinates), result->coordinate_count * sizeof(NUMBER)) == 0 &&
           memcmp(result->contour_ends, TEST(contour_ends), result->contour_count * sizeof(size_t)) == 0 &&
           memcmp(result->shape_ends, TEST(shape_ends), result->shape_count * sizeof(size_t)) == 0 &&
           memcmp(result->links, TEST(links), result->link_count * sizeof(polyover_link)) == 0 &&
           memcmp(result->fills, TEST(fills), result->fill_count) == 0;
}

static int TEST(has_room)(const RESULT *result) {
    return result->coordinate_count <= 2000000 && result->contour_count <= 200000 && result->shape_count <= 200000 &&
           result->link_count <= 20000 && result->fill_count <= 500000;
}

static polyover_status TEST(overlay_in_arrays)(const TEST(question) *of, RESULT *result) {
    const OPTIONS options = TEST(options_of)(of);
    polyover_counts counts;
    return NAME(polyover_overlay)(of->rule, of->fill, &options, &of->subject, &of->clip, TEST(coordinates),
                                  result->coordinate_count, TEST(contour_ends), result->contour_count,
                                  TEST(shape_ends), result->shape_count, &counts);
}

static polyover_status TEST(hierarchy_in_arrays)(const TEST(question) *of, RESULT *result) {
    const OPTIONS options = TEST(options_of)(of);
    polyover_counts counts;
    size_t link_count;
    return NAME(polyover_hierarchy)(of->rule, of->fill, &options, &of->subject, &of->clip, TEST(coordinates),
                                    result->coordinate_count, TEST(contour_ends), result->contour_count,
                                    TEST(shape_ends), result->shape_count, TEST(links), result->link_count, &counts,
                                    &link_count);
}

static polyover_status TEST(simplify_in_arrays)(const TEST(question) *of, RESULT *result) {
    const OPTIONS options = TEST(options_of)(of);
    polyover_counts counts;
    return NAME(polyover_simplify)(of->fill, &options, &of->subject, TEST(coordinates), result->coordinate_count,
                                   TEST(contour_ends), result->contour_count, TEST(shape_ends), result->shape_count,
                                   &counts);
}

static polyover_status TEST(slice_in_arrays)(const TEST(question) *of, RESULT *result) {
    polyover_counts counts;
    return NAME(polyover_slice)(of->fill, of->solver, &of->subject, &of->clip, TEST(coordinates),
                                result->coordinate_count, TEST(contour_ends), result->contour_count, TEST(shape_ends),
                                result->shape_count, &counts);
}

static polyover_status TEST(clip_in_arrays)(const TEST(question) *of, RESULT *result) {
    const polyover_clip_options options = TEST(clip_options_of)(of);
    polyover_path_counts counts;
    return NAME(polyover_clip)(of->fill, &options, &of->subject, &of->clip, TEST(coordinates),
                               result->coordinate_count, TEST(contour_ends), result->contour_count, &counts);
}

static polyover_status TEST(edges_in_arrays)(const TEST(question) *of, RESULT *result) {
    size_t count;
    return NAME(polyover_edges)(of->fill, of->solver, &of->subject, &of->clip, TEST(coordinates),
                                result->coordinate_count, TEST(fills), result->fill_count, &count);
}

static polyover_status TEST(relate)(const TEST(question) *of, RESULT *result) {
    polyover_relations relations = 77;
    memset(result, 0, sizeof *result);
    polyover_status status = NAME(polyover_relate)(of->fill, of->solver, &of->subject, &of->clip, &relations);
    CHECK((relations == 77) == (status != POLYOVER_OK));
    return status;
}

/* The answer as a result, which the call with arrays gives too. */
static RESULT TEST(answered)(const TEST(question) *of, TEST(call) call, TEST(call) in_arrays) {
    RESULT result;
    CHECK(call(of, &result) == POLYOVER_OK);
    CHECK(TEST(has_room)(&result) && in_arrays(of, &result) == POLYOVER_OK && TEST(are_same)(&result));
    return result;
}
