/* Tests at one width of some 100,000 edges that name the given edges on which they lie; the names are those of
 * tests_of_sizes.h. */

typedef NAME(polyover_traced) TEST(traces);

/* Adds the edges of the contours, on the side, behind those in the arrays, and their number to the count. */
static void TEST(push_edges)(const TEST(made) *contours, uint8_t side, size_t *count) {
    for (size_t contour = 0, from = 0; contour < contours->end_count; from = contours->ends[contour++]) {
        const size_t to = contours->ends[contour];
        for (size_t at = from; at < to; at++) {
            const size_t next = at + 1 < to ? at + 1 : from;
            NUMBER *edge = TEST(coordinates) + 4 * *count;
            memcpy(edge, contours->coordinates + 2 * at, 2 * sizeof(NUMBER));
            memcpy(edge + 2, contours->coordinates + 2 * next, 2 * sizeof(NUMBER));
            TEST(fills)[(*count)++] = side;
        }
    }
}

static polyover_status TEST(trace)(polyover_solver solver, size_t count, TEST(traces) *traced) {
    const NAME(polyover_edge_list) edges = {TEST(coordinates), 4 * count, TEST(fills), count};
    return NAME(polyover_trace)(POLYOVER_ALL_EDGES, POLYOVER_NON_ZERO, solver, &edges, traced);
}

/* Whether a source has this number, and lies whole on its edge, against it or along it. */
static int TEST(is_whole)(const polyover_source *source, size_t number, int is_reversed) {
    return source->edge == number && source->cut == 0 && source->reversed == is_reversed;
}

/* Squares whose edges are given twice, of the subject and of the clip: each edge has two sources. Of a column those
 * come first that begin on its left. */
static void TEST(squares_traced)(polyover_solver solver) {
    const size_t half = 4 * SIDE * SIDE;
    size_t count = 0;
    TEST(made) squares = TEST(none)();
    TEST(traces) traced;
    TEST(squares)(&squares, SIDE, 4, 0, 2);
    TEST(push_edges)(&squares, 0, &count);
    TEST(push_edges)(&squares, 1, &count);
    CHECK(TEST(trace)(solver, count, &traced) == POLYOVER_OK);
    int same = traced.fill_count == half && traced.source_end_count == half && traced.source_count == 2 * half;
    for (size_t at = 0; same && at < half; at++) {
        const size_t i = at / (4 * SIDE), in_column = at % (4 * SIDE);
        const int is_left = in_column < 3 * SIDE;
        const size_t which = is_left ? in_column % 3 : 3, j = is_left ? in_column / 3 : in_column - 3 * SIDE;
        /* (the left side, the lower, the upper and the right one) */
        const size_t given[] = {3, 0, 2, 1}, number = 4 * (SIDE * i + j) + given[which];
        const int is_reversed = which % 2 == 0;
        const polyover_source *one = traced.sources + 2 * at, *other = one + 1;
        const polyover_source *first = one->edge < half ? one : other, *second = one->edge < half ? other : one;
        same = traced.source_ends[at] == 2 * (at + 1) && traced.fills[at] == (is_reversed ? 10 : 5) &&
               TEST(is_whole)(first, number, is_reversed) && TEST(is_whole)(second, number + half, is_reversed);
    }
    CHECK(same);
    NAME(polyover_traced_free)(&traced);
    TEST(let_go)(&squares);
}

/* How many pieces a side of `crossings_traced` has: those of the long rectangle come first. */
static size_t TEST(pieces_of)(size_t edge, size_t count) {
    const int is_level = edge % 2 == 0;
    return edge < 4 ? (is_level ? 2 * count + 1 : 1) : (is_level ? 1 : 3);
}

/* A long rectangle across 8,000 upright ones: these cut its level sides, and it cuts their upright sides in three. */
static void TEST(crossings_traced)(polyover_solver solver) {
    const size_t count = 8000, low[] = {0, 1}, high[] = {4 * count, 2};
    size_t *found = TEST(contour_ends), edges = 0;
    TEST(made) shapes = TEST(none)();
    TEST(traces) traced;
    TEST(rectangle)(&shapes, low, high);
    for (size_t at = 0; at < count; at++) {
        const size_t from[] = {4 * at + 1, 0}, to[] = {4 * at + 3, 3};
        TEST(rectangle)(&shapes, from, to);
    }
    TEST(push_edges)(&shapes, 0, &edges);
    CHECK(TEST(trace)(solver, edges, &traced) == POLYOVER_OK);
    int same = traced.fill_count == 12 * count + 4 && traced.source_count == traced.fill_count;
    memset(found, 0, edges * sizeof(size_t));
    for (size_t at = 0; same && at < traced.source_count; at++) {
        const polyover_source *source = &traced.sources[at];
        same = traced.source_ends[at] == at + 1 && source->edge < edges &&
               source->cut == (TEST(pieces_of)(source->edge, count) > 1) && source->reversed == (source->edge % 4 >= 2);
        found[same ? source->edge : 0]++;
    }
    for (size_t at = 0; same && at < edges; at++) {
        same = found[at] == TEST(pieces_of)(at, count);
    }
    CHECK(same);
    NAME(polyover_traced_free)(&traced);
    TEST(let_go)(&shapes);
}

/* The edges of `heavy` that weigh too much once they are cut. */
static void TEST(too_many_traced)(polyover_solver solver) {
    size_t count = 0;
    TEST(made) copies = TEST(none)(), steps = TEST(none)();
    TEST(traces) traced;
    TEST(heavy)(&copies, &steps, 8);
    TEST(push_edges)(&copies, 0, &count);
    TEST(push_edges)(&steps, 1, &count);
    CHECK(TEST(trace)(solver, count, &traced) == POLYOVER_TOO_MANY_EDGES);
    CHECK(traced.coordinate_count == 0 && traced.fill_count == 0 && traced.source_count == 0);
    NAME(polyover_traced_free)(&traced);
    TEST(let_go)(&copies);
    TEST(let_go)(&steps);
}

static void TEST(traced_sizes)(polyover_solver solver) {
    TEST(squares_traced)(solver);
    TEST(crossings_traced)(solver);
    TEST(too_many_traced)(solver);
}
