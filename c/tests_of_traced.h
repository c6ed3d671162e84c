/* Tests at one width of edges that name the given edges on which they lie; the names are those of tests_of_width.h.
 *
 * A source stands here as a number: 4 times that of the given edge, and 1 more where it was cut, and 2 more where it
 * runs against the edge of the answer. */

typedef NAME(polyover_traced) TEST(traces);
typedef NAME(polyover_edge_list) TEST(edge_list);

#define ALONG(edge) (4 * (edge))
#define CUT(edge) (4 * (edge) + 1)
#define BACK(edge) (4 * (edge) + 2)
#define CUT_BACK(edge) (4 * (edge) + 3)

/* An edge of an answer: its ends, its filled sides, and its sources in any order. */
typedef struct {
    NUMBER at[4];
    uint8_t fill;
    size_t count;
    size_t sources[4];
} TEST(wanted);

static int TEST(is_empty_trace)(const TEST(traces) *traced) {
    return traced->coordinate_count == 0 && traced->fill_count == 0 && traced->source_end_count == 0 &&
           traced->source_count == 0;
}

static void TEST(freed_trace)(TEST(traces) *traced) {
    NAME(polyover_traced_free)(traced);
    CHECK(TEST(is_empty_trace)(traced));
    CHECK(traced->coordinates == NULL && traced->fills == NULL && traced->source_ends == NULL);
    CHECK(traced->sources == NULL);
    NAME(polyover_traced_free)(traced);
}

static polyover_status TEST(traced_by)(polyover_rule rule, polyover_fill fill, polyover_solver solver,
                                       const NUMBER *coordinates, const uint8_t *sides, size_t count,
                                       TEST(traces) *traced) {
    const TEST(edge_list) edges = {coordinates, 4 * count, sides, count};
    memset(traced, 77, sizeof *traced);
    return NAME(polyover_trace)(rule, fill, solver, &edges, traced);
}

/* How often the source is among those from one place to another. */
static size_t TEST(times)(const TEST(traces) *traced, size_t from, size_t to, size_t source) {
    size_t times = 0;
    for (size_t at = from; at < to; at++) {
        const polyover_source *it = &traced->sources[at];
        times += it->cut <= 1 && it->reversed <= 1 && 4 * it->edge + it->cut + 2u * it->reversed == source;
    }
    return times;
}

static int TEST(is_traced_edge)(const TEST(traces) *traced, size_t at, size_t from, const TEST(wanted) *edge) {
    int same = memcmp(traced->coordinates + 4 * at, edge->at, sizeof edge->at) == 0 &&
               traced->fills[at] == edge->fill && traced->source_ends[at] == from + edge->count;
    for (size_t of = 0; same && of < edge->count; of++) {
        same = TEST(times)(traced, from, from + edge->count, edge->sources[of]) == 1;
    }
    return same;
}

/* Whether these are the edges, in this order; it frees them. */
static int TEST(are_traced)(TEST(traces) *traced, const TEST(wanted) *edges, size_t count) {
    int same = traced->coordinate_count == 4 * count && traced->fill_count == count &&
               traced->source_end_count == count;
    size_t from = 0;
    for (size_t at = 0; same && at < count; at++) {
        same = TEST(is_traced_edge)(traced, at, from, &edges[at]);
        from += edges[at].count;
    }
    same = same && traced->source_count == from;
    TEST(freed_trace)(traced);
    return same;
}

/* Two squares, each by the edges round it, counter-clockwise; the second one is the clip. */
static const NUMBER TEST(edges_of_squares)[] = {0, 0, 4, 0, 4, 0, 4, 4, 4, 4, 0, 4, 0, 4, 0, 0,
                                                2, 2, 6, 2, 6, 2, 6, 6, 6, 6, 2, 6, 2, 6, 2, 2};
static const uint8_t TEST(sides_of_squares)[] = {0, 0, 0, 0, 1, 1, 1, 1};

/* They cross in (4, 2) and (2, 4), which cut the edges 1 and 4, and 2 and 7. */
static const TEST(wanted) TEST(traced_of_squares)[] = {
    {{0, 0, 0, 4}, 2, 1, {BACK(3)}},      {{0, 0, 4, 0}, 1, 1, {ALONG(0)}},  {{0, 4, 2, 4}, 2, 1, {CUT_BACK(2)}},
    {{2, 2, 2, 4}, 11, 1, {CUT_BACK(7)}}, {{2, 2, 4, 2}, 7, 1, {CUT(4)}},    {{2, 4, 2, 6}, 8, 1, {CUT_BACK(7)}},
    {{2, 4, 4, 4}, 14, 1, {CUT_BACK(2)}}, {{2, 6, 6, 6}, 8, 1, {BACK(6)}},   {{4, 0, 4, 2}, 1, 1, {CUT(1)}},
    {{4, 2, 4, 4}, 13, 1, {CUT(1)}},      {{4, 2, 6, 2}, 4, 1, {CUT(4)}},    {{6, 2, 6, 6}, 4, 1, {ALONG(5)}},
};

/* By each rule, and all of them: a row has 1 for each edge that it selects. */
static void TEST(traced_by_rules)(void) {
    const char *selected[] = {
        "111000101100", "000111010011", "000110100100", "111001011011",
        "111110001000", "000001110111", "111111111111", "111111111111",
    };
    for (polyover_solver solver = POLYOVER_SNAPPED; solver <= POLYOVER_ROUNDS; solver++) {
        for (polyover_rule rule = POLYOVER_SUBJECT; rule <= POLYOVER_ALL_EDGES; rule++) {
            TEST(wanted) edges[12];
            TEST(traces) traced;
            size_t count = 0;
            for (size_t at = 0; at < 12; at++) {
                if (selected[rule][at] == '1') {
                    edges[count++] = TEST(traced_of_squares)[at];
                }
            }
            CHECK(TEST(traced_by)(rule, POLYOVER_NON_ZERO, solver, TEST(edges_of_squares), TEST(sides_of_squares), 8,
                                  &traced) == POLYOVER_OK);
            CHECK(TEST(are_traced)(&traced, edges, count));
        }
    }
}

/* Two squares side by side share a side; a point on another side stays, with the two edges that meet there. */
static void TEST(traced_beside)(void) {
    const NUMBER edges[] = {0, 0, 2, 0, 2, 0, 4, 0, 4, 0, 4, 4, 4, 4, 0, 4, 0, 4, 0, 0,
                            4, 0, 8, 0, 8, 0, 8, 4, 8, 4, 4, 4, 4, 4, 4, 0};
    const uint8_t sides[] = {0, 0, 0, 0, 0, 1, 1, 1, 1};
    const TEST(wanted) all[] = {
        {{0, 0, 0, 4}, 2, 1, {BACK(4)}},  {{0, 0, 2, 0}, 1, 1, {ALONG(0)}}, {{0, 4, 4, 4}, 2, 1, {BACK(3)}},
        {{2, 0, 4, 0}, 1, 1, {ALONG(1)}}, {{4, 0, 4, 4}, 9, 2, {ALONG(2), BACK(8)}},
        {{4, 0, 8, 0}, 4, 1, {ALONG(5)}}, {{4, 4, 8, 4}, 8, 1, {BACK(7)}},  {{8, 0, 8, 4}, 4, 1, {ALONG(6)}},
    };
    TEST(traces) traced;
    CHECK(TEST(traced_by)(POLYOVER_ALL_EDGES, POLYOVER_EVEN_ODD, POLYOVER_SNAPPED, edges, sides, 9, &traced) ==
          POLYOVER_OK);
    CHECK(TEST(are_traced)(&traced, all, 8));
    CHECK(TEST(traced_by)(POLYOVER_XOR, POLYOVER_EVEN_ODD, POLYOVER_SNAPPED, edges, sides, 9, &traced) ==
          POLYOVER_OK);
    CHECK(traced.fill_count == 7 && traced.source_count == 7);
    TEST(freed_trace)(&traced);
}

/* Edges on one line, one between equal points among them, and edges there and back. */
static void TEST(traced_lines)(void) {
    const NUMBER line[] = {0, 0, 4, 0, 3, 3, 3, 3, 2, 0, 6, 0, 5, 0, 1, 0};
    const uint8_t sides[] = {0, 1, 0, 1};
    const TEST(wanted) pieces[] = {
        {{0, 0, 1, 0}, 1, 1, {CUT(0)}},
        {{1, 0, 2, 0}, 5, 2, {CUT(0), CUT_BACK(3)}},
        {{2, 0, 4, 0}, 5, 3, {CUT(0), CUT(2), CUT_BACK(3)}},
        {{4, 0, 5, 0}, 5, 2, {CUT(2), CUT_BACK(3)}},
        {{5, 0, 6, 0}, 1, 1, {CUT(2)}},
    };
    const NUMBER same[] = {0, 0, 4, 0, 4, 0, 0, 0, 0, 0, 4, 0};
    const uint8_t subject[] = {0, 0, 0}, mixed[] = {0, 1};
    const TEST(wanted) three[] = {{{0, 0, 4, 0}, 1, 3, {ALONG(0), BACK(1), ALONG(2)}}};
    const TEST(wanted) two[] = {{{0, 0, 4, 0}, 1, 2, {ALONG(0), BACK(1)}}};
    TEST(traces) traced;
    CHECK(TEST(traced_by)(POLYOVER_ALL_EDGES, POLYOVER_NON_ZERO, POLYOVER_SNAPPED, line, sides, 4, &traced) ==
          POLYOVER_OK);
    CHECK(TEST(are_traced)(&traced, pieces, 5));
    CHECK(TEST(traced_by)(POLYOVER_ALL_EDGES, POLYOVER_EVEN_ODD, POLYOVER_ROUNDS, same, subject, 3, &traced) ==
          POLYOVER_OK);
    CHECK(TEST(are_traced)(&traced, three, 1));
    CHECK(TEST(traced_by)(POLYOVER_ALL_EDGES, POLYOVER_EVEN_ODD, POLYOVER_SNAPPED, same, subject, 2, &traced) ==
          POLYOVER_OK);
    CHECK(TEST(are_traced)(&traced, NULL, 0));
    CHECK(TEST(traced_by)(POLYOVER_ALL_EDGES, POLYOVER_POSITIVE, POLYOVER_SNAPPED, same, mixed, 2, &traced) ==
          POLYOVER_OK);
    CHECK(TEST(are_traced)(&traced, two, 1));
    CHECK(TEST(traced_by)(POLYOVER_ALL_EDGES, POLYOVER_NEGATIVE, POLYOVER_SNAPPED, NULL, NULL, 0, &traced) ==
          POLYOVER_OK);
    CHECK(TEST(are_traced)(&traced, NULL, 0));
}

/* From one end of the range to the other, across an edge that is given twice. */
static void TEST(far_traced)(void) {
    const NUMBER far[] = {-LIMIT, -LIMIT, LIMIT, LIMIT, -LIMIT, LIMIT, LIMIT, -LIMIT, -LIMIT, LIMIT, LIMIT, -LIMIT};
    const uint8_t sides[] = {1, 1, 1};
    TEST(traces) traced;
    CHECK(TEST(traced_by)(POLYOVER_ALL_EDGES, POLYOVER_NON_ZERO, POLYOVER_SNAPPED, far, sides, 3, &traced) ==
          POLYOVER_OK);
    CHECK(traced.fill_count == 4 && traced.source_count == 6);
    CHECK(traced.coordinates[2] == 0 && traced.coordinates[3] == 0);
    CHECK(traced.source_ends[0] == 1 && TEST(times)(&traced, 0, 1, CUT(0)) == 1);
    CHECK(traced.source_ends[1] == 3 && TEST(times)(&traced, 1, 3, CUT(1)) == 1);
    CHECK(TEST(times)(&traced, 1, 3, CUT(2)) == 1);
    TEST(freed_trace)(&traced);
}

static polyover_status TEST(trace_status)(polyover_rule rule, polyover_fill fill, polyover_solver solver,
                                          const TEST(edge_list) *edges) {
    TEST(traces) traced;
    memset(&traced, 77, sizeof traced);
    polyover_status status = NAME(polyover_trace)(rule, fill, solver, edges, &traced);
    CHECK(status == POLYOVER_OK || TEST(is_empty_trace)(&traced));
    TEST(freed_trace)(&traced);
    return status;
}

/* Faults in the order in which they are tested. */
static void TEST(tracing_refused)(void) {
    const NUMBER beyond[] = {0, 0, LIMIT, -LIMIT - 1};
    const uint8_t none[] = {2}, clip[] = {1}, greatest[] = {255};
    const TEST(edge_list) odd = {beyond, 3, none, 1}, off = {beyond, 3, clip, 1}, out = {beyond, 4, clip, 1};
    const TEST(edge_list) more = {beyond, 4, NULL, 0}, few = {NULL, 0, clip, 1}, far = {beyond, 4, greatest, 1};
    CHECK(TEST(trace_status)(8, 4, 2, &odd) == POLYOVER_BAD_RULE);
    CHECK(TEST(trace_status)(UINT32_MAX, 0, 0, &odd) == POLYOVER_BAD_RULE);
    CHECK(TEST(trace_status)(7, 4, 2, &odd) == POLYOVER_BAD_FILL);
    CHECK(TEST(trace_status)(0, UINT32_MAX, 2, &odd) == POLYOVER_BAD_FILL);
    CHECK(TEST(trace_status)(7, 3, 2, &off) == POLYOVER_BAD_OPTION);
    CHECK(TEST(trace_status)(7, 3, 0, &odd) == POLYOVER_BAD_OPTION);
    CHECK(TEST(trace_status)(7, 3, 0, &far) == POLYOVER_BAD_OPTION);
    CHECK(TEST(trace_status)(7, 3, 1, &off) == POLYOVER_BAD_ENDS);
    CHECK(TEST(trace_status)(7, 3, 1, &more) == POLYOVER_BAD_ENDS);
    CHECK(TEST(trace_status)(7, 3, 1, &few) == POLYOVER_BAD_ENDS);
    CHECK(TEST(trace_status)(7, 3, 1, &out) == POLYOVER_OUT_OF_RANGE);
    NAME(polyover_traced_free)(NULL);
}

/* The needles of tests_of_solvers.h, edge by edge. */
static void TEST(tracing_not_settled)(void) {
    NUMBER edges[24];
    const uint8_t sides[6] = {0};
    for (size_t at = 0; at < 6; at++) {
        const NUMBER *from = TEST(needles_at) + 2 * at, *to = TEST(needles_at) + 2 * (at % 3 == 2 ? at - 2 : at + 1);
        memcpy(edges + 4 * at, from, 2 * sizeof(NUMBER));
        memcpy(edges + 4 * at + 2, to, 2 * sizeof(NUMBER));
    }
    const TEST(edge_list) needles = {edges, 24, sides, 6};
    CHECK(TEST(trace_status)(POLYOVER_ALL_EDGES, POLYOVER_NON_ZERO, POLYOVER_ROUNDS, &needles) ==
          POLYOVER_NOT_SETTLED);
    CHECK(TEST(trace_status)(POLYOVER_ALL_EDGES, POLYOVER_NON_ZERO, POLYOVER_SNAPPED, &needles) == POLYOVER_OK);
}

#undef ALONG
#undef CUT
#undef BACK
#undef CUT_BACK
