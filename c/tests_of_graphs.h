/* Tests at one width of graphs; the names are those of tests_of_width.h and tests_of_results.h, and GRAPH is the type
 * of graphs. */

/* A graph with arbitrary content, as on the stack. */
static GRAPH TEST(some_graph)(void) {
    GRAPH graph;
    memset(&graph, 77, sizeof graph);
    return graph;
}

static int TEST(is_graph_without_edges)(const GRAPH *graph) {
    return graph->edge_count == 0 && graph->fill == 0 && graph->solver == 0 && graph->keep_given == 0;
}

static void TEST(graph_freed)(GRAPH *graph) {
    NAME(polyover_graph_free)(graph);
    CHECK(TEST(is_graph_without_edges)(graph) && graph->edges == NULL);
    NAME(polyover_graph_free)(graph);
}

/* Checks that two results hold the same, and frees both. */
static void TEST(same_result)(polyover_status status, polyover_status other, RESULT *result, RESULT *second, int line) {
    check(status == POLYOVER_OK && other == POLYOVER_OK, "both are answered", line);
    check(TEST(are_same)(result->coordinates, result->coordinate_count, second->coordinates, second->coordinate_count,
                         sizeof(NUMBER)) &&
              TEST(are_same)(result->contour_ends, result->contour_count, second->contour_ends, second->contour_count,
                             sizeof(size_t)) &&
              TEST(are_same)(result->shape_ends, result->shape_count, second->shape_ends, second->shape_count,
                             sizeof(size_t)) &&
              TEST(are_same)(result->links, result->link_count, second->links, second->link_count,
                             sizeof(polyover_link)) &&
              TEST(are_same)(result->fills, result->fill_count, second->fills, second->fill_count, 1),
          "both hold the same", line);
    TEST(freed)(result);
    TEST(freed)(second);
}

/* Asks the graph of the arguments, and the calls that arrange anew, twice. */
static void TEST(asked_by_graph)(const TEST(question) *of, int line) {
    GRAPH graph = TEST(some_graph)(), before;
    RESULT result = TEST(some_result)(), second = TEST(some_result)();
    const uint32_t keep_given = of->options.keep / 2;
    check(NAME(polyover_arrange)(of->fill, of->options.solver, keep_given, &of->subject, &of->clip, &graph) ==
              POLYOVER_OK,
          "it is arranged", line);
    check(graph.fill == of->fill && graph.solver == of->options.solver && graph.keep_given == keep_given,
          "it has its numbers", line);
    memcpy(&before, &graph, sizeof before);
    for (int turn = 0; turn < 2; turn++) {
        for (polyover_rule rule = POLYOVER_SUBJECT; rule <= POLYOVER_XOR; rule++) {
            TEST(same_result)
            (NAME(polyover_graph_overlay_result)(&graph, rule, &of->options, &result),
             NAME(polyover_overlay_result)(rule, of->fill, &of->options, &of->subject, &of->clip, &second), &result,
             &second, line);
            TEST(same_result)
            (NAME(polyover_graph_hierarchy_result)(&graph, rule, &of->options, &result),
             NAME(polyover_hierarchy_result)(rule, of->fill, &of->options, &of->subject, &of->clip, &second), &result,
             &second, line);
        }
        /* (the call for edges drops given points) */
        if (keep_given == 0) {
            TEST(same_result)
            (NAME(polyover_graph_edges_result)(&graph, &result),
             NAME(polyover_edges_result)(of->fill, of->options.solver, &of->subject, &of->clip, &second), &result,
             &second, line);
        }
    }
    check(memcmp(&before, &graph, sizeof before) == 0, "the graph stays", line);
    TEST(graph_freed)(&graph);
}

#define ASKED_BY_GRAPH(of) TEST(asked_by_graph)(&of, __LINE__)

/* Two squares that overlap, and five nested ones; by each fill rule and solver, with options. */
static void TEST(graphs)(void) {
    const NUMBER nested[] = {0, 100, 10, 90, 20, 80, 30, 70, 40, 60};
    const size_t four[] = {4};
    NUMBER coordinates[40];
    size_t ends[5];
    TEST(question) of = {.rule = 0};
    of.subject = (CONTOURS){TEST(subject_at), 8, four, 1};
    of.clip = (CONTOURS){TEST(clip_at), 8, four, 1};
    for (of.fill = POLYOVER_EVEN_ODD; of.fill <= POLYOVER_NEGATIVE; of.fill++) {
        for (of.options.solver = POLYOVER_SNAPPED; of.options.solver <= POLYOVER_ROUNDS; of.options.solver++) {
            ASKED_BY_GRAPH(of);
        }
    }
    TEST(squares_at)(coordinates, ends, nested, 5);
    of.fill = POLYOVER_EVEN_ODD;
    of.options = (OPTIONS)SMALLEST(400);
    of.options.direction = of.options.keep = of.options.touching = 1;
    of.subject = (CONTOURS){coordinates, 40, ends, 5};
    ASKED_BY_GRAPH(of);
    of.clip = (CONTOURS){NULL, 0, NULL, 0};
    ASKED_BY_GRAPH(of);
    of.subject = of.clip;
    ASKED_BY_GRAPH(of);
}
#undef ASKED_BY_GRAPH

/* The squares of 4 by 4 from (0, 0) and from (2, 2) on: what both cover is the square from (2, 2) to (4, 4). With null
 * options a graph has its own solver. */
static void TEST(graphs_by_default)(void) {
    const size_t four[] = {4};
    const CONTOURS subject = {TEST(subject_at), 8, four, 1}, clip = {TEST(clip_at), 8, four, 1};
    const NUMBER common[] = {2, 4, 2, 2, 4, 2, 4, 4};
    for (polyover_solver solver = POLYOVER_SNAPPED; solver <= POLYOVER_ROUNDS; solver++) {
        GRAPH graph = TEST(some_graph)();
        RESULT result = TEST(some_result)();
        CHECK(NAME(polyover_arrange)(POLYOVER_NON_ZERO, solver, 0, &subject, &clip, &graph) == POLYOVER_OK);
        /* (two sides of each square cross the other square) */
        CHECK(graph.edge_count == 12);
        CHECK(NAME(polyover_graph_overlay_result)(&graph, POLYOVER_INTERSECT, NULL, &result) == POLYOVER_OK);
        CHECK(TEST(are_same)(result.coordinates, result.coordinate_count, common, 8, sizeof(NUMBER)));
        CHECK(result.contour_count == 1 && result.shape_count == 1 && result.link_count == 0);
        TEST(freed)(&result);
        result = TEST(some_result)();
        CHECK(NAME(polyover_graph_hierarchy_result)(&graph, POLYOVER_INTERSECT, NULL, &result) == POLYOVER_OK);
        CHECK(TEST(are_same)(result.coordinates, result.coordinate_count, common, 8, sizeof(NUMBER)));
        TEST(freed)(&result);
        result = TEST(some_result)();
        CHECK(NAME(polyover_graph_edges_result)(&graph, &result) == POLYOVER_OK);
        CHECK(result.fill_count == 12 && result.coordinate_count == 48);
        TEST(freed)(&result);
        TEST(graph_freed)(&graph);
        CHECK(NAME(polyover_arrange)(POLYOVER_NON_ZERO, solver, 0, &subject, NULL, &graph) == POLYOVER_OK);
        CHECK(graph.edge_count == 4);
        TEST(graph_freed)(&graph);
    }
}

/* A graph that is all zero has no edges. */
static void TEST(graph_of_nothing)(void) {
    GRAPH zero = {0};
    RESULT result = TEST(some_result)();
    CHECK(NAME(polyover_graph_overlay_result)(&zero, POLYOVER_UNION, NULL, &result) == POLYOVER_OK);
    CHECK(TEST(holds_nothing)(&result));
    TEST(freed)(&result);
    result = TEST(some_result)();
    CHECK(NAME(polyover_graph_hierarchy_result)(&zero, POLYOVER_UNION, NULL, &result) == POLYOVER_OK);
    CHECK(TEST(holds_nothing)(&result));
    result = TEST(some_result)();
    CHECK(NAME(polyover_graph_edges_result)(&zero, &result) == POLYOVER_OK);
    CHECK(TEST(holds_nothing)(&result));
    TEST(graph_freed)(&zero);
    NAME(polyover_graph_free)(NULL);
}

/* Checks a status of arranging that leaves no edges. */
static void TEST(not_arranged)(polyover_fill fill, polyover_solver solver, uint32_t keep_given,
                               const CONTOURS *subject, const CONTOURS *clip, polyover_status wanted, int line) {
    GRAPH graph = TEST(some_graph)();
    check(NAME(polyover_arrange)(fill, solver, keep_given, subject, clip, &graph) == wanted,
          "the status is the one wanted", line);
    check(TEST(is_graph_without_edges)(&graph), "it has no edges", line);
    TEST(graph_freed)(&graph);
}

static void TEST(arranging_refused)(void) {
    const NUMBER beyond[] = {0, 0, LIMIT, 0, -LIMIT - 1, 4, 0, 4};
    const size_t three[] = {3}, four[] = {4}, falling[] = {4, 3};
    const CONTOURS square = {TEST(subject_at), 8, four, 1};
    const CONTOURS bad = {beyond, 8, falling, 2}, odd = {beyond, 7, four, 1}, out = {beyond, 8, four, 1};
    const CONTOURS first = {TEST(needles_at), 6, three, 1}, second = {TEST(needles_at) + 6, 6, three, 1};
    TEST(not_arranged)(4, 2, 2, &bad, &out, POLYOVER_BAD_FILL, __LINE__);
    TEST(not_arranged)(UINT32_MAX, 0, 0, &bad, &out, POLYOVER_BAD_FILL, __LINE__);
    TEST(not_arranged)(3, 2, 0, &bad, &out, POLYOVER_BAD_OPTION, __LINE__);
    TEST(not_arranged)(3, 1, 2, &bad, &out, POLYOVER_BAD_OPTION, __LINE__);
    TEST(not_arranged)(3, 0, UINT32_MAX, &bad, &out, POLYOVER_BAD_OPTION, __LINE__);
    TEST(not_arranged)(3, 1, 1, &bad, &out, POLYOVER_BAD_ENDS, __LINE__);
    TEST(not_arranged)(3, 1, 1, &square, &odd, POLYOVER_BAD_ENDS, __LINE__);
    TEST(not_arranged)(3, 1, 1, &out, &bad, POLYOVER_OUT_OF_RANGE, __LINE__);
    TEST(not_arranged)(3, 1, 1, &out, NULL, POLYOVER_OUT_OF_RANGE, __LINE__);
    TEST(not_arranged)(3, 1, 1, &square, &out, POLYOVER_OUT_OF_RANGE, __LINE__);
    TEST(not_arranged)(1, POLYOVER_ROUNDS, 0, &first, &second, POLYOVER_NOT_SETTLED, __LINE__);
}

/* Checks a status of both calls on a graph that leaves nothing. */
static void TEST(graph_not_asked)(const GRAPH *graph, polyover_rule rule, const OPTIONS *options,
                                  polyover_status wanted, int line) {
    RESULT result = TEST(some_result)();
    check(NAME(polyover_graph_overlay_result)(graph, rule, options, &result) == wanted, "the status is the one wanted",
          line);
    check(TEST(holds_nothing)(&result), "nothing is held", line);
    result = TEST(some_result)();
    check(NAME(polyover_graph_hierarchy_result)(graph, rule, options, &result) == wanted,
          "the status is the one wanted", line);
    check(TEST(holds_nothing)(&result), "nothing is held", line);
}

static void TEST(graph_asking_refused)(void) {
    const size_t four[] = {4};
    const CONTOURS subject = {TEST(subject_at), 8, four, 1}, clip = {TEST(clip_at), 8, four, 1};
    const OPTIONS rounds = {.solver = POLYOVER_ROUNDS}, snapped = {.solver = POLYOVER_SNAPPED};
    const OPTIONS turned = {.direction = 2}, kept = {.keep = 4}, touching = {.touching = 2}, unknown = {.solver = 2};
    const OPTIONS given = {.keep = 2}, both = {.keep = 3}, of_answer = {.keep = 1}, none = {0};
    GRAPH graph = TEST(some_graph)();
    CHECK(NAME(polyover_arrange)(POLYOVER_NON_ZERO, POLYOVER_SNAPPED, 0, &subject, &clip, &graph) == POLYOVER_OK);
    TEST(graph_not_asked)(&graph, 7, &rounds, POLYOVER_BAD_RULE, __LINE__);
    TEST(graph_not_asked)(&graph, UINT32_MAX, NULL, POLYOVER_BAD_RULE, __LINE__);
    TEST(graph_not_asked)(&graph, 6, &turned, POLYOVER_BAD_OPTION, __LINE__);
    TEST(graph_not_asked)(&graph, 6, &kept, POLYOVER_BAD_OPTION, __LINE__);
    TEST(graph_not_asked)(&graph, 6, &touching, POLYOVER_BAD_OPTION, __LINE__);
    TEST(graph_not_asked)(&graph, 6, &unknown, POLYOVER_BAD_OPTION, __LINE__);
    /* (the solver of another arrangement) */
    TEST(graph_not_asked)(&graph, 6, &rounds, POLYOVER_BAD_OPTION, __LINE__);
    TEST(graph_freed)(&graph);
    CHECK(NAME(polyover_arrange)(POLYOVER_NON_ZERO, POLYOVER_ROUNDS, 0, &subject, &clip, &graph) == POLYOVER_OK);
    TEST(graph_not_asked)(&graph, 6, &snapped, POLYOVER_BAD_OPTION, __LINE__);
    TEST(graph_freed)(&graph);
    /* (given points that were dropped, or kept, as the graph was made) */
    CHECK(NAME(polyover_arrange)(POLYOVER_NON_ZERO, POLYOVER_SNAPPED, 0, &subject, &clip, &graph) == POLYOVER_OK);
    TEST(graph_not_asked)(&graph, 6, &given, POLYOVER_BAD_OPTION, __LINE__);
    TEST(graph_not_asked)(&graph, 6, &both, POLYOVER_BAD_OPTION, __LINE__);
    TEST(graph_freed)(&graph);
    CHECK(NAME(polyover_arrange)(POLYOVER_NON_ZERO, POLYOVER_SNAPPED, 1, &subject, &clip, &graph) == POLYOVER_OK);
    TEST(graph_not_asked)(&graph, 6, &none, POLYOVER_BAD_OPTION, __LINE__);
    TEST(graph_not_asked)(&graph, 6, &of_answer, POLYOVER_BAD_OPTION, __LINE__);
    TEST(graph_not_asked)(&graph, 6, &kept, POLYOVER_BAD_OPTION, __LINE__);
    TEST(graph_freed)(&graph);
}

/* A given point on one line with its neighbours, (3, 0), is 1/5 below an edge of the clip, which is led through it
 * where the point is kept. The square has a point on a side. */
static void TEST(graphs_with_given_points)(void) {
    const NUMBER side[] = {0, 0, 0, -4, 8, -4, 8, 0, 3, 0}, near_it[] = {-1, 1, 9, -1, 9, 5};
    const NUMBER longer[] = {0, 0, 2, 0, 4, 0, 4, 4, 0, 4};
    const size_t five[] = {5}, three[] = {3};
    TEST(question) of = {.fill = POLYOVER_NON_ZERO};
    const CONTOURS square = {longer, 10, five, 1};
    GRAPH graph = TEST(some_graph)();
    RESULT result = TEST(some_result)();
    of.subject = (CONTOURS){side, 10, five, 1};
    of.clip = (CONTOURS){near_it, 6, three, 1};
    for (of.options.solver = POLYOVER_SNAPPED; of.options.solver <= POLYOVER_ROUNDS; of.options.solver++) {
        for (of.options.keep = 0; of.options.keep < 4; of.options.keep++) {
            TEST(asked_by_graph)(&of, __LINE__);
        }
    }
    for (uint32_t keep_given = 0; keep_given < 2; keep_given++) {
        CHECK(NAME(polyover_arrange)(POLYOVER_NON_ZERO, POLYOVER_SNAPPED, keep_given, &square, NULL, &graph) ==
              POLYOVER_OK);
        CHECK(graph.edge_count == 4 + keep_given && graph.keep_given == keep_given);
        /* (with null options given points are nodes, and not kept in the answer) */
        CHECK(NAME(polyover_graph_overlay_result)(&graph, POLYOVER_SUBJECT, NULL, &result) == POLYOVER_OK);
        CHECK(result.coordinate_count == 8);
        TEST(freed)(&result);
        CHECK(NAME(polyover_graph_edges_result)(&graph, &result) == POLYOVER_OK);
        CHECK(result.fill_count == 4 + keep_given);
        TEST(freed)(&result);
        TEST(graph_freed)(&graph);
    }
}
