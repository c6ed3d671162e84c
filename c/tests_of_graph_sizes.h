/* Tests at one width of graphs of some 100,000 edges; the names are those of tests_of_sizes.h, and GRAPH is the type of
 * graphs. */

/* Makes a graph; it has edges where it is answered. */
static polyover_status TEST(arrange)(const TEST(question) *of, RESULT *result) {
    GRAPH graph;
    memset(result, 0, sizeof *result);
    polyover_status status = NAME(polyover_arrange)(of->fill, of->solver, 0, &of->subject, &of->clip, &graph);
    CHECK((graph.edge_count == 0) == (status != POLYOVER_OK));
    NAME(polyover_graph_free)(&graph);
    return status;
}

/* A question of a graph by one thread, and its answer. */
typedef struct {
    pthread_t thread;
    const GRAPH *graph;
    polyover_rule rule;
    polyover_status status;
    RESULT result;
} TEST(asking);

static void *TEST(ask)(void *given) {
    TEST(asking) *it = given;
    it->status = it->rule == POLYOVER_XOR
                     ? NAME(polyover_graph_hierarchy_result)(it->graph, it->rule, NULL, &it->result)
                     : NAME(polyover_graph_overlay_result)(it->graph, it->rule, NULL, &it->result);
    return NULL;
}

static int TEST(hold_the_same)(const RESULT *one, const RESULT *other) {
    return one->coordinate_count == other->coordinate_count && one->contour_count == other->contour_count &&
           one->shape_count == other->shape_count && one->link_count == other->link_count &&
           memcmp(one->coordinates, other->coordinates, one->coordinate_count * sizeof(NUMBER)) == 0 &&
           memcmp(one->contour_ends, other->contour_ends, one->contour_count * sizeof(size_t)) == 0 &&
           memcmp(one->shape_ends, other->shape_ends, one->shape_count * sizeof(size_t)) == 0;
}

/* Squares in a grid, and the same ones moved by half their side: each rule is asked on a thread of its own, all at
 * once. The answers are those of the call that arranges anew. Of each pair of squares two sides of each are cut in two,
 * so it has 12 edges. */
static void TEST(asked_at_once)(polyover_solver solver) {
    const size_t side = 112;
    TEST(made) one = TEST(none)(), other = TEST(none)();
    TEST(squares)(&one, side, 4, 0, 2);
    TEST(squares)(&other, side, 4, 1, 3);
    TEST(question) of = {POLYOVER_SUBJECT, POLYOVER_NON_ZERO, solver, TEST(given)(&one), TEST(given)(&other)};
    static TEST(asking) all[POLYOVER_XOR + 1];
    GRAPH graph;
    CHECK(NAME(polyover_arrange)(of.fill, solver, 0, &of.subject, &of.clip, &graph) == POLYOVER_OK);
    CHECK(graph.edge_count == 12 * side * side);
    for (polyover_rule rule = POLYOVER_SUBJECT; rule <= POLYOVER_XOR; rule++) {
        all[rule].graph = &graph;
        all[rule].rule = rule;
        if (pthread_create(&all[rule].thread, NULL, TEST(ask), &all[rule])) {
            abort();
        }
    }
    for (polyover_rule rule = POLYOVER_SUBJECT; rule <= POLYOVER_XOR; rule++) {
        RESULT result;
        if (pthread_join(all[rule].thread, NULL)) {
            abort();
        }
        of.rule = rule;
        CHECK(all[rule].status == POLYOVER_OK && TEST(overlay)(&of, &result) == POLYOVER_OK);
        CHECK(TEST(hold_the_same)(&all[rule].result, &result));
        NAME(polyover_free)(&all[rule].result);
        NAME(polyover_free)(&result);
    }
    NAME(polyover_graph_free)(&graph);
    TEST(let_go)(&one);
    TEST(let_go)(&other);
}

static void TEST(graph_sizes)(polyover_solver solver) {
    TEST(asked_at_once)(solver);
    TEST(limit_of)(TEST(arrange), solver, 0, 0);
}
