/* The calls that are asked while memory is refused: each gives back what it was given, and tells its status. Those of
 * tests_of_memory.c are `check` and `granted`. */

/* The arguments of a call. */
typedef struct {
    polyover_rule rule;
    polyover_fill fill;
    polyover_solver solver;
    polyover_options options;
    polyover_clip_options kept;
    polyover_contours subject;
    polyover_contours clip;
    polyover_edge_list edges;
    size_t point_coordinates;
    size_t location_room;
    int64_t cell;
} asked;

/* Arrays for any answer, filled with a pattern before each call. */
typedef struct {
    int64_t coordinates[64];
    size_t contour_ends[16];
    size_t shape_ends[16];
    polyover_link links[8];
    uint8_t bytes[16];
    polyover_counts counts;
    polyover_path_counts path_counts;
    polyover_relations relations;
    size_t count;
} room;

typedef polyover_status (*call)(const asked *of, room *to);

static polyover_status overlay(const asked *of, room *to) {
    return polyover_overlay(of->rule, of->fill, &of->options, &of->subject, &of->clip, to->coordinates, 64,
                            to->contour_ends, 16, to->shape_ends, 16, &to->counts);
}

static polyover_status hierarchy(const asked *of, room *to) {
    return polyover_hierarchy(of->rule, of->fill, &of->options, &of->subject, &of->clip, to->coordinates, 64,
                              to->contour_ends, 16, to->shape_ends, 16, to->links, 8, &to->counts, &to->count);
}

static polyover_status simplify(const asked *of, room *to) {
    return polyover_simplify(of->fill, &of->options, &of->subject, to->coordinates, 64, to->contour_ends, 16,
                             to->shape_ends, 16, &to->counts);
}

static polyover_status slice(const asked *of, room *to) {
    return polyover_slice(of->fill, of->solver, &of->subject, &of->clip, to->coordinates, 64, to->contour_ends, 16,
                          to->shape_ends, 16, &to->counts);
}

static polyover_status clip(const asked *of, room *to) {
    return polyover_clip(of->fill, &of->kept, &of->subject, &of->clip, to->coordinates, 64, to->contour_ends, 16,
                         &to->path_counts);
}

static polyover_status relate(const asked *of, room *to) {
    return polyover_relate(of->fill, of->solver, &of->subject, &of->clip, &to->relations);
}

static polyover_status relate_one(const asked *of, room *to) {
    return polyover_relate_one(POLYOVER_DISJOINT, of->fill, of->solver, &of->subject, &of->clip, &to->relations);
}

static polyover_status relate_exact(const asked *of, room *to) {
    return polyover_relate_exact(of->fill, &of->subject, &of->clip, &to->relations);
}

static polyover_status relate_one_exact(const asked *of, room *to) {
    return polyover_relate_one_exact(POLYOVER_TOUCHES, of->fill, &of->subject, &of->clip, &to->relations);
}

static polyover_status relate_unknown(const asked *of, room *to) {
    return polyover_relate_one_exact(3, of->fill, &of->subject, &of->clip, &to->relations);
}

static polyover_status edges(const asked *of, room *to) {
    return polyover_edges(of->fill, of->solver, &of->subject, &of->clip, to->coordinates, 64, to->bytes, 16,
                          &to->count);
}

static polyover_status locate(const asked *of, room *to) {
    static const int64_t points[] = {1, 1, 9, 9, 0, 0};
    return polyover_locate(&of->subject, points, of->point_coordinates, to->bytes, of->location_room, &to->count);
}

static polyover_status resolved(const asked *of, room *to) {
    (void)to;
    return polyover_resolved(&of->subject);
}

/* Frees a result, after a check that a refused result has no item. The sanitizer reports leaks at the end. */
static polyover_status let_go(polyover_status status, polyover_result *result) {
    size_t items = result->coordinate_count + result->contour_count + result->shape_count + result->link_count +
                   result->fill_count;
    check((items == 0) == (status != POLYOVER_OK), "a result has items where it is answered", granted, __LINE__);
    polyover_free(result);
    return status;
}

static polyover_status overlay_result(const asked *of, room *to) {
    (void)to;
    polyover_result result;
    return let_go(polyover_overlay_result(of->rule, of->fill, &of->options, &of->subject, &of->clip, &result), &result);
}

static polyover_status hierarchy_result(const asked *of, room *to) {
    (void)to;
    polyover_result result;
    return let_go(polyover_hierarchy_result(of->rule, of->fill, &of->options, &of->subject, &of->clip, &result),
                  &result);
}

static polyover_status simplify_result(const asked *of, room *to) {
    (void)to;
    polyover_result result;
    return let_go(polyover_simplify_result(of->fill, &of->options, &of->subject, &result), &result);
}

static polyover_status slice_result(const asked *of, room *to) {
    (void)to;
    polyover_result result;
    return let_go(polyover_slice_result(of->fill, of->solver, &of->subject, &of->clip, &result), &result);
}

static polyover_status slice_custom_result(const asked *of, room *to) {
    const polyover_slice_options options = {.direction = 1, .solver = of->solver};
    (void)to;
    polyover_result result;
    return let_go(polyover_slice_custom_result(of->fill, &options, &of->subject, &of->clip, &result), &result);
}

static polyover_status simplify_shape_result(const asked *of, room *to) {
    (void)to;
    polyover_result result;
    uint32_t as_given = 77;
    polyover_status status =
        polyover_simplify_shape_result(of->fill, &of->options, &of->subject, &result, &as_given);
    check(as_given == (status == POLYOVER_OK), "a square stays as it is given", granted, __LINE__);
    return let_go(status, &result);
}

static polyover_status clip_result(const asked *of, room *to) {
    (void)to;
    polyover_result result;
    return let_go(polyover_clip_result(of->fill, &of->kept, &of->subject, &of->clip, &result), &result);
}

static polyover_status edges_result(const asked *of, room *to) {
    (void)to;
    polyover_result result;
    return let_go(polyover_edges_result(of->fill, of->solver, &of->subject, &of->clip, &result), &result);
}

static polyover_status vectors_result(const asked *of, room *to) {
    (void)to;
    polyover_result result;
    return let_go(polyover_vectors_result(of->rule, of->fill, &of->options, &of->subject, &of->clip, &result), &result);
}

static polyover_status tiles_result(const asked *of, room *to) {
    (void)to;
    polyover_result result;
    return let_go(polyover_tiles_result(of->fill, of->solver, &of->subject, of->cell, of->cell, &result), &result);
}

/* Prepares the subject, asks where points lie, and frees the prepared shape. To ask takes no memory: after the shape is
 * prepared each request is refused. */
static polyover_status prepare(const asked *of, room *to) {
    static const int64_t points[] = {1, 1, 9, 9, 0, 0};
    polyover_location locations[3];
    polyover_prepared prepared;
    (void)to;
    polyover_status status = polyover_prepare(of->fill, of->solver, &of->subject, &prepared);
    size_t items = prepared.edge_count + prepared.block_count + prepared.group_count, left = granted;
    check((items == 0) == (status != POLYOVER_OK), "a shape has a boundary where it is prepared", granted, __LINE__);
    granted = 0;
    check(polyover_prepared_locate(&prepared, points, 6, locations, 3) == POLYOVER_OK, "it is asked without memory",
          left, __LINE__);
    granted = left;
    check(status != POLYOVER_OK || (locations[0] == POLYOVER_INSIDE && locations[1] == POLYOVER_OUTSIDE &&
                                    locations[2] == POLYOVER_BOUNDARY),
          "points lie as they should", left, __LINE__);
    polyover_prepared_free(&prepared);
    polyover_prepared_free(&prepared);
    return status;
}

/* The same of the subject as it is given. */
static polyover_status prepare_exact(const asked *of, room *to) {
    static const int64_t points[] = {1, 1, 9, 9, 0, 0};
    polyover_location locations[3];
    polyover_exact shape;
    (void)to;
    polyover_status status = polyover_prepare_exact(of->fill, &of->subject, &shape);
    size_t items = shape.edge_count + shape.block_count + shape.group_count, left = granted;
    check((items == 0) == (status != POLYOVER_OK), "a shape has edges where it is made", granted, __LINE__);
    granted = 0;
    check(polyover_exact_locate(&shape, points, 6, locations, 3) == POLYOVER_OK, "it is asked without memory", left,
          __LINE__);
    granted = left;
    check(status != POLYOVER_OK || (locations[0] == POLYOVER_INSIDE && locations[1] == POLYOVER_OUTSIDE &&
                                    locations[2] == POLYOVER_BOUNDARY),
          "points lie as they should", left, __LINE__);
    polyover_exact_free(&shape);
    polyover_exact_free(&shape);
    return status;
}

/* A question of a graph. */
typedef polyover_status question(const polyover_graph *graph, const asked *of, polyover_result *result);

/* Arranges the contours, asks the graph, and frees both. */
static polyover_status of_graph(const asked *of, question *asks) {
    polyover_graph graph;
    polyover_result result = {0};
    polyover_status status =
        polyover_arrange(of->fill, of->solver, of->options.keep / 2, &of->subject, &of->clip, &graph);
    check((graph.edge_count == 0) == (status != POLYOVER_OK), "a graph has edges where it is made", granted, __LINE__);
    if (status == POLYOVER_OK) {
        status = let_go(asks(&graph, of, &result), &result);
    }
    polyover_graph_free(&graph);
    polyover_graph_free(&graph);
    return status;
}

static polyover_status asks_overlay(const polyover_graph *graph, const asked *of, polyover_result *result) {
    return polyover_graph_overlay_result(graph, of->rule, &of->options, result);
}

static polyover_status asks_hierarchy(const polyover_graph *graph, const asked *of, polyover_result *result) {
    return polyover_graph_hierarchy_result(graph, of->rule, &of->options, result);
}

static polyover_status asks_edges(const polyover_graph *graph, const asked *of, polyover_result *result) {
    (void)of;
    return polyover_graph_edges_result(graph, result);
}

static polyover_status graph_overlay(const asked *of, room *to) {
    (void)to;
    return of_graph(of, asks_overlay);
}

static polyover_status graph_hierarchy(const asked *of, room *to) {
    (void)to;
    return of_graph(of, asks_hierarchy);
}

static polyover_status graph_edges(const asked *of, room *to) {
    (void)to;
    return of_graph(of, asks_edges);
}

static polyover_status trace(const asked *of, room *to) {
    polyover_traced traced;
    (void)to;
    polyover_status status = polyover_trace(of->rule, of->fill, of->solver, &of->edges, &traced);
    size_t items = traced.coordinate_count + traced.fill_count + traced.source_end_count + traced.source_count;
    check((items == 0) == (status != POLYOVER_OK), "edges are there where they are traced", granted, __LINE__);
    polyover_traced_free(&traced);
    polyover_traced_free(&traced);
    return status;
}
