/* The results of library_results.c at one width, by the names at it: CONTOURS, PATHS, OPTIONS, RESULT,
 * PREPARED, EXACT, GRAPH, TRACED, SLICE_OPTIONS, NAME(call). */

/* (these are proved) */
polyover_status NAME(polyover_overlay_result_with)(polyover_rule rule, polyover_fill fill, const OPTIONS *options,
                                                   const CONTOURS *subject, const CONTOURS *clip, RESULT *result);
polyover_status NAME(polyover_simplify_result_with)(polyover_fill fill, const OPTIONS *options,
                                                    const CONTOURS *contours, RESULT *result);
polyover_status NAME(polyover_hierarchy_result_with)(polyover_rule rule, polyover_fill fill, const OPTIONS *options,
                                                     const CONTOURS *subject, const CONTOURS *clip, RESULT *result);
polyover_status NAME(polyover_clip_result_with)(polyover_fill fill, const polyover_clip_options *options,
                                                const CONTOURS *shape, const PATHS *lines, RESULT *result);
polyover_status NAME(polyover_slice_custom_result_with)(polyover_fill fill, const SLICE_OPTIONS *options,
                                                        const CONTOURS *subject, const PATHS *lines, RESULT *result);
polyover_status NAME(polyover_simplify_shape_result_with)(polyover_fill fill, const OPTIONS *options,
                                                          const CONTOURS *contours, RESULT *result,
                                                          uint32_t *as_given);
polyover_status NAME(polyover_arrange_with)(polyover_fill fill, polyover_solver solver, uint32_t keep_given,
                                            const CONTOURS *subject, const CONTOURS *clip, GRAPH *graph);
polyover_status NAME(polyover_graph_overlay_result_with)(const GRAPH *graph, polyover_rule rule,
                                                         const OPTIONS *options, RESULT *result);
polyover_status NAME(polyover_graph_hierarchy_result_with)(const GRAPH *graph, polyover_rule rule,
                                                           const OPTIONS *options, RESULT *result);
polyover_status NAME(polyover_edges_result_with)(polyover_fill fill, polyover_solver solver, const CONTOURS *subject,
                                                 const CONTOURS *clip, RESULT *result);
polyover_status NAME(polyover_vectors_result_with)(polyover_rule rule, polyover_fill fill, const OPTIONS *options,
                                                   const CONTOURS *subject, const CONTOURS *clip, RESULT *result);

polyover_status NAME(polyover_overlay_result)(polyover_rule rule, polyover_fill fill, const OPTIONS *options,
                                              const CONTOURS *subject, const CONTOURS *clip, RESULT *result) {
    const OPTIONS by_default = {0};
    const CONTOURS none = {0};
    return NAME(polyover_overlay_result_with)(rule, fill, options ? options : &by_default, subject,
                                              clip ? clip : &none, result);
}

polyover_status NAME(polyover_simplify_result)(polyover_fill fill, const OPTIONS *options, const CONTOURS *contours,
                                               RESULT *result) {
    const OPTIONS by_default = {0};
    return NAME(polyover_simplify_result_with)(fill, options ? options : &by_default, contours, result);
}

polyover_status NAME(polyover_hierarchy_result)(polyover_rule rule, polyover_fill fill, const OPTIONS *options,
                                                const CONTOURS *subject, const CONTOURS *clip, RESULT *result) {
    const OPTIONS by_default = {0};
    const CONTOURS none = {0};
    return NAME(polyover_hierarchy_result_with)(rule, fill, options ? options : &by_default, subject,
                                                clip ? clip : &none, result);
}

polyover_status NAME(polyover_clip_result)(polyover_fill fill, const polyover_clip_options *options,
                                           const CONTOURS *shape, const PATHS *lines, RESULT *result) {
    const polyover_clip_options by_default = {0};
    return NAME(polyover_clip_result_with)(fill, options ? options : &by_default, shape, lines, result);
}

polyover_status NAME(polyover_slice_custom_result)(polyover_fill fill, const SLICE_OPTIONS *options,
                                                   const CONTOURS *subject, const PATHS *lines, RESULT *result) {
    const SLICE_OPTIONS by_default = {0};
    return NAME(polyover_slice_custom_result_with)(fill, options ? options : &by_default, subject, lines, result);
}

polyover_status NAME(polyover_simplify_shape_result)(polyover_fill fill, const OPTIONS *options,
                                                     const CONTOURS *contours, RESULT *result, uint32_t *as_given) {
    const OPTIONS by_default = {0};
    return NAME(polyover_simplify_shape_result_with)(fill, options ? options : &by_default, contours, result,
                                                     as_given);
}

polyover_status NAME(polyover_edges_result)(polyover_fill fill, polyover_solver solver, const CONTOURS *subject,
                                            const CONTOURS *clip, RESULT *result) {
    const CONTOURS none = {0};
    return NAME(polyover_edges_result_with)(fill, solver, subject, clip ? clip : &none, result);
}

polyover_status NAME(polyover_vectors_result)(polyover_rule rule, polyover_fill fill, const OPTIONS *options,
                                              const CONTOURS *subject, const CONTOURS *clip, RESULT *result) {
    const OPTIONS by_default = {0};
    const CONTOURS none = {0};
    return NAME(polyover_vectors_result_with)(rule, fill, options ? options : &by_default, subject,
                                              clip ? clip : &none, result);
}

void NAME(polyover_free)(RESULT *result) {
    if (result == NULL) {
        return;
    }
    free_array(result->coordinates, result->coordinate_count);
    free_array(result->contour_ends, result->contour_count);
    free_array(result->shape_ends, result->shape_count);
    free_array(result->links, result->link_count);
    free_array(result->fills, result->fill_count);
    *result = (RESULT){0};
}

void NAME(polyover_prepared_free)(PREPARED *prepared) {
    if (prepared == NULL) {
        return;
    }
    free_array(prepared->edges, prepared->edge_count);
    free_array(prepared->blocks, prepared->block_count);
    free_array(prepared->groups, prepared->group_count);
    *prepared = (PREPARED){0};
}

void NAME(polyover_exact_free)(EXACT *shape) {
    if (shape == NULL) {
        return;
    }
    free_array(shape->edges, shape->edge_count);
    free_array(shape->blocks, shape->block_count);
    free_array(shape->groups, shape->group_count);
    *shape = (EXACT){0};
}

polyover_status NAME(polyover_arrange)(polyover_fill fill, polyover_solver solver, uint32_t keep_given,
                                       const CONTOURS *subject, const CONTOURS *clip, GRAPH *graph) {
    const CONTOURS none = {0};
    return NAME(polyover_arrange_with)(fill, solver, keep_given, subject, clip ? clip : &none, graph);
}

polyover_status NAME(polyover_graph_overlay_result)(const GRAPH *graph, polyover_rule rule, const OPTIONS *options,
                                                    RESULT *result) {
    const OPTIONS by_default = {.keep = 2 * graph->keep_given, .solver = graph->solver};
    return NAME(polyover_graph_overlay_result_with)(graph, rule, options ? options : &by_default, result);
}

polyover_status NAME(polyover_graph_hierarchy_result)(const GRAPH *graph, polyover_rule rule, const OPTIONS *options,
                                                      RESULT *result) {
    const OPTIONS by_default = {.keep = 2 * graph->keep_given, .solver = graph->solver};
    return NAME(polyover_graph_hierarchy_result_with)(graph, rule, options ? options : &by_default, result);
}

void NAME(polyover_graph_free)(GRAPH *graph) {
    if (graph == NULL) {
        return;
    }
    free_array(graph->edges, graph->edge_count);
    *graph = (GRAPH){0};
}

void NAME(polyover_traced_free)(TRACED *traced) {
    if (traced == NULL) {
        return;
    }
    free_array(traced->coordinates, traced->coordinate_count);
    free_array(traced->fills, traced->fill_count);
    free_array(traced->source_ends, traced->source_end_count);
    free_array(traced->sources, traced->source_count);
    *traced = (TRACED){0};
}
