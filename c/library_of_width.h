/* The calls with options at one width: NUMBER is the type of coordinates, CONTOURS, OPTIONS and NAME(call) the names at
 * that width. The calls of the module have `_with` in their names, and the same arguments; none of them is null. */

polyover_status NAME(polyover_overlay_with)(polyover_rule rule, polyover_fill fill, const OPTIONS *options,
                                            const CONTOURS *subject, const CONTOURS *clip, NUMBER *coordinates,
                                            size_t coordinate_room, size_t *contour_ends, size_t contour_room,
                                            size_t *shape_ends, size_t shape_room, polyover_counts *counts);
polyover_status NAME(polyover_simplify_with)(polyover_fill fill, const OPTIONS *options, const CONTOURS *contours,
                                             NUMBER *coordinates, size_t coordinate_room, size_t *contour_ends,
                                             size_t contour_room, size_t *shape_ends, size_t shape_room,
                                             polyover_counts *counts);
polyover_status NAME(polyover_hierarchy_with)(polyover_rule rule, polyover_fill fill, const OPTIONS *options,
                                              const CONTOURS *subject, const CONTOURS *clip, NUMBER *coordinates,
                                              size_t coordinate_room, size_t *contour_ends, size_t contour_room,
                                              size_t *shape_ends, size_t shape_room, polyover_link *links,
                                              size_t link_room, polyover_counts *counts, size_t *link_count);
polyover_status NAME(polyover_clip_with)(polyover_fill fill, const polyover_clip_options *options,
                                         const CONTOURS *shape, const CONTOURS *lines, NUMBER *coordinates,
                                         size_t coordinate_room, size_t *path_ends, size_t path_room,
                                         polyover_path_counts *counts);
polyover_status NAME(polyover_relate_with)(polyover_fill fill, polyover_solver solver, const CONTOURS *subject,
                                           const CONTOURS *clip, polyover_relations *relations);
polyover_status NAME(polyover_relate_one_with)(polyover_relations relation, polyover_fill fill, polyover_solver solver,
                                               const CONTOURS *subject, const CONTOURS *clip, uint32_t *holds);
polyover_status NAME(polyover_relate_exact_with)(polyover_fill fill, const CONTOURS *subject, const CONTOURS *clip,
                                                 polyover_relations *relations);
polyover_status NAME(polyover_relate_one_exact_with)(polyover_relations relation, polyover_fill fill,
                                                     const CONTOURS *subject, const CONTOURS *clip, uint32_t *holds);
polyover_status NAME(polyover_edges_with)(polyover_fill fill, polyover_solver solver, const CONTOURS *subject,
                                          const CONTOURS *clip, NUMBER *coordinates, size_t coordinate_room,
                                          uint8_t *fills, size_t fill_room, size_t *count);

polyover_status NAME(polyover_overlay)(polyover_rule rule, polyover_fill fill, const OPTIONS *options,
                                       const CONTOURS *subject, const CONTOURS *clip, NUMBER *coordinates,
                                       size_t coordinate_room, size_t *contour_ends, size_t contour_room,
                                       size_t *shape_ends, size_t shape_room, polyover_counts *counts) {
    const OPTIONS by_default = {0};
    const CONTOURS none = {0};
    return NAME(polyover_overlay_with)(rule, fill, options ? options : &by_default, subject, clip ? clip : &none,
                                       coordinates, coordinate_room, contour_ends, contour_room, shape_ends, shape_room,
                                       counts);
}

polyover_status NAME(polyover_simplify)(polyover_fill fill, const OPTIONS *options, const CONTOURS *contours,
                                        NUMBER *coordinates, size_t coordinate_room, size_t *contour_ends,
                                        size_t contour_room, size_t *shape_ends, size_t shape_room,
                                        polyover_counts *counts) {
    const OPTIONS by_default = {0};
    return NAME(polyover_simplify_with)(fill, options ? options : &by_default, contours, coordinates, coordinate_room,
                                        contour_ends, contour_room, shape_ends, shape_room, counts);
}

polyover_status NAME(polyover_hierarchy)(polyover_rule rule, polyover_fill fill, const OPTIONS *options,
                                         const CONTOURS *subject, const CONTOURS *clip, NUMBER *coordinates,
                                         size_t coordinate_room, size_t *contour_ends, size_t contour_room,
                                         size_t *shape_ends, size_t shape_room, polyover_link *links, size_t link_room,
                                         polyover_counts *counts, size_t *link_count) {
    const OPTIONS by_default = {0};
    const CONTOURS none = {0};
    return NAME(polyover_hierarchy_with)(rule, fill, options ? options : &by_default, subject, clip ? clip : &none,
                                         coordinates, coordinate_room, contour_ends, contour_room, shape_ends,
                                         shape_room, links, link_room, counts, link_count);
}

polyover_status NAME(polyover_clip)(polyover_fill fill, const polyover_clip_options *options, const CONTOURS *shape,
                                    const CONTOURS *lines, NUMBER *coordinates, size_t coordinate_room,
                                    size_t *path_ends, size_t path_room, polyover_path_counts *counts) {
    const polyover_clip_options by_default = {0};
    return NAME(polyover_clip_with)(fill, options ? options : &by_default, shape, lines, coordinates, coordinate_room,
                                    path_ends, path_room, counts);
}

polyover_status NAME(polyover_relate)(polyover_fill fill, polyover_solver solver, const CONTOURS *subject,
                                      const CONTOURS *clip, polyover_relations *relations) {
    const CONTOURS none = {0};
    return NAME(polyover_relate_with)(fill, solver, subject, clip ? clip : &none, relations);
}

polyover_status NAME(polyover_relate_one)(polyover_relations relation, polyover_fill fill, polyover_solver solver,
                                          const CONTOURS *subject, const CONTOURS *clip, uint32_t *holds) {
    const CONTOURS none = {0};
    return NAME(polyover_relate_one_with)(relation, fill, solver, subject, clip ? clip : &none, holds);
}

polyover_status NAME(polyover_relate_exact)(polyover_fill fill, const CONTOURS *subject, const CONTOURS *clip,
                                            polyover_relations *relations) {
    const CONTOURS none = {0};
    return NAME(polyover_relate_exact_with)(fill, subject, clip ? clip : &none, relations);
}

polyover_status NAME(polyover_relate_one_exact)(polyover_relations relation, polyover_fill fill,
                                                const CONTOURS *subject, const CONTOURS *clip, uint32_t *holds) {
    const CONTOURS none = {0};
    return NAME(polyover_relate_one_exact_with)(relation, fill, subject, clip ? clip : &none, holds);
}

polyover_status NAME(polyover_edges)(polyover_fill fill, polyover_solver solver, const CONTOURS *subject,
                                     const CONTOURS *clip, NUMBER *coordinates, size_t coordinate_room, uint8_t *fills,
                                     size_t fill_room, size_t *count) {
    const CONTOURS none = {0};
    return NAME(polyover_edges_with)(fill, solver, subject, clip ? clip : &none, coordinates, coordinate_room, fills,
                                     fill_room, count);
}
