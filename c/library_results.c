/* The part of results in C: it replaces null options by the defaults, a null clip by an empty one, and frees the arrays
 * of a result, of a prepared shape, of a shape as it is given, of a graph and of traced edges. */
#include <stdlib.h>

#include "polyover.h"

/* Frees an array; an array without items has no memory. */
static void free_array(const void *items, size_t count) {
    if (count != 0) {
        free((void *)items);
    }
}

#define CONTOURS polyover_contours
#define PATHS polyover_paths
#define OPTIONS polyover_options
#define RESULT polyover_result
#define PREPARED polyover_prepared
#define EXACT polyover_exact
#define GRAPH polyover_graph
#define TRACED polyover_traced
#define SLICE_OPTIONS polyover_slice_options
#define NAME(call) call
#include "library_of_results.h"

#undef CONTOURS
#undef PATHS
#undef OPTIONS
#undef RESULT
#undef PREPARED
#undef EXACT
#undef GRAPH
#undef TRACED
#undef SLICE_OPTIONS
#undef NAME
#define CONTOURS polyover_contours_32
#define PATHS polyover_paths_32
#define OPTIONS polyover_options_32
#define RESULT polyover_result_32
#define PREPARED polyover_prepared_32
#define EXACT polyover_exact_32
#define GRAPH polyover_graph_32
#define TRACED polyover_traced_32
#define SLICE_OPTIONS polyover_slice_options_32
#define NAME(call) call##_32
#include "library_of_results.h"
