/* The part of the library in C: default options and an empty clip for a null pointer, and the texts of statuses. The
 * proved module (crates/polyover_c) always takes a struct where C may pass a null pointer, and returns no pointer. */
#include "polyover.h"

#define NUMBER int64_t
#define CONTOURS polyover_contours
#define OPTIONS polyover_options
#define NAME(call) call
#include "library_of_width.h"

#undef NUMBER
#undef CONTOURS
#undef OPTIONS
#undef NAME
#define NUMBER int32_t
#define CONTOURS polyover_contours_32
#define OPTIONS polyover_options_32
#define NAME(call) call##_32
#include "library_of_width.h"

const char *polyover_status_text(polyover_status status) {
    switch (status) {
        case POLYOVER_OK:
            return "answered";
        case POLYOVER_MEMORY:
            return "memory was refused";
        case POLYOVER_BAD_ENDS:
            return "the ends do not fit the coordinates";
        case POLYOVER_OUT_OF_RANGE:
            return "a coordinate is out of the coordinate range";
        case POLYOVER_NOT_RESOLVED:
            return "two steps of a contour share a point that is not an end of both";
        case POLYOVER_BAD_RULE:
            return "no overlay rule has the number";
        case POLYOVER_BAD_FILL:
            return "no fill rule has the number";
        case POLYOVER_BAD_OPTION:
            return "an option or a solver has a number that stands for nothing, or a grid does not fit";
        case POLYOVER_NOT_SETTLED:
            return "edges still meet after 64 rounds of splitting; the solver POLYOVER_SNAPPED splits them";
        case POLYOVER_TOO_MANY_EDGES:
            return "the edges weigh 2^31 or more";
        case POLYOVER_TOO_SMALL:
            return "an array for the answer is too small";
        default:
            return "no status has the number";
    }
}
