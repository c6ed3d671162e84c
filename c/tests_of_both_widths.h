/* What the tests at both widths share: checks, which are counted, and the names at each width. The tests at a width
 * stand in the file that AT_WIDTH names. */
#include <stdio.h>
#include <string.h>

#include "polyover.h"

static int passed = 0;
static int failed = 0;

static void check(int holds, const char *what, int line) {
    passed += holds != 0;
    failed += holds == 0;
    if (!holds) {
        printf("line %d: %s\n", line, what);
    }
}

#define CHECK(what) check(what, #what, __LINE__)

/* Tells how many checks of these tests passed; answers the status of the program. */
static int told(const char *tests) {
    printf("%s: %d passed, %d failed\n", tests, passed, failed);
    return failed == 0 ? 0 : 1;
}

#define NUMBER int64_t
#define LIMIT POLYOVER_COORDINATE_MAX
#define CONTOURS polyover_contours
#define OPTIONS polyover_options
#define RESULT polyover_result
#define PREPARED polyover_prepared
#define EXACT polyover_exact
#define GRAPH polyover_graph
#define SLICE_OPTIONS polyover_slice_options
#define SMALLEST(area) {.min_area_low = area}
#define NAME(call) call
#define TEST(what) what##_at_64
#include AT_WIDTH

#undef NUMBER
#undef LIMIT
#undef CONTOURS
#undef OPTIONS
#undef RESULT
#undef PREPARED
#undef EXACT
#undef GRAPH
#undef SLICE_OPTIONS
#undef SMALLEST
#undef NAME
#undef TEST
#define NUMBER int32_t
#define LIMIT POLYOVER_COORDINATE_MAX_32
#define CONTOURS polyover_contours_32
#define OPTIONS polyover_options_32
#define RESULT polyover_result_32
#define PREPARED polyover_prepared_32
#define EXACT polyover_exact_32
#define GRAPH polyover_graph_32
#define SLICE_OPTIONS polyover_slice_options_32
#define SMALLEST(area) {.min_area = area}
#define NAME(call) call##_32
#define TEST(what) what##_at_32
#include AT_WIDTH
