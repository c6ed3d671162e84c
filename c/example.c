/* Prints the points of the intersection of two squares. */
#include <stdio.h>

#include "polyover.h"

int main(void) {
    const int64_t left[] = {0, 0, 4, 0, 4, 4, 0, 4};
    const int64_t right[] = {2, 2, 6, 2, 6, 6, 2, 6};
    const size_t four[] = {4};
    const polyover_contours subject = {left, 8, four, 1}, clip = {right, 8, four, 1};
    polyover_result result;
    const polyover_status status =
        polyover_overlay_result(POLYOVER_INTERSECT, POLYOVER_NON_ZERO, NULL, &subject, &clip, &result);
    if (status != POLYOVER_OK) {
        fprintf(stderr, "%s\n", polyover_status_text(status));
        return 1;
    }
    for (size_t at = 0; at < result.coordinate_count; at += 2) {
        printf("%lld %lld\n", (long long)result.coordinates[at], (long long)result.coordinates[at + 1]);
    }
    polyover_free(&result);
    return 0;
}
