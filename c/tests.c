/* Tests of the calls for C, at both widths. */
#define AT_WIDTH "tests_of_width.h"
#include "tests_of_both_widths.h"
#include "tests_of_far.h"

/* Each status has its own text, and all other numbers share a further text. */
static void texts(void) {
    const char *unknown = polyover_status_text(POLYOVER_TOO_SMALL + 1);
    CHECK(strcmp(unknown, "no status has the number") == 0);
    CHECK(strcmp(polyover_status_text(UINT32_MAX), unknown) == 0);
    CHECK(strcmp(polyover_status_text(POLYOVER_MEMORY), "memory was refused") == 0);
    for (polyover_status status = POLYOVER_OK; status <= POLYOVER_TOO_SMALL; status++) {
        CHECK(strlen(polyover_status_text(status)) > 0 && strcmp(polyover_status_text(status), unknown) != 0);
        for (polyover_status other = POLYOVER_OK; other < status; other++) {
            CHECK(strcmp(polyover_status_text(status), polyover_status_text(other)) != 0);
        }
    }
}

static void ends_of_ranges(void) {
    CHECK(POLYOVER_COORDINATE_MAX == 4611686018427387903 && POLYOVER_COORDINATE_MIN == -4611686018427387903);
    CHECK(POLYOVER_COORDINATE_MAX_32 == 1073741823 && POLYOVER_COORDINATE_MIN_32 == -1073741823);
}

/* The library tells its version, and what it is made of: c/Makefile says what that is. */
static void built(void) {
    CHECK(strcmp(polyover_version(), POLYOVER_VERSION) == 0);
    CHECK(polyover_built() == BUILT);
}

int main(void) {
    texts();
    built();
    ends_of_ranges();
    all_at_64();
    all_at_32();
    far_coordinates();
    one_far_list();
    return told("c");
}
