/* Tests at one width that edges which weigh 2^31 are refused; the names are those of tests_of_sizes.h. */

/* How many times the rectangle of `heavy` comes, and how many upright steps cross each copy: 2 * (COPIES + 2)^2 is
 * 2^31. */
#define COPIES 32766

/* So many copies of a rectangle, a contour of so many edges beside them, and a contour, or a line, whose upright steps
 * cross the long sides in whole points. Once cut, the rectangles weigh 2 * COPIES * (COPIES + 1) + 2 * COPIES, the
 * upright steps 3 * COPIES, and what joins them COPIES, or one less in a line: with the contour of 8 edges, or of 9, it
 * is 2^31 just. */
static void TEST(heavy)(TEST(made) *copies, TEST(made) *steps, size_t beside) {
    const size_t low[] = {100, 2}, high[] = {100 + COPIES + 1, 3};
    for (size_t at = 0; at < COPIES; at++) {
        TEST(rectangle)(copies, low, high);
    }
    for (size_t at = 0; at < beside; at++) {
        TEST(point)(copies, at, at * at);
    }
    TEST(end)(copies);
    for (size_t at = 1; at <= COPIES; at++) {
        size_t foot = at == 1 || at == COPIES ? 0 : 1;
        TEST(point)(steps, 100 + at, at % 2 == 1 ? foot : 4);
        TEST(point)(steps, 100 + at, at % 2 == 1 ? 4 : foot);
    }
    TEST(end)(steps);
}

/* That a call answers below the limit, and not at it. */
static void TEST(limit_of)(TEST(call) call, polyover_solver solver, int takes_lines, int is_one) {
    for (size_t beside = 7; beside <= 8; beside++) {
        TEST(made) copies = TEST(none)(), steps = TEST(none)();
        TEST(heavy)(&copies, is_one ? &copies : &steps, beside + (takes_lines ? 1 : 0));
        const TEST(question) of = {POLYOVER_XOR, POLYOVER_NON_ZERO, solver, TEST(given)(&copies), TEST(given)(&steps)};
        RESULT result;
        polyover_status status = call(&of, &result);
        CHECK(status == (beside == 7 ? POLYOVER_OK : POLYOVER_TOO_MANY_EDGES));
        CHECK(status == POLYOVER_OK || (result.coordinate_count == 0 && result.contour_count == 0));
        NAME(polyover_free)(&result);
        TEST(let_go)(&copies);
        TEST(let_go)(&steps);
    }
}

/* The same of a call with arrays that have no room. */
static void TEST(limit_in_arrays)(TEST(call) call, polyover_solver solver, int takes_lines, int is_one) {
    for (size_t beside = 7; beside <= 8; beside++) {
        TEST(made) copies = TEST(none)(), steps = TEST(none)();
        TEST(heavy)(&copies, is_one ? &copies : &steps, beside + (takes_lines ? 1 : 0));
        const TEST(question) of = {POLYOVER_XOR, POLYOVER_NON_ZERO, solver, TEST(given)(&copies), TEST(given)(&steps)};
        RESULT no_room;
        memset(&no_room, 0, sizeof no_room);
        CHECK(call(&of, &no_room) == (beside == 7 ? POLYOVER_TOO_SMALL : POLYOVER_TOO_MANY_EDGES));
        TEST(let_go)(&copies);
        TEST(let_go)(&steps);
    }
}

static void TEST(limits)(polyover_solver solver) {
    TEST(limit_of)(TEST(overlay), solver, 0, 0);
    TEST(limit_of)(TEST(hierarchy), solver, 0, 0);
    TEST(limit_of)(TEST(simplify), solver, 0, 1);
    TEST(limit_of)(TEST(simplify_shape), solver, 0, 1);
    TEST(limit_of)(TEST(edges), solver, 0, 0);
    TEST(limit_of)(TEST(vectors), solver, 0, 0);
    TEST(limit_of)(TEST(relate), solver, 0, 0);
    TEST(limit_of)(TEST(slice), solver, 1, 0);
    TEST(limit_of)(TEST(slice_custom), solver, 1, 0);
    TEST(limit_of)(TEST(tiles), solver, 0, 1);
    TEST(limit_of)(TEST(clip), solver, 1, 0);
    TEST(limit_in_arrays)(TEST(overlay_in_arrays), solver, 0, 0);
    TEST(limit_in_arrays)(TEST(hierarchy_in_arrays), solver, 0, 0);
    TEST(limit_in_arrays)(TEST(simplify_in_arrays), solver, 0, 1);
    TEST(limit_in_arrays)(TEST(edges_in_arrays), solver, 0, 0);
    TEST(limit_in_arrays)(TEST(slice_in_arrays), solver, 1, 0);
    TEST(limit_in_arrays)(TEST(clip_in_arrays), solver, 1, 0);
}

#undef COPIES
