/* Answers one input of the program by the library for C, for growth.py: reads the program's grammar from standard
 * input, asks the call N times (`asked`), and prints the median of its processor time and the peak of memory.
 *
 *     growth [snapped|rounds] [N] < INPUT
 *
 * The last line is `run overlay RULE FILL`, `run slice FILL`, `run clip FILL`, `run locate FILL` or `run exactly FILL`;
 * the last two prepare the subject, by a solver or as it is given, and locate the points. A word, number or status that
 * is not expected ends it with status 1. */
#include <stdio.h>
#include <stdlib.h>
#include <string.h>
#include <sys/resource.h>
#include <time.h>

#include "polyover.h"

typedef struct {
    int64_t *numbers;
    size_t count, room;
    size_t *ends;
    size_t contours, ends_room;
} list;

static list subject, clip, lines, points;
static char command[16], rule_name[32], fill_name[32];
static polyover_solver solver;

static void fail(const char *reason) {
    fprintf(stderr, "growth: %s\n", reason);
    exit(1);
}

static void *grown(void *old, size_t size) {
    void *now = realloc(old, size);
    if (now == NULL) fail("out of memory");
    return now;
}

/* Adds the numbers of a line. */
static void add_line(list *to, char *text) {
    for (char *word = strtok(text, " \n"); word != NULL; word = strtok(NULL, " \n")) {
        if (to->count == to->room) to->numbers = grown(to->numbers, (to->room = 2 * to->room + 64) * sizeof(int64_t));
        char *end;
        to->numbers[to->count++] = strtoll(word, &end, 10);
        if (*end != '\0') fail("not a number");
    }
    if (to->contours == to->ends_room) {
        to->ends_room = 2 * to->ends_room + 64;
        to->ends = grown(to->ends, to->ends_room * sizeof(size_t));
    }
    to->ends[to->contours++] = to->count / 2;
}

static void read_input(void) {
    char *text = NULL;
    size_t room = 0;
    while (getline(&text, &room, stdin) > 0) {
        char *rest = strchr(text, ' ');
        if (rest == NULL) fail("a line without numbers");
        if (strncmp(text, "subject ", 8) == 0) add_line(&subject, rest);
        else if (strncmp(text, "clip ", 5) == 0) add_line(&clip, rest);
        else if (strncmp(text, "line ", 5) == 0) add_line(&lines, rest);
        else if (strncmp(text, "point ", 6) == 0) add_line(&points, rest);
        else if (sscanf(text, "run overlay %31s %31s", rule_name, fill_name) == 2) strcpy(command, "overlay");
        else if (sscanf(text, "run %15s %31s", command, fill_name) != 2) fail("not a command");
    }
    free(text);
}

/* The place of a word in a list of words that ends with NULL. */
static uint32_t place_of(const char *word, const char *const *words) {
    for (uint32_t at = 0; words[at] != NULL; at++) {
        if (strcmp(word, words[at]) == 0) return at;
    }
    fail("not a rule");
    return 0;
}

static polyover_contours contours_of(const list *of) {
    return (polyover_contours){of->numbers, of->count, of->ends, of->contours};
}

static void located(polyover_fill fill, const polyover_contours *shape) {
    polyover_prepared prepared;
    polyover_location *places = grown(NULL, points.count / 2 * sizeof(polyover_location) + 1);
    if (polyover_prepare(fill, solver, shape, &prepared) != POLYOVER_OK) fail("not prepared");
    if (polyover_prepared_locate(&prepared, points.numbers, points.count, places, points.count / 2) != POLYOVER_OK) {
        fail("not located");
    }
    polyover_prepared_free(&prepared);
    free(places);
}

static void located_exactly(polyover_fill fill, const polyover_contours *shape) {
    polyover_exact prepared;
    polyover_location *places = grown(NULL, points.count / 2 * sizeof(polyover_location) + 1);
    if (polyover_prepare_exact(fill, shape, &prepared) != POLYOVER_OK) fail("not prepared");
    if (polyover_exact_locate(&prepared, points.numbers, points.count, places, points.count / 2) != POLYOVER_OK) {
        fail("not located");
    }
    polyover_exact_free(&prepared);
    free(places);
}

/* The call that is timed. */
__attribute__((noinline)) void asked(void) {
    static const char *const fills[] = {"EvenOdd", "NonZero", "Positive", "Negative", NULL};
    static const char *const rules[] = {"Subject",    "Clip",              "Intersect", "Union",
                                        "Difference", "InverseDifference", "Xor",       NULL};
    polyover_contours first = contours_of(&subject), second = contours_of(&clip), strings = contours_of(&lines);
    polyover_options options = {.solver = solver};
    polyover_clip_options clipping = {.solver = solver};
    polyover_result result;
    polyover_status status;
    polyover_fill fill = place_of(fill_name, fills);
    if (strcmp(command, "overlay") == 0) {
        status = polyover_overlay_result(place_of(rule_name, rules), fill, &options, &first, &second, &result);
    } else if (strcmp(command, "slice") == 0) {
        status = polyover_slice_result(fill, solver, &first, &strings, &result);
    } else if (strcmp(command, "clip") == 0) {
        status = polyover_clip_result(fill, &clipping, &first, &strings, &result);
    } else if (strcmp(command, "locate") == 0) {
        located(fill, &first);
        return;
    } else if (strcmp(command, "exactly") == 0) {
        located_exactly(fill, &first);
        return;
    } else {
        fail("not a command");
    }
    if (status != POLYOVER_OK) fail(polyover_status_text(status));
    polyover_free(&result);
}

static int by_size(const void *left, const void *right) {
    double a = *(const double *)left, b = *(const double *)right;
    return (a > b) - (a < b);
}

int main(int count, char **words) {
    int times = count > 2 ? atoi(words[2]) : 1;
    solver = count > 1 && strcmp(words[1], "rounds") == 0 ? POLYOVER_ROUNDS : POLYOVER_SNAPPED;
    read_input();
    double *seconds = grown(NULL, (size_t)(times > 0 ? times : 1) * sizeof(double));
    for (int at = 0; at < times; at++) {
        clock_t began = clock();
        asked();
        seconds[at] = (double)(clock() - began) / CLOCKS_PER_SEC;
    }
    qsort(seconds, (size_t)times, sizeof(double), by_size);
    struct rusage used;
    getrusage(RUSAGE_SELF, &used);
    fprintf(stderr, "median %.9f\npeak %ld\n", seconds[times / 2], used.ru_maxrss);
    free(seconds);
    return 0;
}
