/* Numbers of JavaScript as coordinates and back, in place, for its module alone. */
#include <stddef.h>
#include <stdint.h>

/* the floats from which on a coordinate is out of range, and the greatest whole number below which each is a float */
#define BEYOND 4611686018427387904.0
#define SAFE 9007199254740991.0

union number {
    double of_float;
    int64_t whole;
};

/* Whole floats as whole numbers. Returns the place of the first that is not whole, or not safe; `count` if none is. */
size_t whole_of_safe(union number *items, size_t count) {
    for (size_t at = 0; at < count; at++) {
        double value = items[at].of_float;
        if (!(value >= -SAFE && value <= SAFE) || value != __builtin_rint(value))
            return at;
        items[at].whole = (int64_t)value;
    }
    return count;
}

/* Floats, x before y, as whole numbers: each less a start, times a scale, and rounded, of two equally near ones to the
 * even one. Returns the place of the first that is no number, or out of range; `count` if none is. */
size_t whole_of_floats(union number *items, size_t count, double start_x, double start_y, double scale) {
    for (size_t at = 0; at < count; at++) {
        double value = __builtin_rint((items[at].of_float - (at % 2 == 0 ? start_x : start_y)) * scale);
        if (!(value > -BEYOND && value < BEYOND))
            return at;
        items[at].whole = (int64_t)value;
    }
    return count;
}

/* Whole numbers, x before y, as floats: each over a scale, and more by a start. */
void floats_of_whole(union number *items, size_t count, double start_x, double start_y, double scale) {
    for (size_t at = 0; at < count; at++)
        items[at].of_float = (double)items[at].whole / scale + (at % 2 == 0 ? start_x : start_y);
}

/* The greatest distance of a number from 0. */
uint64_t extent(const union number *items, size_t count) {
    uint64_t most = 0;
    for (size_t at = 0; at < count; at++) {
        uint64_t size = items[at].whole < 0 ? -(uint64_t)items[at].whole : (uint64_t)items[at].whole;
        most = size > most ? size : most;
    }
    return most;
}

/* Numbers times a power of two. */
void raise(union number *items, size_t count, uint32_t power) {
    for (size_t at = 0; at < count; at++)
        items[at].whole = (int64_t)((uint64_t)items[at].whole << power);
}
