/* What the tests of polyover.hpp share: checks, which are counted; the library's requests for memory, which may be
 * refused; values and refusals of calls, with exceptions and without; and what is given at one width. */
#ifndef TESTS_OF_CPP_HPP
#define TESTS_OF_CPP_HPP

#include <algorithm>
#include <cstdio>
#include <cstdlib>
#include <cstring>
#include <initializer_list>
#include <new>
#include <vector>

#include "polyover.hpp"

namespace {

int passed = 0;
int failed = 0;
/* how many times memory was taken by `new`, and whether the library's requests for memory are granted */
std::size_t taken = 0;
bool grants = true;

void check(bool holds, const char *what, int line) {
    passed += holds;
    failed += !holds;
    if (!holds) {
        std::printf("line %d: %s\n", line, what);
    }
}

#define CHECK(...) check(__VA_ARGS__, #__VA_ARGS__, __LINE__)

} // namespace

/* The linker hands each request of the library for memory to these. */
extern "C" {
void *__real_malloc(std::size_t size);
void *__real_realloc(void *old, std::size_t size);

void *__wrap_malloc(std::size_t size) {
    return grants ? __real_malloc(size) : nullptr;
}

void *__wrap_realloc(void *old, std::size_t size) {
    return grants ? __real_realloc(old, size) : nullptr;
}
}

void *operator new(std::size_t size) {
    taken++;
    void *at = std::malloc(size);
    if (at == nullptr) {
        std::abort();
    }
    return at;
}

void operator delete(void *at) noexcept {
    std::free(at);
}

void operator delete(void *at, std::size_t) noexcept {
    std::free(at);
}

namespace {

using polyover::fill;
using polyover::location;
using polyover::rule;
using polyover::solver;
using polyover::status;

/* What a call returned, which has to have a value; and why a call was refused, or `ok`. */
#ifdef POLYOVER_NO_EXCEPTIONS
template <class Value>
Value value_of(polyover::expected<Value> found) {
    CHECK(found.has_value() && static_cast<bool>(found) && found.error().status() == status::ok);
    return *std::move(found);
}

template <class Call>
polyover::error refusal_of(const Call &call) {
    const auto found = call();
    CHECK(found.has_value() == (found.error().status() == status::ok));
    return found.error();
}
#else
template <class Value>
Value value_of(Value found) {
    return found;
}

template <class Call>
polyover::error refusal_of(const Call &call) {
    try {
        (void)call();
    } catch (const polyover::error &why) {
        return why;
    }
    return polyover::error(status::ok);
}
#endif

template <class Call>
bool is_refused(status with, const Call &call) {
    const polyover::error why = refusal_of(call);
    return why.status() == with && why.unresolved() == 0 && std::strcmp(why.what(), status_text(with)) == 0;
}

template <class Item>
bool is(polyover::span<Item> found, std::initializer_list<std::remove_const_t<Item>> wanted) {
    return std::equal(found.begin(), found.end(), wanted.begin(), wanted.end());
}

template <class Item>
bool are_equal(polyover::span<const Item> found, const Item *items, std::size_t count) {
    return std::equal(found.begin(), found.end(), items, items + count);
}

bool are_equal(polyover::span<const polyover::link> found, const polyover_link *items, std::size_t count) {
    return std::equal(found.begin(), found.end(), items, items + count, [](auto one, auto other) {
        return one.parent_shape == other.parent_shape && one.parent_contour == other.parent_contour &&
               one.child_shape == other.child_shape;
    });
}

/* Whether a result is the one that a call for C leaves; frees the latter. */
template <class Coordinate, class Raw>
bool is_as_in_c(const polyover::basic_result<Coordinate> &found, Raw raw) {
    const polyover::basic_result<Coordinate> other(raw);
    return are_equal(found.coordinates(), raw.coordinates, raw.coordinate_count) &&
           are_equal(found.contour_ends(), raw.contour_ends, raw.contour_count) &&
           are_equal(found.shape_ends(), raw.shape_ends, raw.shape_count) &&
           are_equal(found.links(), raw.links, raw.link_count) && are_equal(found.fills(), raw.fills, raw.fill_count);
}

/* What is given at one width: squares that cross, a frame of squares in one another, lines, and needles that rounds do
 * not settle. */
template <class Coordinate>
struct given {
    using contours = polyover::basic_contours<Coordinate>;
    using options = typename polyover::detail::width<Coordinate>::options;

    std::vector<std::size_t> four = {4}, three = {3}, two = {2}, nested_ends = {4, 8, 12};
    std::vector<Coordinate> left = {0, 0, 4, 0, 4, 4, 0, 4};
    std::vector<Coordinate> right = {2, 2, 6, 2, 6, 6, 2, 6};
    std::vector<Coordinate> squares = {0, 0, 9, 0, 9, 9, 0, 9, 1, 1, 8, 1, 8, 8, 1, 8, 2, 2, 7, 2, 7, 7, 2, 7};
    std::vector<Coordinate> crossing = {0, 0, 4, 4, 4, 0, 0, 4};
    std::vector<Coordinate> across = {-1, 2, 5, 2};
    std::vector<Coordinate> needle = {2, 0, 0, 66, 2, -66}, other_needle = {1, 0, 0, 67, -1, 0};

    contours subject{left, four}, clip{right, four}, nested{squares, nested_ends}, crossed{crossing, four};
    contours line{across, two}, needles{needle, three}, more_needles{other_needle, three};
};

} // namespace

#endif
