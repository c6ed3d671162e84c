/* Prints the points of the intersection of two squares. */
#include <cstdint>
#include <iostream>
#include <vector>

#include "polyover.hpp"

int main() {
    const std::vector<std::int64_t> left = {0, 0, 4, 0, 4, 4, 0, 4};
    const std::vector<std::int64_t> right = {2, 2, 6, 2, 6, 6, 2, 6};
    const std::vector<std::size_t> ends = {4};
    const polyover::contours subject(left, ends), clip(right, ends);
    try {
        const polyover::result shared =
            polyover::overlay(polyover::rule::intersect, polyover::fill::non_zero, subject, clip);
        for (std::size_t at = 0; at < shared.coordinates().size(); at += 2) {
            std::cout << shared.coordinates()[at] << ' ' << shared.coordinates()[at + 1] << '\n';
        }
    } catch (const polyover::error &fault) {
        std::cerr << fault.what() << '\n';
        return 1;
    }
}
