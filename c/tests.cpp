/* Tests of polyover.hpp, at both widths: answers are counted by hand, or those of the calls for C. Built with
 * POLYOVER_NO_EXCEPTIONS, they take values and refusals from what calls return. */
#include <array>
#include <limits>

#include "tests_of_cpp.hpp"

#if __cplusplus >= 202002L
#include <span>
#endif

namespace {

// ---- values

template <class Coordinate>
void results() {
    const given<Coordinate> it;
    const auto shared = value_of(overlay(rule::intersect, fill::non_zero, it.subject, it.clip));
    CHECK(is(shared.coordinates(), {2, 4, 2, 2, 4, 2, 4, 4}));
    CHECK(is(shared.contour_ends(), {4}) && is(shared.shape_ends(), {1}));
    CHECK(shared.links().empty() && shared.fills().empty());
    const auto alone = value_of(overlay(rule::subject, fill::non_zero, it.subject));
    CHECK(is(alone.coordinates(), {0, 4, 0, 0, 4, 0, 4, 4}));
    CHECK(is_as_in_c(value_of(overlay(rule::xor_, fill::even_odd, it.nested, it.clip)), [&] {
        typename polyover::detail::width<Coordinate>::result raw;
        polyover::detail::width<Coordinate>::overlay_result(POLYOVER_XOR, POLYOVER_EVEN_ODD, nullptr, &it.nested.raw(),
                                                            &it.clip.raw(), &raw);
        return raw;
    }()));
    /* (an answer is asked again, where it lies) */
    CHECK(is(value_of(simplify(fill::non_zero, shared.contours())).coordinates(), {2, 4, 2, 2, 4, 2, 4, 4}));
}

template <class Coordinate>
void shapes_with_holes() {
    const given<Coordinate> it;
    const auto found = value_of(hierarchy(rule::subject, fill::even_odd, it.nested));
    CHECK(is(found.contour_ends(), {4, 8, 12}) && is(found.shape_ends(), {2, 3}));
    CHECK(found.links().size() == 1 && found.links()[0].parent_shape == 0);
    CHECK(found.links()[0].parent_contour == 1 && found.links()[0].child_shape == 1);
    CHECK(found.first_contour(0) == 0 && found.first_contour(1) == 2 && found.first_contour(2) == 3);
    const auto inner = found.contour(2);
    CHECK(inner.size() == 8 && *std::min_element(inner.begin(), inner.end()) == 2);
    CHECK(*std::max_element(inner.begin(), inner.end()) == 7);
    CHECK(found.contour(0).data() == found.coordinates().data());
}

template <class Coordinate>
void lines() {
    const given<Coordinate> it;
    const auto halves = value_of(slice(fill::non_zero, it.subject, it.line));
    CHECK(is(halves.contour_ends(), {4, 8}) && is(halves.shape_ends(), {1, 2}));
    const auto quarters = value_of(tiles(fill::non_zero, it.subject, 2, 2));
    CHECK(is(quarters.contour_ends(), {4, 8, 12, 16}) && is(quarters.shape_ends(), {1, 2, 3, 4}));
    const auto inside = value_of(clip(fill::non_zero, it.subject, it.line));
    CHECK(is(inside.coordinates(), {0, 2, 4, 2}) && is(inside.contour_ends(), {2}) && inside.shape_ends().empty());
    polyover::clip_options outside;
    outside.invert = true;
    CHECK(is(value_of(clip(fill::non_zero, it.subject, it.line, outside)).coordinates(), {-1, 2, 0, 2, 4, 2, 5, 2}));
    /* (a line along the lower edge) */
    const std::vector<Coordinate> edge = {0, 0, 4, 0};
    const polyover::basic_contours<Coordinate> along(edge, it.two);
    CHECK(value_of(clip(fill::non_zero, it.subject, along)).coordinates().empty());
    polyover::clip_options touching;
    touching.boundary = true;
    CHECK(is(value_of(clip(fill::non_zero, it.subject, along, touching)).coordinates(), {0, 0, 4, 0}));
}

template <class Coordinate>
void slices_by_options() {
    const given<Coordinate> it;
    typename polyover::detail::width<Coordinate>::slice_options how;
    const auto halves = value_of(slice(fill::non_zero, it.subject, it.line, how));
    CHECK(halves.coordinates().size() == 16 && halves.shape_ends().size() == 2);
    how.direction = polyover::direction::clockwise;
    const auto back = value_of(slice(fill::non_zero, it.subject, it.line, how));
    CHECK(is(back.coordinates(), {0, 0, 0, 2, 4, 2, 4, 0, 0, 2, 0, 4, 4, 4, 4, 2}));
    how.direction = static_cast<polyover::direction>(2);
    CHECK(is_refused(status::bad_option, [&] { return slice(fill::non_zero, it.subject, it.line, how); }));
}

template <class Coordinate>
void simplified_shapes() {
    const given<Coordinate> it;
    const auto square = value_of(simplify_shape(fill::non_zero, it.subject));
    CHECK(square.as_given && is(square.shapes.coordinates(), {0, 0, 4, 0, 4, 4, 0, 4}));
    typename given<Coordinate>::options how;
    how.direction = polyover::direction::clockwise;
    const auto turned = value_of(simplify_shape(fill::non_zero, it.subject, how));
    CHECK(!turned.as_given && is(turned.shapes.coordinates(), {0, 4, 4, 4, 4, 0, 0, 0}));
    CHECK(is_refused(status::bad_fill, [&] { return simplify_shape(static_cast<fill>(4), it.subject); }));
}

template <class Coordinate>
void arranged_edges() {
    const given<Coordinate> it;
    const auto found = value_of(edges(fill::non_zero, it.subject));
    const std::uint8_t left = polyover::subject_left, right = polyover::subject_right;
    CHECK(is(found.coordinates(), {0, 0, 0, 4, 0, 0, 4, 0, 0, 4, 4, 4, 4, 0, 4, 4}));
    CHECK(is(found.fills(), {right, left, right, left}));
    CHECK(found.contours().coordinates().size() == 16 && found.contours().ends().empty());
}

/* Each option arrives. */
template <class Coordinate>
void options() {
    const given<Coordinate> it;
    typename given<Coordinate>::options how;
    how.direction = polyover::direction::clockwise;
    const auto clockwise = value_of(simplify(fill::non_zero, it.subject, how));
    CHECK(is(clockwise.coordinates(), {0, 4, 4, 4, 4, 0, 0, 0}));
    how = {};
    how.keep = true;
    const std::vector<Coordinate> beside = {4, 0, 8, 0, 8, 4, 4, 4};
    const polyover::basic_contours<Coordinate> neighbour(beside, it.four);
    CHECK(is(value_of(overlay(rule::union_, fill::non_zero, it.subject, neighbour)).contour_ends(), {4}));
    CHECK(is(value_of(overlay(rule::union_, fill::non_zero, it.subject, neighbour, how)).contour_ends(), {6}));
    const std::vector<Coordinate> longer_at = {0, 0, 2, 0, 4, 0, 4, 4, 0, 4};
    const std::vector<std::size_t> five = {5};
    const polyover::basic_contours<Coordinate> longer(longer_at, five);
    CHECK(is(value_of(overlay(rule::subject, fill::non_zero, longer, {}, how)).contour_ends(), {4}));
    how.keep_given = true;
    CHECK(is(value_of(overlay(rule::subject, fill::non_zero, longer, {}, how)).contour_ends(), {5}));
    /* (a square with a hole that touches its left side) */
    const std::vector<Coordinate> touched_at = {0, 0, 6, 0, 6, 6, 0, 6, 0, 3, 2, 4, 2, 2};
    const std::vector<std::size_t> touched_ends = {4, 7};
    const polyover::basic_contours<Coordinate> touched(touched_at, touched_ends);
    how = {};
    how.touching = true;
    CHECK(is(value_of(overlay(rule::subject, fill::even_odd, touched)).contour_ends(), {4, 7}));
    CHECK(is(value_of(overlay(rule::subject, fill::even_odd, touched, {}, how)).contour_ends(), {8}));
}

/* The smallest area arrives: that of the square is 16. */
template <class Options>
std::size_t kept(const Options &how) {
    const given<std::conditional_t<std::is_same_v<Options, polyover::options>, std::int64_t, std::int32_t>> it;
    return value_of(overlay(rule::subject, fill::non_zero, it.subject, {}, how)).shape_ends().size();
}

void smallest_areas() {
    polyover::options low, high;
    polyover::options_32 least;
    low.min_area_low = least.min_area = 16;
    CHECK(kept(low) == 1 && kept(least) == 1);
    low.min_area_low = least.min_area = 17;
    high.min_area_high = 1;
    CHECK(kept(low) == 0 && kept(least) == 0 && kept(high) == 0);
}

template <class Coordinate>
void relating() {
    const given<Coordinate> it;
    const auto crossing = value_of(relate(fill::non_zero, it.subject, it.clip));
    CHECK(crossing.intersects() && crossing.interiors_intersect() && !crossing.touches());
    CHECK(!crossing.point_intersects() && !crossing.within() && !crossing.disjoint() && !crossing.covers());
    CHECK(crossing.bits() == (POLYOVER_INTERSECTS | POLYOVER_INTERIORS_INTERSECT));
    const auto none = value_of(relate(fill::non_zero, it.subject, {}));
    CHECK(none.disjoint() && none.bits() == POLYOVER_DISJOINT);
    CHECK(value_of(relate(fill::non_zero, it.subject, it.nested)).within());
    CHECK(value_of(relate(fill::non_zero, it.nested, it.subject)).covers());
    const std::vector<Coordinate> corner = {4, 4, 8, 4, 8, 8};
    const auto at_corner = value_of(relate(fill::non_zero, it.subject, {corner, it.three}));
    CHECK(at_corner.touches() && at_corner.point_intersects() && at_corner.intersects());
    CHECK(value_of(relate_one(polyover::relation::within, fill::non_zero, it.subject, it.nested)));
    CHECK(!value_of(relate_one(polyover::relation::covers, fill::non_zero, it.subject, it.nested)));
    CHECK(value_of(relate_one(polyover::relation::touches, fill::non_zero, it.subject, {corner, it.three})));
    const std::vector<Coordinate> around = {0, 0, 5, 0, 5, 2}, sliver = {0, 0, 3, 1, 5, 2};
    const typename given<Coordinate>::contours inside{sliver, it.three};
    const auto inner = value_of(relate_exact(fill::positive, inside, {around, it.three}));
    CHECK(inner.bits() == (POLYOVER_INTERSECTS | POLYOVER_INTERIORS_INTERSECT | POLYOVER_WITHIN));
    CHECK(value_of(relate_exact(fill::non_zero, it.subject, {})).bits() == POLYOVER_DISJOINT);
    CHECK(value_of(relate_one_exact(polyover::relation::within, fill::positive, inside, {around, it.three})));
    CHECK(!value_of(relate_one_exact(polyover::relation::covers, fill::positive, inside, {around, it.three})));
    CHECK(value_of(relate_one_exact(polyover::relation::disjoint, fill::non_zero, it.subject, {})));
    const auto unknown = static_cast<polyover::relation>(3);
    CHECK(is_refused(status::bad_option, [&] { return relate_one(unknown, fill::non_zero, it.subject, it.clip); }));
    CHECK(is_refused(status::bad_option,
                     [&] { return relate_one_exact(unknown, fill::non_zero, it.subject, it.clip); }));
}

template <class Coordinate>
void locating() {
    const given<Coordinate> it;
    const std::vector<Coordinate> points = {1, 1, 4, 1, 5, 1};
    std::array<location, 4> room;
    room.fill(location::boundary);
    const auto found = value_of(locate(it.subject, points, room));
    CHECK(is(found, {location::inside, location::boundary, location::outside}) && found.data() == room.data());
    CHECK(room[3] == location::boundary);
    CHECK(is_refused(status::too_small, [&] { return locate(it.subject, points, {room.data(), 2}); }));
    CHECK(is_refused(status::bad_ends, [&] { return locate(it.subject, {points.data(), 5}, room); }));
    CHECK(value_of(resolved(it.subject)) && !value_of(resolved(it.crossed)));
    /* (the third contour crosses itself) */
    std::vector<Coordinate> three = it.left;
    three.insert(three.end(), it.right.begin(), it.right.end());
    three.insert(three.end(), it.crossing.begin(), it.crossing.end());
    const polyover::basic_contours<Coordinate> last_crosses(three, it.nested_ends);
    const polyover::error why = refusal_of([&] { return locate(last_crosses, points, room); });
    CHECK(why.status() == status::not_resolved && why.unresolved() == 2);
}

template <class Coordinate>
void prepared_shapes() {
    const given<Coordinate> it;
    auto shape = value_of(prepare(fill::non_zero, it.crossed));
    const std::vector<Coordinate> points = {1, 2, 2, 2, 2, 3};
    std::vector<location> room(3, location::outside);
    CHECK(shape.edge_count() > 0);
    CHECK(is(value_of(shape.locate(points, room)), {location::inside, location::boundary, location::outside}));
    CHECK(is_refused(status::too_small, [&] { return shape.locate(points, {room.data(), 2}); }));
    const polyover::basic_prepared<Coordinate> moved = std::move(shape);
    CHECK(shape.edge_count() == 0 && moved.edge_count() > 0);
    CHECK(is(value_of(moved.locate({points.data() + 2, 2}, room)), {location::boundary}));
    CHECK(is(value_of(shape.locate({points.data() + 2, 2}, room)), {location::outside}));
    shape = value_of(prepare(fill::non_zero, it.subject));
    shape = value_of(prepare(fill::non_zero, it.clip));
    CHECK(shape.edge_count() == 4 && shape.raw().edge_count == 4);
    polyover::basic_prepared<Coordinate> given_back(shape.release());
    CHECK(shape.edge_count() == 0 && given_back.edge_count() == 4);
}

template <class Coordinate>
void shapes_as_given() {
    const given<Coordinate> it;
    /* (the edges cross in (1, 1/3), above (1, 0)) */
    const std::vector<Coordinate> crossing = {0, 0, 3, 1, 0, 3, 0, 1, 3, -1, 3, 1}, points = {1, 0, 2, 0, 0, 1};
    const std::vector<std::size_t> ends = {3, 6};
    auto shape = value_of(prepare_exact(fill::non_zero, polyover::basic_contours<Coordinate>(crossing, ends)));
    std::vector<location> room(3, location::outside);
    CHECK(is(value_of(shape.locate(points, room)), {location::outside, location::inside, location::boundary}));
    CHECK(is_refused(status::too_small, [&] { return shape.locate(points, {room.data(), 2}); }));
    const polyover::basic_exact<Coordinate> moved = std::move(shape);
    CHECK(shape.edge_count() == 0 && moved.edge_count() == 6);
    CHECK(is(value_of(moved.locate({points.data() + 2, 2}, room)), {location::inside}));
    CHECK(is(value_of(shape.locate({points.data() + 2, 2}, room)), {location::outside}));
    shape = value_of(prepare_exact(fill::non_zero, it.subject));
    shape = value_of(prepare_exact(fill::non_zero, it.clip));
    polyover::basic_exact<Coordinate> given_back(shape.release());
    CHECK(shape.edge_count() == 0 && given_back.edge_count() > 0 && given_back.raw().fill == POLYOVER_NON_ZERO);
}

template <class Coordinate>
void graphs() {
    const given<Coordinate> it;
    auto both = value_of(arrange(fill::non_zero, it.subject, it.clip));
    CHECK(both.edge_count() == 12 && both.raw().edge_count == 12);
    CHECK(is(value_of(both.overlay(rule::intersect)).coordinates(), {2, 4, 2, 2, 4, 2, 4, 4}));
    typename given<Coordinate>::options how;
    how.direction = polyover::direction::clockwise;
    CHECK(is(value_of(both.overlay(rule::intersect, how)).coordinates(), {2, 2, 2, 4, 4, 4, 4, 2}));
    CHECK(value_of(both.edges()).fills().size() == 12);
    how.solver = solver::rounds;
    CHECK(is_refused(status::bad_option, [&] { return both.overlay(rule::intersect, how); }));
    CHECK(is_refused(status::bad_option, [&] { return both.hierarchy(rule::intersect, how); }));
    CHECK(is_refused(status::bad_rule, [&] { return both.overlay(static_cast<rule>(7)); }));
    const polyover::basic_graph<Coordinate> moved = std::move(both);
    CHECK(both.edge_count() == 0 && moved.edge_count() == 12);
    CHECK(value_of(both.overlay(rule::union_)).coordinates().empty());
    both = value_of(arrange(fill::even_odd, it.nested, {}, solver::rounds));
    const auto shapes = value_of(both.hierarchy(rule::subject));
    CHECK(shapes.shape_ends().size() == 2 && shapes.links().size() == 1);
    CHECK(value_of(both.hierarchy(rule::subject, how)).links().size() == 1);
    polyover::basic_graph<Coordinate> given_back(both.release());
    CHECK(both.edge_count() == 0 && given_back.edge_count() == 12);
    CHECK(is_refused(status::bad_fill, [&] { return arrange(static_cast<fill>(4), it.subject); }));
    CHECK(is_refused(status::not_settled,
                     [&] { return arrange(fill::non_zero, it.needles, it.more_needles, solver::rounds); }));
}

/* The square that both have in common, wherever it begins. */
template <class Coordinate>
void vectors_of_shapes() {
    const given<Coordinate> it;
    const auto shared = value_of(vectors(rule::intersect, fill::non_zero, it.subject, it.clip));
    CHECK(is(shared.contour_ends(), {4}) && is(shared.shape_ends(), {1}) && shared.fills().size() == 4);
    /* (counter-clockwise the sides of the clip begin in (2, 4) and (2, 2)) */
    for (std::size_t at = 0; at < 4; at++) {
        CHECK(shared.fills()[at] == (shared.coordinates()[2 * at] == 2 ? 7 : 13));
    }
    typename given<Coordinate>::options unknown;
    unknown.solver = static_cast<solver>(2);
    CHECK(is_refused(status::bad_rule, [&] { return vectors(static_cast<rule>(7), fill::non_zero, it.subject); }));
    CHECK(is_refused(status::bad_option, [&] { return vectors(rule::xor_, fill::non_zero, it.subject, {}, unknown); }));
}

/* A level edge of the subject, and one of the clip that runs back over its right half, named by its pieces. */
template <class Coordinate>
void tracing() {
    const std::vector<Coordinate> lines = {0, 0, 4, 0, 6, 0, 2, 0};
    const std::array<std::uint8_t, 2> sides = {0, 1}, unknown = {0, 2};
    const polyover::basic_edge_list<Coordinate> edges(lines, sides);
    CHECK(edges.coordinates().size() == 8 && edges.sides().data() == sides.data());
    auto all = value_of(trace(fill::non_zero, edges));
    CHECK(is(all.coordinates(), {0, 0, 2, 0, 2, 0, 4, 0, 4, 0, 6, 0}) && is(all.fills(), {1, 5, 4}));
    CHECK(is(all.source_ends(), {1, 3, 4}) && all.sources().size() == 4);
    CHECK(all.sources_of(0).size() == 1 && all.sources_of(0)[0].edge == 0 && all.sources_of(0)[0].cut == 1);
    CHECK(all.sources_of(1).size() == 2 && all.sources_of(1)[0].edge + all.sources_of(1)[1].edge == 1);
    CHECK(all.sources_of(2).size() == 1 && all.sources_of(2)[0].edge == 1 && all.sources_of(2)[0].reversed == 1);
    const auto shared = value_of(trace(rule::intersect, fill::non_zero, edges, solver::rounds));
    CHECK(is(shared.coordinates(), {2, 0, 4, 0}) && shared.sources().size() == 2);
    const polyover::basic_traced<Coordinate> moved = std::move(all);
    CHECK(all.fills().empty() && all.sources().empty() && moved.fills().size() == 3);
    all = value_of(trace(fill::even_odd, polyover::basic_edge_list<Coordinate>()));
    CHECK(all.coordinates().empty());
    all = value_of(trace(rule::clip, fill::non_zero, edges));
    polyover::basic_traced<Coordinate> given_back(all.release());
    CHECK(all.raw().fill_count == 0 && given_back.raw().fill_count == 2);
    CHECK(is_refused(status::bad_rule, [&] { return trace(static_cast<rule>(8), fill::non_zero, edges); }));
    CHECK(is_refused(status::bad_fill, [&] { return trace(static_cast<fill>(4), edges); }));
    CHECK(is_refused(status::bad_option, [&] { return trace(fill::non_zero, edges, static_cast<solver>(2)); }));
    CHECK(is_refused(status::bad_option, [&] {
        return trace(fill::non_zero, polyover::basic_edge_list<Coordinate>(lines, unknown));
    }));
    CHECK(is_refused(status::bad_ends, [&] {
        return trace(fill::non_zero, polyover::basic_edge_list<Coordinate>(lines, {sides.data(), 1}));
    }));
}

/* The same answers in arrays, and what they take. */
template <class Coordinate>
void arrays() {
    const given<Coordinate> it;
    std::array<Coordinate, 64> coordinates;
    std::array<std::size_t, 8> contour_ends, shape_ends;
    std::array<polyover::link, 2> links;
    std::array<std::uint8_t, 16> fills;
    const polyover::basic_arrays<Coordinate> room{coordinates, contour_ends, shape_ends, links, fills};
    coordinates.fill(77);
    auto counts = value_of(overlay_into({}, rule::intersect, fill::non_zero, it.subject, it.clip));
    CHECK(!counts.fits && counts.coordinates == 8 && counts.contours == 1 && counts.shapes == 1);
    counts = value_of(overlay_into({coordinates, contour_ends}, rule::intersect, fill::non_zero, it.subject, it.clip));
    CHECK(!counts.fits && coordinates[0] == 77);
    counts = value_of(overlay_into(room, rule::intersect, fill::non_zero, it.subject, it.clip));
    CHECK(counts.fits && counts.coordinates == 8 && counts.links == 0 && counts.fills == 0);
    CHECK(is(polyover::span<Coordinate>(coordinates.data(), 9), {2, 4, 2, 2, 4, 2, 4, 4, 77}));
    CHECK(contour_ends[0] == 4 && shape_ends[0] == 1);
    counts = value_of(hierarchy_into(room, rule::subject, fill::even_odd, it.nested));
    CHECK(counts.fits && counts.contours == 3 && counts.shapes == 2 && counts.links == 1);
    CHECK(links[0].parent_contour == 1 && links[0].child_shape == 1 && shape_ends[0] == 2 && shape_ends[1] == 3);
    counts = value_of(simplify_into(room, fill::non_zero, it.clip));
    CHECK(counts.fits && std::equal(it.right.begin(), it.right.end(), coordinates.begin()));
    counts = value_of(slice_into(room, fill::non_zero, it.subject, it.line));
    CHECK(counts.fits && counts.contours == 2 && counts.shapes == 2 && counts.coordinates == 16);
    counts = value_of(clip_into(room, fill::non_zero, it.subject, it.line));
    CHECK(counts.fits && counts.contours == 1 && counts.coordinates == 4 && counts.shapes == 0);
    CHECK(is(polyover::span<Coordinate>(coordinates.data(), 4), {0, 2, 4, 2}) && contour_ends[0] == 2);
    counts = value_of(edges_into(room, fill::non_zero, it.subject));
    CHECK(counts.fits && counts.coordinates == 16 && counts.fills == 4 && fills[0] == POLYOVER_SUBJECT_RIGHT);
    const polyover::basic_contours<Coordinate> short_ends(it.left, it.three);
    CHECK(is_refused(status::bad_ends, [&] { return edges_into(room, fill::non_zero, short_ends); }));
}

// ---- refusals, and memory

template <class Coordinate>
void refusals() {
    const given<Coordinate> it;
    typename given<Coordinate>::options rounds;
    rounds.solver = solver::rounds;
    polyover::clip_options unknown;
    unknown.solver = static_cast<solver>(2);
    const std::vector<Coordinate> far = {std::numeric_limits<Coordinate>::min(), 0, 0, 4, 4, 4};
    const polyover::basic_contours<Coordinate> short_ends(it.left, it.three), beyond(far, it.three);
    const auto bad_rule = static_cast<rule>(7);
    const auto bad_fill = static_cast<fill>(4);
    CHECK(is_refused(status::bad_rule, [&] { return overlay(bad_rule, fill::non_zero, it.subject); }));
    CHECK(is_refused(status::bad_rule, [&] { return hierarchy(bad_rule, bad_fill, it.subject); }));
    CHECK(is_refused(status::bad_fill, [&] { return simplify(bad_fill, it.subject); }));
    CHECK(is_refused(status::bad_option, [&] { return clip(fill::non_zero, it.subject, it.line, unknown); }));
    CHECK(is_refused(status::bad_option, [&] { return slice(fill::non_zero, it.subject, it.line, unknown.solver); }));
    CHECK(is_refused(status::bad_option, [&] { return tiles(fill::non_zero, it.subject, 0, 2); }));
    CHECK(is_refused(status::bad_ends, [&] { return overlay(rule::clip, fill::non_zero, it.subject, short_ends); }));
    CHECK(is_refused(status::bad_ends, [&] { return resolved(short_ends); }));
    CHECK(is_refused(status::out_of_range, [&] { return relate(fill::non_zero, it.subject, beyond); }));
    CHECK(is_refused(status::bad_fill, [&] { return relate_exact(bad_fill, it.subject, beyond); }));
    CHECK(is_refused(status::out_of_range, [&] { return relate_exact(fill::non_zero, it.subject, beyond); }));
    const auto touches = polyover::relation::touches;
    CHECK(is_refused(status::bad_fill, [&] { return relate_one_exact(touches, bad_fill, it.subject, beyond); }));
    CHECK(is_refused(status::out_of_range,
                     [&] { return relate_one_exact(touches, fill::non_zero, it.subject, beyond); }));
    CHECK(is_refused(status::out_of_range, [&] { return prepare(fill::non_zero, beyond); }));
    CHECK(!polyover::in_range(far) && polyover::in_range(it.left) && in_range(it.subject.coordinates()));
    /* (rounds do not settle the needles; snap rounding does) */
    const auto solved = [&](const typename given<Coordinate>::options &how) {
        return overlay(rule::union_, fill::non_zero, it.needles, it.more_needles, how);
    };
    CHECK(is_refused(status::not_settled, [&] { return solved(rounds); }));
    CHECK(is_refused(status::not_settled,
                     [&] { return edges(fill::non_zero, it.needles, it.more_needles, solver::rounds); }));
    CHECK(is_refused(status::ok, [&] { return solved({}); }));
}

template <class Coordinate>
void refused_memory() {
    const given<Coordinate> it;
    grants = false;
    const bool are_refused[] = {
        is_refused(status::memory, [&] { return overlay(rule::xor_, fill::non_zero, it.subject, it.clip); }),
        is_refused(status::memory, [&] { return relate(fill::non_zero, it.subject, it.clip); }),
        is_refused(status::memory, [&] { return relate_exact(fill::non_zero, it.subject, it.clip); }),
        is_refused(status::memory,
                   [&] { return relate_one_exact(polyover::relation::within, fill::non_zero, it.subject, it.clip); }),
        is_refused(status::memory, [&] { return prepare(fill::non_zero, it.subject); }),
        is_refused(status::memory, [&] { return resolved(it.subject); }),
    };
    grants = true;
    for (const bool is_as_asked : are_refused) {
        CHECK(is_as_asked);
    }
    CHECK(value_of(overlay(rule::intersect, fill::non_zero, it.subject, it.clip)).coordinates().size() == 8);
}

template <class Coordinate>
void memory() {
    using result = polyover::basic_result<Coordinate>;
    static_assert(!std::is_copy_constructible_v<result> && !std::is_copy_assignable_v<result>);
    static_assert(std::is_nothrow_move_constructible_v<result> && std::is_nothrow_move_assignable_v<result>);
    static_assert(sizeof(result) == sizeof(typename result::raw_type));
    static_assert(!std::is_copy_constructible_v<polyover::basic_prepared<Coordinate>>);
    static_assert(!std::is_copy_constructible_v<polyover::basic_exact<Coordinate>>);
    static_assert(!std::is_copy_constructible_v<polyover::basic_graph<Coordinate>>);
    static_assert(!std::is_copy_constructible_v<polyover::basic_traced<Coordinate>>);
    const given<Coordinate> it;
    const std::size_t before = taken;
    result one = value_of(overlay(rule::intersect, fill::non_zero, it.subject, it.clip));
    result other = std::move(one);
    CHECK(one.coordinates().empty() && one.contour_ends().empty() && other.coordinates().size() == 8);
    one = value_of(overlay(rule::union_, fill::non_zero, it.subject, it.clip));
    one = std::move(other);
    result &same = one;
    one = std::move(same);
    CHECK(one.coordinates().size() == 8 && other.coordinates().empty());
    const result given_back(one.release());
    CHECK(one.raw().coordinate_count == 0 && given_back.raw().coordinate_count == 8);
    CHECK(result().coordinates().empty() && result().contours().ends().empty());
    std::array<location, 1> room;
    const std::array<Coordinate, 2> point = {3, 3};
    (void)value_of(value_of(prepare(fill::non_zero, it.subject)).locate(point, room));
    (void)value_of(value_of(prepare_exact(fill::non_zero, it.subject)).locate(point, room));
    CHECK(room[0] == location::inside && taken == before);
}

void spans() {
    static_assert(!std::is_constructible_v<polyover::contours_32, std::vector<std::int64_t>, std::vector<std::size_t>>);
    static_assert(!std::is_constructible_v<polyover::span<location>, const std::vector<location> &>);
    static_assert(polyover::span<const int>().empty());
    const std::int64_t square[] = {0, 0, 4, 0, 4, 4, 0, 4};
    const std::array<std::size_t, 1> ends = {4};
    const polyover::contours of_arrays(square, ends);
    CHECK(of_arrays.coordinates().data() == square && of_arrays.raw().coordinate_count == 8);
    CHECK(of_arrays.ends()[0] == 4 && polyover::paths().ends().empty());
#if __cplusplus >= 202002L
    const std::span<const std::int64_t> standard = of_arrays.coordinates();
    CHECK(standard.data() == square && standard.size() == 8);
    CHECK(polyover::contours(standard, ends).coordinates().data() == square);
#endif
}

void constants() {
    CHECK(polyover::coordinate_max == POLYOVER_COORDINATE_MAX && polyover::coordinate_min == -polyover::coordinate_max);
    CHECK(polyover::coordinate_max_32 == POLYOVER_COORDINATE_MAX_32);
    CHECK(polyover::coordinate_min_32 == POLYOVER_COORDINATE_MIN_32);
    CHECK(std::strcmp(polyover::version(), POLYOVER_VERSION) == 0);
    CHECK(static_cast<std::uint32_t>(polyover::built()) == BUILT);
}

template <class Coordinate>
void all() {
    results<Coordinate>();
    shapes_with_holes<Coordinate>();
    lines<Coordinate>();
    arranged_edges<Coordinate>();
    options<Coordinate>();
    relating<Coordinate>();
    locating<Coordinate>();
    prepared_shapes<Coordinate>();
    shapes_as_given<Coordinate>();
    graphs<Coordinate>();
    tracing<Coordinate>();
    vectors_of_shapes<Coordinate>();
    slices_by_options<Coordinate>();
    simplified_shapes<Coordinate>();
    arrays<Coordinate>();
    refusals<Coordinate>();
    refused_memory<Coordinate>();
    memory<Coordinate>();
}

} // namespace

int main() {
    all<std::int64_t>();
    all<std::int32_t>();
    smallest_areas();
    spans();
    constants();
    std::printf("c++: %d passed, %d failed\n", passed, failed);
    return failed == 0 ? 0 : 1;
}
