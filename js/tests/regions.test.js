/** A geometry means the region that its polygons cover, in each call; contours in lists and arrays do not. */

import assert from "node:assert/strict";
import test from "node:test";
import { NotResolved } from "../polyover.js";
import { doubleArea, flat, polyover } from "./there.js";

const [IN, ON, OUT] = ["inside", "boundary", "outside"];

/** A square of side 4, by its lower left corner. */
function box(x, y = x) {
  return [[x, y], [x + 4, y], [x + 4, y + 4], [x, y + 4]];
}

/** A polygon of GeoJSON of rings that are not closed. */
function polygon(...rings) {
  return { type: "Polygon", coordinates: rings.map((ring) => [...ring, ring[0]]) };
}

/** Geometries as the features of a collection. */
function features(...geometries) {
  const found = geometries.map((geometry) => ({ type: "Feature", properties: {}, geometry }));
  return { type: "FeatureCollection", features: found };
}

/** Geometries as one of several polygons. */
function together(...geometries) {
  return { type: "MultiPolygon", coordinates: geometries.map(({ coordinates }) => coordinates) };
}

const SQUARES = [polygon(box(0)), polygon(box(2))];
// in both, in one, on an edge in the other one, where two edges cross, on an edge, beside
const POINTS = [[3, 3], [1, 1], [3, 4], [2, 4], [6, 5], [5, 1]];
const PLACES = [IN, IN, IN, ON, ON, OUT];

test("a polygon that crosses itself is split by the solver that is asked", () => {
  // (two steps cross at (1/3, 0), in the pixel of (0, 0). The first step passes through that, and meets none of the two
  // there: snap rounding leads it through (0, 0), rounds leave it straight from (-1, 0) on)
  const ring = [[-4, -1], [8, 3], [10, 3], [10, 0], [-10, 0], [-10, -5], [12, -5], [12, 2], [7, 2], [-3, -1]];
  for (const [solver, start] of [["rounds", [-1, 0]], ["snapped", [0, 0]]]) {
    for (const shape of [polygon(ring), features(polygon(ring))]) {
      const [from] = polyover.edges(shape, [], { solver }).find(([, [x, y]]) => x === 8 && y === 3);
      assert.deepEqual(from, start);
      const found = polyover.overlay(shape, [], { rule: "subject", solver, answer: "lists" });
      assert.deepEqual(found, polyover.overlay([ring], [], { rule: "subject", solver }));
    }
  }
});

/** The area that shapes cover. */
function area(shapes) {
  return shapes.flat().reduce((sum, contour) => sum + doubleArea(contour), 0) / 2;
}

test("points are located in the region of features that overlap", () => {
  for (const shape of [features(...SQUARES), together(...SQUARES), features(together(...SQUARES))]) {
    assert.deepEqual(polyover.locate(shape, POINTS), PLACES);
    assert.deepEqual(polyover.prepare(shape).locate(POINTS), PLACES);
    assert.deepEqual(polyover.scaled(8).locate(shape, POINTS), PLACES);
    assert.deepEqual([...polyover.locate(shape, new Int32Array(POINTS.flat()))], [1, 1, 1, 2, 2, 0]);
    assert.deepEqual([...polyover.locate(shape, new BigInt64Array(POINTS.flat().map(BigInt)))], [1, 1, 1, 2, 2, 0]);
  }
  // (their contours as lists are joined by exclusive or)
  assert.deepEqual(polyover.locate([box(0), box(2)], [[3, 3], [1, 1]]), [OUT, IN]);
});

test("an edge of two polygons that touch lies inside", () => {
  const halves = features(polygon(box(0)), polygon(box(4, 0)));
  assert.deepEqual(polyover.locate(halves, [[4, 2], [4, 0], [4, 4], [8, 1]]), [IN, ON, ON, ON]);
});

test("a hole is covered where another polygon covers it", () => {
  const hole = [[1, 1], [3, 1], [3, 3], [1, 3]];
  const shape = features(polygon(box(0), hole), polygon(box(2)));
  assert.deepEqual(polyover.locate(shape, [[1, 2], [2, 1], [1.5, 1.5].map(Math.floor), [3, 3]]), [ON, ON, ON, IN]);
  const wide = features(polygon([[0, 0], [9, 0], [9, 9], [0, 9]], [[2, 2], [7, 2], [7, 7], [2, 7]]), polygon(box(4)));
  assert.deepEqual(polyover.locate(wide, [[3, 3], [5, 5], [1, 1], [4, 5], [7, 8]]), [OUT, IN, IN, ON, IN]);
});

test("holes overlap, whichever way they run", () => {
  const outline = [[0, 0], [8, 0], [8, 8], [0, 8]];
  const holes = [[[1, 1], [4, 1], [4, 4], [1, 4]], [[2, 2], [5, 2], [5, 5], [2, 5]]];
  // (the holes have 9 points each, and 4 of both)
  for (const [first, second] of [[false, false], [true, false], [false, true], [true, true]]) {
    const [one, two] = holes.map((hole, at) => ([first, second][at] ? [...hole].reverse() : hole));
    const shape = polygon(outline, one, two);
    assert.equal(area(polyover.overlay(shape, [], { answer: "lists" })), 64 - 14);
    assert.deepEqual(polyover.locate(shape, [[3, 3], [2, 4], [6, 6], [4, 5]]), [OUT, ON, IN, ON]);
  }
});

test("a hole sticks out by less than half a unit", () => {
  // (its point (2, 1) is 1/5 above the edge to (5, 2), which then runs through it: 1/2 more is covered)
  const hole = [[2, 1], [1, -2], [3, -2]];
  const shape = polygon([[0, 0], [0, -4], [5, -4], [5, 2]], hole);
  for (const fill of ["nonzero", "evenodd", "positive", "negative"]) {
    const other = { fill, answer: "lists" };
    assert.equal(area(polyover.overlay(shape, [], other)), 25.5 - 3);
    assert.deepEqual(polyover.overlay(shape, polygon(hole), { ...other, rule: "intersect" }), []);
    assert.equal(polyover.relate(shape, polygon(hole), { fill }).touches, true);
  }
  assert.deepEqual(polyover.locate(shape, [[2, 0], [2, 1], [0, -1]]), [OUT, ON, ON]);
});

test("a ring begins as it is given, whatever is dropped of it", () => {
  const [corners, lists] = [[[4, 4], [0, 4], [0, 0], [4, 0]], { answer: "lists" }];
  const [again, near] = [[corners[0], ...corners], [corners[0], [4.2, 4.1], ...corners.slice(1)]];
  const [thin, dot] = [[[1, 1], [2, 2], [3, 3]], [[1, 1], [1.1, 1], [1, 1.1]]];
  for (const shape of [polygon(corners), polygon(again), polygon([...again, [4, 0]]), polygon(corners, thin)]) {
    assert.deepEqual(polyover.simplify(shape, lists), [[corners]]);
  }
  for (const shape of [polygon(near), polygon(near, dot, thin)]) {
    assert.deepEqual(polyover.scaled(1).simplify(shape, lists), [[corners]]);
  }
  // (the first point, and the one that is equal to it once rounded)
  const behind = polygon([[4.1, 4], ...corners.slice(1), [4, 4]]);
  assert.deepEqual(polyover.scaled(1).simplify(behind, lists), [[[...corners.slice(1), corners[0]]]]);
  assert.deepEqual(polyover.scaled(1).simplify(polygon(dot), lists), []);
});

test("a ring that meets itself is located by what it winds round", () => {
  const bow = [[0, 0], [4, 4], [4, 0], [0, 4]];
  assert.deepEqual(polyover.locate(polygon(bow), [[1, 2], [3, 2], [2, 1], [2, 2]]), [IN, IN, OUT, ON]);
  assert.throws(() => polyover.locate([bow], [[1, 2]]), NotResolved);
});

test("points are located as the scale takes them", () => {
  const tenths = { type: "MultiPolygon", coordinates: SQUARES.map(({ coordinates: [ring] }) => [ring.map(tenth)]) };
  assert.deepEqual(polyover.scaled(10).locate(tenths, POINTS.map(tenth)), PLACES);
});

/** A point over ten. */
function tenth(point) {
  return point.map((value) => value / 10);
}

test("each fill rule fills the region of a geometry", () => {
  const shape = features(...SQUARES);
  const [line, far] = [[[[3, -1], [3, 9]]], [[[20, 20], [21, 21]]]];
  for (const fill of ["nonzero", "evenodd", "positive", "negative"]) {
    const lists = { fill, answer: "lists" };
    for (const [shapes, count] of [
      [polyover.overlay(shape, [], lists), 1],
      [polyover.overlay([], shape, lists), 1],
      [polyover.overlay(shape, shape, { ...lists, rule: "intersect" }), 1],
      [polyover.hierarchy(shape, [], lists).shapes, 1],
      [polyover.simplify(shape, lists), 1],
      [polyover.slice(shape, far, lists), 1],
      [polyover.slice(shape, line, lists), 2],
    ]) {
      assert.deepEqual([area(shapes), shapes.length], [28, count], fill);
    }
    assert.deepEqual(polyover.clip(shape, line, lists), [[[3, 0], [3, 6]]], fill);
    // (the outline has eight edges, each filled on one side)
    const edges = polyover.edges(shape, [], lists);
    assert.deepEqual([edges.length, edges.every(([, , sides]) => sides === 1 || sides === 2)], [8, true], fill);
    const small = polygon([[2.5, 2.5], [3.5, 2.5], [3.5, 3.5], [2.5, 3.5]]);
    assert.equal(polyover.scaled(2).relate(small, shape, { fill }).within, true, fill);
    assert.equal(polyover.relate(polygon([[1, 1], [5, 1], [5, 5], [1, 5]]), shape, { fill }).within, false, fill);
    assert.deepEqual(polyover.prepare(shape, { fill }).locate(POINTS), PLACES, fill);
  }
});

test("a fill rule tells of contours beside a geometry what they fill", () => {
  const shape = features(...SQUARES);
  // (twice the same contour is none by even-odd)
  for (const [other, size] of [[[box(9), box(9)], 28], [[box(0), box(0), box(20)], 44]]) {
    assert.equal(area(polyover.overlay(shape, other, { fill: "evenodd", answer: "lists" })), size);
    assert.equal(area(polyover.scaled(2).overlay(other, shape, { fill: "evenodd" })), size);
  }
  assert.equal(area(polyover.overlay(shape, [box(9)], { fill: "negative", answer: "lists" })), 28);
  assert.equal(area(polyover.overlay(shape, [box(9).reverse()], { fill: "negative", answer: "lists" })), 44);
  assert.equal(polyover.edges(shape, [box(20)], { fill: "evenodd" }).length, 12);
  const touching = polyover.relate(shape, [box(6, 2)], { fill: "evenodd" });
  assert.deepEqual([touching.touches, touching.interiorsIntersect], [true, false]);
  assert.equal(polyover.overlay(flat(Int32Array), shape, { fill: "evenodd", rule: "clip" }).length, 1);
});

test("a polygon without rings covers nothing", () => {
  const nothing = { type: "MultiPolygon", coordinates: [[]] };
  assert.deepEqual(polyover.overlay(nothing).coordinates, []);
  assert.deepEqual(polyover.locate(nothing, [[0, 0]]), [OUT]);
  const beside = { type: "MultiPolygon", coordinates: [[], polygon(box(0)).coordinates, []] };
  assert.equal(area(polyover.overlay(beside, [], { answer: "lists" })), 16);
});

test("a ring is closed where all members of its ends are equal", () => {
  const ring = [[0, 0, 1], [4, 0, 1], [0, 0, 2]];
  assert.deepEqual(polyover.overlay({ type: "Polygon", coordinates: [ring] }).coordinates, []);
  const closed = { type: "Polygon", coordinates: [[...ring.slice(0, 2), ring[0]]] };
  assert.throws(() => polyover.overlay(closed), /ring 1: 2 points, and it takes at least 3/);
});
