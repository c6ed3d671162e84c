/** The rows of docs/PROGRAM.md through JavaScript, as python/tests/test_rows.py has them. */

import assert from "node:assert/strict";
import test from "node:test";
import { Flat, NotSettled } from "../polyover.js";
import { doubleArea, polyover, printedPath, printedShapes, rows } from "./there.js";

const { SQUARE, OTHER, FRAME, BAR, NESTED, HALL, WALLS, UNSETTLED } = rows;
const CROSSED = [
  [0, 0],
  [4, 4],
  [4, 0],
  [0, 4],
];

test("union with two holes", () => {
  const shapes = polyover.overlay(FRAME, BAR, { rule: "union", fill: "evenodd", touching: true });
  const expected = "shape\n0 3 0 2 1 2 1 0 4 0 4 2 5 2 5 3 4 3 4 5 1 5 1 3\n2 1 2 2 3 2 3 1\n2 3 2 4 3 4 3 3\n";
  assert.equal(printedShapes(shapes), expected);
});

test("each rule", () => {
  const areas = { subject: 16, clip: 16, intersect: 4, union: 28, difference: 12, inverse_difference: 12, xor: 24 };
  for (const [rule, expected] of Object.entries(areas)) {
    const shapes = polyover.overlay([SQUARE], [OTHER], { rule });
    const doubled = shapes.flat().reduce((sum, contour) => sum + doubleArea(contour), 0);
    assert.equal(doubled, 2 * expected, rule);
  }
});

test("options", () => {
  assert.equal(printedShapes(polyover.overlay([SQUARE], [], { clockwise: true })), "shape\n0 0 0 4 4 4 4 0\n");
  const bent = [[[0, 0], [2, 0], [4, 0], [4, 4], [0, 4]]];
  const [[[first]]] = polyover.overlay(bent, BAR, { rule: "difference", keep: false, minimumArea: 5 });
  assert.deepEqual(first, [0, 2]);
  assert.deepEqual(polyover.overlay([SQUARE], [], { minimumArea: 17 }), []);
  assert.equal(polyover.overlay([SQUARE], [], { minimumArea: 16n }).length, 1);
});

test("hierarchy", () => {
  const { shapes, links } = polyover.hierarchy(NESTED, [], { rule: "subject", fill: "evenodd" });
  assert.equal(printedShapes(shapes), "shape\n0 9 0 0 9 0 9 9\n1 1 1 8 8 8 8 1\nshape\n2 7 2 2 7 2 7 7\n");
  assert.deepEqual(links, [[0, 1, 1]]);
});

test("simplify", () => {
  const halves = "shape\n0 4 0 0 2 2\nshape\n4 4 2 2 4 0\n";
  assert.equal(printedShapes(polyover.simplify([CROSSED])), halves);
  assert.deepEqual(polyover.simplify([CROSSED], { minimumArea: 5 }), []);
  const joined = "shape\n0 4 0 0 4 0 4 2 6 2 6 6 2 6 2 4\n";
  assert.equal(printedShapes(polyover.simplify([SQUARE, OTHER])), joined);
});

test("simple contours stay as they are", () => {
  const turned = [[4, 4], [0, 4], [0, 0], [4, 0]];
  for (const options of [{}, { keep: true }, { touching: true }, { fill: "positive" }, { fill: "evenodd" }]) {
    assert.deepEqual(polyover.simplify([turned], options), [[turned]]);
  }
  const back = [...turned].reverse();
  assert.deepEqual(polyover.simplify([back]), [[turned]]);
  assert.deepEqual(polyover.simplify([turned], { clockwise: true }), [[back]]);
  assert.deepEqual(polyover.simplify([SQUARE], { fill: "negative" }), []);
  const cut = polyover.overlay([SQUARE], [], { rule: "subject" });
  for (const more of [[0, 2], [0, 4], [0, 0]]) {
    assert.deepEqual(polyover.simplify([[...SQUARE, more]]), cut);
  }
  assert.deepEqual(polyover.simplify([SQUARE, []]), cut);
  assert.deepEqual(polyover.simplify([SQUARE], { minimumArea: 16 }), cut);
});

test("resolved", () => {
  const touching = [[0, 0], [4, 0], [2, 2], [4, 4], [0, 4], [2, 2]];
  for (const contours of [[], [[]], [SQUARE], [SQUARE, OTHER], [touching]]) {
    assert.equal(polyover.isResolved(contours), true);
  }
  const back = [[0, 0], [4, 0], [4, 4], [4, 0]];
  for (const contours of [[CROSSED], [SQUARE, CROSSED], [[[0, 0], [4, 0]]], [back]]) {
    assert.equal(polyover.isResolved(contours), false);
  }
});

test("edges", () => {
  const needle = [[0, 0], [10, 4], [10, 0], [0, 3]];
  const expected = [
    [[0, 0], [0, 3], 2],
    [[0, 0], [4, 2], 1],
    [[0, 3], [4, 2], 2],
    [[4, 2], [10, 0], 1],
    [[4, 2], [10, 4], 2],
    [[10, 0], [10, 4], 1],
  ];
  assert.deepEqual(polyover.edges([needle]), expected);
});

test("relations", () => {
  const low = [[[0, 0], [2, 0], [2, 2], [0, 2]]];
  const high = [[[2, 2], [4, 2], [4, 4], [2, 4]]];
  const told = polyover.relate(low, high, { fill: "evenodd" });
  const names = Object.keys(told).filter((name) => told[name]);
  assert.deepEqual(names, ["intersects", "touches", "pointIntersects"]);
});

test("clip", () => {
  const shape = [[[-10, -10], [-10, 10], [10, 10], [10, -10]]];
  const line = [[[0, -15], [0, 15]]];
  assert.equal(polyover.clip(shape, line).map(printedPath).join(""), "0 -10 0 10\n");
  const inverted = polyover.clip(shape, line, { invert: true });
  assert.equal(inverted.map(printedPath).join(""), "0 -15 0 -10\n0 10 0 15\n");
  const along = [[[-10, -10], [10, -10]]];
  assert.deepEqual(polyover.clip(shape, along), []);
  assert.deepEqual(polyover.clip(shape, along, { boundary: true }), along);
});

test("slice", () => {
  const rooms =
    "shape\n4 0 4 4 0 4 0 0\nshape\n4 4 4 8 0 8 0 4\n" +
    "shape\n8 0 8 5 8 8 4 8 4 4 4 0\n5 3 5 5 7 5 7 3\n" +
    "shape\n10 0 12 0 12 5 8 5 8 0\nshape\n12 5 12 8 8 8 8 5\n";
  assert.equal(printedShapes(polyover.slice(HALL, WALLS, { fill: "evenodd" })), rooms);
});

test("tiles", () => {
  const quarters =
    "shape\n2 0 2 2 0 2 0 0\nshape\n2 2 2 4 0 4 0 2\nshape\n4 0 4 2 2 2 2 0\nshape\n4 2 4 4 2 4 2 2\n";
  const square = [[0, 0], [4, 0], [4, 4], [0, 4]];
  assert.equal(printedShapes(polyover.tiles([square], 2, 2n)), quarters);
  const narrow = new Flat(Int32Array.from(square.flat()), [4]);
  const [at32, at64] = [polyover.tiles(narrow, 2, 2), polyover.tiles([square], 2, 2, { answer: "arrays" })];
  assert.ok(at32.contours.coordinates instanceof Int32Array);
  assert.deepEqual([...at32.contours.coordinates], [...at64.contours.coordinates]);
  // (no line of a cell that is wider than the range crosses the square)
  assert.equal(polyover.tiles(narrow, 2 ** 40, 2n ** 70n).length, 1);
  assert.equal(polyover.scaled(10).tiles([[[0, 0], [0.4, 0], [0.4, 0.4], [0, 0.4]]], 0.2, 0.4).length, 2);
  // (of 2.5 by 3.5 units, which are taken as 2 by 4: even ones, as coordinates are)
  assert.equal(polyover.scaled(2).tiles([square], 1.25, 1.75).length, 8);
  assert.deepEqual(polyover.tiles([], 1, 1), []);
});

test("locations", () => {
  const points = [[2, 2], [4, 1], [9, 9]];
  assert.deepEqual(polyover.locate([SQUARE], points), ["inside", "boundary", "outside"]);
});

test("nothing", () => {
  assert.deepEqual(polyover.overlay([], []), []);
  assert.deepEqual(polyover.overlay([[]], [[[1, 1]]]), []);
  assert.deepEqual(polyover.locate([SQUARE], []), []);
  assert.deepEqual(polyover.clip([SQUARE], []), []);
  assert.deepEqual(polyover.hierarchy([]), { shapes: [], links: [] });
  assert.deepEqual(polyover.edges([]), []);
});

test("what rounds of splitting refuse is answered by snapping", () => {
  const [subject, clip] = UNSETTLED;
  assert.throws(() => polyover.overlay([subject], [clip], { solver: "rounds" }), NotSettled);
  assert.throws(() => polyover.edges([subject], [clip], { solver: "rounds" }), NotSettled);
  assert.ok(polyover.overlay([subject], [clip]).length > 0);
  assert.ok(polyover.edges([subject], [clip]).length > 0);
  // (at the finest scale rounds settle them too)
  for (const solver of ["snapped", "rounds"]) {
    assert.equal(polyover.relate([subject], [clip], { solver }).interiorsIntersect, true);
  }
});
