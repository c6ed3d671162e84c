/** Edges with the steps on which they lie, and shapes with filled sides: answers by hand, in lists and in arrays. */

import assert from "node:assert/strict";
import test from "node:test";
import { BadInput, Flat, FlatShapes, NotSettled, load } from "../polyover.js";
import { flat, polyover, rows } from "./there.js";

const { SQUARE, OTHER, FRAME, UNSETTLED } = rows;
const KINDS = [BigInt64Array, Float64Array, Int32Array];

/** A step on which an edge lies, in its short form: the side, path and step, whether it was cut, and runs back. */
function source([side, path, step, cut = 0, back = 0]) {
  return { side: side === 0 ? "subject" : "clip", path, step, cut: cut === 1, reversed: back === 1 };
}

// the squares cross in (4, 2) and (2, 4)
const CROSSING = [
  [[0, 0], [0, 4], 2, [[0, 0, 3, 0, 1]]],
  [[0, 0], [4, 0], 1, [[0, 0, 0]]],
  [[0, 4], [2, 4], 2, [[0, 0, 2, 1, 1]]],
  [[2, 2], [2, 4], 11, [[1, 0, 3, 1, 1]]],
  [[2, 2], [4, 2], 7, [[1, 0, 0, 1]]],
  [[2, 4], [2, 6], 8, [[1, 0, 3, 1, 1]]],
  [[2, 4], [4, 4], 14, [[0, 0, 2, 1, 1]]],
  [[2, 6], [6, 6], 8, [[1, 0, 2, 0, 1]]],
  [[4, 0], [4, 2], 1, [[0, 0, 1, 1]]],
  [[4, 2], [4, 4], 13, [[0, 0, 1, 1]]],
  [[4, 2], [6, 2], 4, [[1, 0, 0, 1]]],
  [[6, 2], [6, 6], 4, [[1, 0, 1]]],
].map(([a, b, sides, sources]) => [a, b, sides, sources.map(source)]);
const OF_BOTH = [3, 4, 6, 9].map((at) => CROSSING[at]);

/** Traced edges with the sources of each in order, since this is left open. */
function inOrder(edges) {  const told = ({ side, path, step }) => `${side} ${path} ${step}`;
  const before = (one, other) => (told(one) < told(other) ? -1 : 1);
  return edges.map(([a, b, sides, sources]) => [a, b, sides, [...sources].sort(before)]);
}

/** Traced edges in arrays as lists. */
function listed({ coordinates, fills, sourceEnds, sources }) {
  const numbers = Array.from(coordinates, Number);
  return Array.from(fills, (sides, at) => {
    const [start, end] = [at === 0 ? 0 : sourceEnds[at - 1], sourceEnds[at]];
    const its = Array.from({ length: end - start }, (_, place) => source([...sources.slice(5 * (start + place))]));
    return [numbers.slice(4 * at, 4 * at + 2), numbers.slice(4 * at + 2, 4 * at + 4), sides, its];
  });
}

/** A contour of steps by its points and sides, begun at the least point, since that is left open. */
function turned(contour) {
  contour.forEach(([, end], at) => assert.deepEqual(contour[(at + 1) % contour.length][0], end));
  const points = contour.map(([point, , sides]) => [...point.map(Number), sides]);
  const isLess = ([x, y], [u, v]) => x < u || (x === u && y < v);
  const least = points.reduce((best, each, at) => (isLess(each, points[best]) ? at : best), 0);
  return [...points.slice(least), ...points.slice(0, least)];
}

const pointsOf = (shapes) => shapes.map((shape) => shape.map(turned));

test("edges are traced to the steps of squares", () => {
  for (const solver of ["snapped", "rounds"]) {
    assert.deepEqual(polyover.trace([SQUARE], [OTHER], { solver }), CROSSING);
    assert.deepEqual(polyover.trace([SQUARE], [OTHER], { solver, rule: "intersect" }), OF_BOTH);
  }
  const [[a, b, , [{ side, step }]]] = polyover.trace([SQUARE.map((point) => point.map(BigInt))]);
  assert.deepEqual([a, b, side, step], [[0n, 0n], [0n, 4n], "subject", 3]);
  for (const kind of KINDS) {
    const found = polyover.trace(flat(kind), flat(kind, OTHER));
    assert.ok(found.coordinates instanceof kind && found.fills instanceof Uint8Array);
    assert.deepEqual(listed(found), CROSSING);
    assert.deepEqual(listed(polyover.trace(flat(kind), flat(kind, OTHER), { rule: "intersect" })), OF_BOTH);
    assert.deepEqual(polyover.trace(flat(Float64Array), flat(kind, OTHER), { answer: "lists" }).length, 12);
  }
});

test("edges are traced at a scale", () => {
  const halves = (points) => points.map((point) => point.map((value) => value / 2));
  const found = polyover.scaled(2, [0, 0]).trace([halves(SQUARE)], [halves(OTHER)]);
  assert.deepEqual(found, CROSSING.map(([a, b, ...others]) => [...halves([a, b]), ...others]));
});

test("edges of open paths", () => {
  const [first, ...others] = [[[0, 0], [4, 0], [4, 4]], [[6, 0], [2, 0]], [[7, 7]], []];
  const wanted = [
    [[0, 0], [2, 0], [[0, 0, 0, 1]]],
    [[2, 0], [4, 0], [[1, 0, 0, 1, 1], [0, 0, 0, 1]]],
    [[4, 0], [4, 4], [[0, 0, 1]]],
    [[4, 0], [6, 0], [[1, 0, 0, 1, 1]]],
  ].map(([a, b, sources]) => [a, b, sources.map(source)]);
  const found = inOrder(polyover.trace([first], others, { closed: false }));
  assert.deepEqual(found.map(([a, b, , sources]) => [a, b, sources]), wanted);
  assert.equal(found[1][2], 5);
  // (two that lie on one another, there and back, leave no count and go)
  assert.equal(polyover.trace([first, ...others], [], { closed: false }).length, 3);
});

test("nothing is traced of nothing", () => {
  for (const paths of [[], [[]], [[[1, 1]]], [[[1, 1], [1, 1]]], [[[1, 1], [2, 2]]]]) {
    assert.deepEqual(polyover.trace(paths), []);
    assert.deepEqual(polyover.trace(paths, paths, { rule: "xor", answer: "arrays" }).sources.length, 0);
  }
});

test("shapes have the filled sides of their steps", () => {
  const both = [[2, 2, 7], [4, 2, 13], [4, 4, 13], [2, 4, 7]];
  const back = [[2, 2, 11], [2, 4, 14], [4, 4, 14], [4, 2, 11]];
  for (const solver of ["snapped", "rounds"]) {
    assert.deepEqual(pointsOf(polyover.vectors([SQUARE], [OTHER], { rule: "intersect", solver })), [[both]]);
  }
  const clockwise = polyover.vectors([SQUARE], [OTHER], { rule: "intersect", clockwise: true });
  assert.deepEqual(pointsOf(clockwise), [[back]]);
  const small = (minimumArea) => polyover.vectors([SQUARE], [OTHER], { rule: "intersect", minimumArea });
  assert.deepEqual([small(4).length, small(5)], [1, []]);
  for (const kind of KINDS) {
    const { shapes, fills } = polyover.vectors(flat(kind), flat(kind, OTHER), { rule: "intersect" });
    assert.ok(shapes instanceof FlatShapes && shapes.contours.coordinates instanceof kind);
    const [[points]] = [...shapes];
    const steps = points.map((point, at) => [point, points[(at + 1) % 4], fills[at]]);
    assert.deepEqual(turned(steps), both);
  }
});

test("a point stays where the filled sides change", () => {
  const subject = [[0, 0, 1], [4, 0, 1], [4, 2, 13], [4, 4, 13], [2, 4, 1], [0, 4, 1]];
  assert.deepEqual(pointsOf(polyover.vectors([SQUARE], [OTHER], { rule: "subject" })), [[subject]]);
  const line = [[0, 0], [2, 0], [4, 0], [4, 4]];
  assert.deepEqual(pointsOf(polyover.vectors([line])), [[[[0, 0, 1], [4, 0, 1], [4, 4, 1]]]]);
});

test("the region is on the left of each step, round a hole too", () => {
  const wanted = FRAME.map((contour) => contour.map((point) => [...point, 4]));
  assert.deepEqual(pointsOf(polyover.vectors([], FRAME, { rule: "clip", fill: "evenodd" })), [wanted]);
  // (the hole runs clockwise as it is given; polygons of GeoJSON are regions)
  const shape = { type: "Polygon", coordinates: FRAME.map((ring) => [...ring, ring[0]]) };
  assert.deepEqual(pointsOf(polyover.vectors([], shape, { rule: "clip" })), [wanted]);
  const halves = polyover.scaled(2).vectors([], FRAME, { rule: "clip", fill: "evenodd" });
  assert.deepEqual(pointsOf(halves), [wanted]);
});

test("what cannot be traced is refused", () => {
  const shape = { type: "Polygon", coordinates: [[...SQUARE, SQUARE[0]]] };
  for (const [call, told] of [
    [() => polyover.trace(shape), "subject: a geometry in the place of a list of contours"],
    [() => polyover.trace([SQUARE], shape), "clip: a geometry in the place of a list of contours"],
    [() => polyover.trace([SQUARE], [[[0, 0], [0.5, 0], [1, 1]]]), "clip: contour 1, point 2: 0.5 is no whole number"],
    [() => polyover.trace([[[2n ** 62n, 0], [1, 0]]]), `subject: contour 1, point 1: ${2n ** 62n} is out of range`],
    [() => polyover.trace([SQUARE], [], { rule: "all" }), 'unknown rule "all"'],
    [() => polyover.trace([SQUARE], [], { closed: 1 }), "closed: 1 is neither true nor false"],
    [() => polyover.trace([SQUARE], [], { keep: true }), 'unknown option "keep"'],
    [() => polyover.vectors([SQUARE], [], { touching: true }), 'unknown option "touching"'],
    [() => polyover.vectors([SQUARE], [], { rule: null }), "unknown rule null"],
  ]) {
    assert.throws(call, (fault) => fault instanceof BadInput && fault.message.includes(told), told);
  }
  // (an Int32Array holds more than the calls of 32 bits take)
  const far = new Flat(Int32Array.of(2 ** 30, 0, 1, 0, 1, 1), [3]);
  assert.throws(() => polyover.trace(far), /subject: contour 1, point 1: 1073741824 is out of range/);
  for (const call of ["trace", "vectors"]) {
    assert.throws(() => polyover[call](UNSETTLED, [], { solver: "rounds" }), NotSettled);
  }
  const changed = flat(Float64Array);
  changed.ends[0] = 5;
  assert.throws(() => polyover.trace(changed), /subject: ends: they rise to 5, and there are 4 points/);
});

test("a worker traces and tells filled sides too", { timeout: 120_000 }, async () => {
  const remote = await load({ worker: true });
  try {
    assert.deepEqual(await remote.trace([SQUARE], [OTHER]), CROSSING);
    assert.deepEqual(listed(await remote.trace(flat(Int32Array), flat(Int32Array, OTHER))), CROSSING);
    assert.deepEqual(await remote.vectors([SQUARE], [OTHER]), polyover.vectors([SQUARE], [OTHER]));
    const { shapes, fills } = await remote.vectors(flat(BigInt64Array));
    assert.ok(shapes instanceof FlatShapes);
    assert.deepEqual([...fills], [1, 1, 1, 1]);
  } finally {
    remote.end();
  }
});
