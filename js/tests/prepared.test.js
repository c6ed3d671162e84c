/** Prepared shapes: where points lie, by hand; forms of points; what is refused; memory; and those in a worker. */

import assert from "node:assert/strict";
import test from "node:test";
import { BadInput, Flat, LOCATIONS, NotSettled, Prepared, RemotePrepared, WorkerEnded, load } from "../polyover.js";
import { flat, polyover, rows } from "./there.js";

const { SQUARE, OTHER, FRAME, HALL, UNSETTLED } = rows;
const [IN, ON, OUT] = ["inside", "boundary", "outside"];
const LIMIT = 2n ** 62n - 1n;
const KINDS = [BigInt64Array, Int32Array, Float64Array];
const AT_MOST = { timeout: 120_000 };
// a square in which another runs the same way, and beside it one that runs the other way: they wind 1, 2 and -1 times
const WOUND = [
  [[0, 0], [9, 0], [9, 9], [0, 9]],
  [[3, 3], [6, 3], [6, 6], [3, 6]],
  [[20, 0], [20, 9], [29, 9], [29, 0]],
];
// (it runs round the left half once, and round the right half once the other way)
const BOW = [[0, 0], [4, 4], [4, 0], [0, 4]];
// in the hole, on its edge, in the hall, beside it
const POINTS = [[6, 4], [5, 4], [1, 1], [13, 4]];
const WORDS = [OUT, ON, IN, OUT];

/** That points lie in a shape where they should. */
function located(shape, points, words, options = {}) {
  for (const solver of [undefined, "exact", "snapped", "rounds"]) {
    const prepared = polyover.prepare(shape, { ...options, solver });
    assert.deepEqual(prepared.locate(points), words);
    assert.deepEqual(prepared.contains(points), words.map((word) => word === IN));
    prepared.free();
  }
}

/** That a call raises BadInput with these words. */
function refused(call, words) {
  assert.throws(call, (fault) => {
    assert.ok(fault instanceof BadInput);
    assert.ok(fault.message.includes(words), `${fault.message} has no ${words}`);
    return true;
  });
}

test("squares and holes", () => {
  const square = [[2, 2], [4, 1], [0, 0], [4, 4], [5, 0], [-1, 0], [0, 5], [0, -1], [2, 5]];
  const places = [IN, ON, ON, ON, OUT, OUT, OUT, OUT, OUT];
  for (const contour of [SQUARE, [...SQUARE].reverse(), [...SQUARE, SQUARE[0]]]) {
    located([contour], square, places);
  }
  located(HALL, POINTS, WORDS);
  const turned = [HALL[0], [...HALL[1]].reverse()];
  located(turned, POINTS, WORDS, { fill: "evenodd" });
  located(turned, POINTS, [IN, IN, IN, OUT]);
});

test("each fill rule", () => {
  const points = [[1, 1], [4, 4], [3, 5], [25, 5], [29, 5], [0, 9]];
  const expected = {
    evenodd: [IN, OUT, ON, IN, ON, ON],
    nonzero: [IN, IN, IN, IN, ON, ON],
    positive: [IN, IN, IN, OUT, OUT, ON],
    negative: [OUT, OUT, OUT, IN, ON, OUT],
  };
  const halves = {
    evenodd: [IN, IN, ON, OUT],
    nonzero: [IN, IN, ON, OUT],
    positive: [IN, OUT, ON, OUT],
    negative: [OUT, IN, ON, OUT],
  };
  for (const [fill, words] of Object.entries(expected)) {
    located(WOUND, points, words, { fill });
    located([BOW], [[1, 2], [3, 2], [2, 2], [2, 3]], halves[fill], { fill });
  }
  located(WOUND, points, expected.nonzero);
});

test("contours as they are given", () => {
  const told = (shape, points, options) => polyover.prepare(shape, options).locate(points);
  // (lower edges of two triangles cross in (1, 1/3), above (1, 0))
  const thirds = [[[0, 0], [3, 1], [0, 3]], [[0, 1], [3, -1], [3, 1]]];
  const atThirds = [[1, 0], [2, 0], [1, 1], [2, 1], [0, 1], [0, 0], [3, 1], [2, 2]];
  assert.deepEqual(told(thirds, atThirds), [OUT, IN, IN, IN, ON, ON, ON, OUT]);
  assert.deepEqual(told(thirds, atThirds, { fill: "evenodd" }), [OUT, IN, ON, ON, ON, ON, ON, OUT]);
  // (upper edges cross in (3, 6/7), below (3, 1); the second triangle runs clockwise)
  const sevenths = [[[0, 0], [7, -3], [7, 2]], [[-3, 0], [4, 1], [4, -4]]];
  const atSevenths = [[3, 1], [3, 0], [4, 1], [4, 0], [5, 1], [-1, 0], [-3, 0], [7, 2]];
  assert.deepEqual(told(sevenths, atSevenths, { fill: "positive" }), [OUT, OUT, ON, ON, IN, OUT, OUT, ON]);
  assert.deepEqual(told(sevenths, atSevenths, { fill: "negative" }), [OUT, OUT, OUT, OUT, OUT, IN, ON, OUT]);
  // ((3, 1) is inside a sliver that rounding loses)
  const sliver = [[[0, 0], [7, 2], [5, 2]], [[-3, 0], [4, -4], [4, 1]]];
  assert.deepEqual(told(sliver, [[3, 1], [2, 1], [6, 2]]), [IN, OUT, ON]);
  assert.deepEqual(told(sliver, [[3, 1]], { solver: "snapped" }), [ON]);
  const polygons = sliver.map(([first, ...others]) => [[first, ...others, first]]);
  const geometry = { type: "MultiPolygon", coordinates: polygons };
  for (const fill of ["evenodd", "nonzero", "positive", "negative"]) {
    assert.deepEqual(told(geometry, [[3, 1], [2, 1], [2, 0]], { fill }), [IN, OUT, IN]);
  }
  assert.deepEqual(polyover.locate(geometry, [[3, 1], [2, 1], [2, 0]]), [IN, OUT, IN]);
});

test("contours that meet, and none", () => {
  located([SQUARE, OTHER], [[3, 3], [2, 3], [4, 3], [4, 2], [4, 1], [5, 1]], [IN, IN, IN, ON, ON, OUT]);
  located([SQUARE, OTHER], [[3, 3], [2, 3], [4, 2], [1, 1]], [OUT, ON, ON, IN], { fill: "evenodd" });
  for (const shape of [[], [[]], [[[1, 1]]], [[[0, 0], [4, 4]]], [SQUARE, [...SQUARE].reverse()]]) {
    located(shape, [[1, 1], [0, 0], [2, 2]], [OUT, OUT, OUT]);
  }
  located([SQUARE], [], []);
});

test("the range", () => {
  const half = [[-LIMIT, -LIMIT], [LIMIT, -LIMIT], [-LIMIT, LIMIT]];
  const places = [ON, OUT, IN, ON, OUT];
  located([half], [[0n, 0n], [1n, 0n], [-1n, 0n], [LIMIT, -LIMIT], [LIMIT, LIMIT]], places);
  // (contours of one kind are asked by points of another)
  located([half], [[0, 0], [1, 0], [-1, 0]], places.slice(0, 3));
  located([SQUARE], [[LIMIT, 0n], [4n, 1n]], [OUT, ON]);
  // (each number of 32 bits is in the range of 64)
  const [least, most] = [-(2 ** 31), 2 ** 31 - 1];
  const wide = polyover.prepare(new Flat(new Int32Array([least, least, most, least, least, most]), [3]));
  assert.deepEqual(wide.locate(new Int32Array([least, most, 0, -1, 0, 0, most, least])), new Uint8Array([2, 2, 0, 2]));
});

test("arrays and geometries", () => {
  const polygon = { type: "Polygon", coordinates: HALL.map((ring) => [...ring, ring[0]]) };
  for (const kind of KINDS) {
    const number = kind === BigInt64Array ? BigInt : Number;
    const numbers = kind.from(HALL.flat(2), number);
    const prepared = polyover.prepare(new Flat(numbers, [4, 8]));
    numbers.fill(number(0));
    for (const other of KINDS) {
      const points = other.from(POINTS.flat(), other === BigInt64Array ? BigInt : Number);
      const found = prepared.locate(points);
      assert.ok(found instanceof Uint8Array);
      assert.deepEqual([...found].map((at) => LOCATIONS[at]), WORDS);
      assert.deepEqual(prepared.locate(points, { answer: "lists" }), WORDS);
      assert.deepEqual(prepared.contains(points), new Uint8Array([0, 0, 1, 0]));
      assert.deepEqual([...points].map(Number), POINTS.flat());
    }
    assert.deepEqual(prepared.locate(POINTS), WORDS);
    assert.deepEqual(prepared.locate(POINTS.map((point) => point.map(BigInt))), WORDS);
    prepared.free();
  }
  const prepared = polyover.prepare(polygon);
  assert.ok(prepared instanceof Prepared);
  assert.deepEqual(prepared.locate({ type: "MultiPoint", coordinates: POINTS }), WORDS);
  assert.deepEqual(prepared.contains({ type: "Point", coordinates: [1, 1] }), [true]);
  assert.deepEqual(prepared.contains(POINTS, { answer: "arrays" }), new Uint8Array([0, 0, 1, 0]));
});

test("floats by a scale", () => {
  const square = [[100, 0], [100.4, 0], [100.4, 0.4], [100, 0.4]];
  const points = [[100.2, 0.2], [100.4, 0.1], [100.44, 0.1], [100.46, 0.1], [0, 0]];
  const scaled = polyover.scaled(10, [100, 0]);
  const prepared = scaled.prepare([square], { fill: "positive" });
  assert.deepEqual(prepared.locate(points), [IN, ON, ON, OUT, OUT]);
  assert.deepEqual([...prepared.locate(new Float64Array(points.flat()))], [1, 2, 2, 0, 0]);
  refused(() => prepared.locate([[0, 0], [1, NaN]]), "points, point 2: NaN is no finite number");
  refused(() => prepared.locate([[1e300, 0]]), "points, point 1: 1e+300 at this scale is out of range");
});

test("what is refused", () => {
  refused(() => polyover.prepare(3), "shape: 3 in the place of a list of contours");
  refused(() => polyover.prepare([SQUARE, [[0.5, 0], [1, 0], [1, 1]]]), "shape: contour 2, point 1: 0.5 is no whole");
  refused(() => polyover.prepare([SQUARE], { fill: "odd" }), 'unknown fill rule "odd"');
  refused(() => polyover.prepare([SQUARE], { solver: "snap" }), 'unknown solver "snap"');
  refused(() => polyover.prepare([SQUARE], { answer: "lists" }), 'unknown option "answer": one of fill, solver');
  const wide = new Flat(new BigInt64Array([0n, 0n, 1n, LIMIT + 1n, 5n, 5n]), [3]);
  refused(() => polyover.prepare(wide), "shape: contour 1, point 2: 4611686018427387904 is out of range");
  assert.throws(() => polyover.prepare(UNSETTLED, { solver: "rounds" }), NotSettled);
  const prepared = polyover.prepare([SQUARE]);
  refused(() => prepared.locate(3), "points: 3 in the place of a list of points");
  refused(() => prepared.locate([[1, 1], 3]), "points, point 2: 3");
  refused(() => prepared.contains([[0, 0], [1, 0.5]]), "points, point 2: 0.5 is no whole number");
  refused(() => prepared.locate([[0n, LIMIT + 1n]]), "points, point 1: 4611686018427387904 is out of range");
  refused(() => prepared.locate(new BigInt64Array([0n, 0n, 1n, -LIMIT - 1n])), "points, point 2:");
  refused(() => prepared.locate(new Float64Array(3)), "odd count");
  refused(() => prepared.locate([], { fill: "nonzero" }), 'unknown option "fill": one of answer');
  assert.deepEqual(prepared.locate([[2, 2]]), [IN]);
  prepared.free();
  prepared.free();
  refused(() => prepared.locate([[2, 2]]), "the prepared shape was freed");
  refused(() => prepared.contains([]), "the prepared shape was freed");
});

test("memory is given back, and other calls run meanwhile", async () => {
  const fresh = await load();
  const kept = fresh.prepare(HALL);
  for (let times = 0; times < 5_000; times++) {
    const prepared = fresh.prepare(FRAME, { fill: "evenodd" });
    assert.deepEqual(prepared.locate([[1, 0]]), [ON]);
    prepared.free();
    if (times % 100 === 0) {
      fresh.overlay([SQUARE], [OTHER]);
      assert.throws(() => fresh.prepare(UNSETTLED, { solver: "rounds" }), NotSettled);
      assert.deepEqual(kept.locate(POINTS), WORDS);
    }
  }
});

test("many edges and points", AT_MOST, () => {
  // (squares of side 2, apart by 2, in 250 columns: 100,000 edges)
  const contours = [];
  for (let x = 0; x < 1000; x += 4) {
    for (let y = 0; y < 400; y += 4) {
      contours.push([[x, y], [x + 2, y], [x + 2, y + 2], [x, y + 2]]);
    }
  }
  const points = Array.from({ length: 100_000 }, (_, at) => [((at * 7919) % 1006) - 3, ((at * 104_729) % 406) - 3]);
  const begun = process.cpuUsage();
  const found = polyover.prepare(contours).locate(points);
  const { user, system } = process.cpuUsage(begun);
  assert.ok(user + system < 60e6, `${user + system} microseconds`);
  const words = points.map(([x, y]) => {
    const isBeside = x < 0 || y < 0 || x >= 1000 || y >= 400 || x % 4 === 3 || y % 4 === 3;
    return isBeside ? OUT : x % 4 === 1 && y % 4 === 1 ? IN : ON;
  });
  assert.deepEqual(found, words);
});

test("prepared shapes in a worker", AT_MOST, async () => {
  const remote = await load({ worker: true });
  try {
    const [hall, tenths] = await Promise.all([
      remote.prepare(HALL, { fill: "evenodd" }),
      remote.scaled(10).prepare([[[0, 0], [0.4, 0], [0.4, 0.4], [0, 0.4]]]),
    ]);
    assert.ok(hall instanceof RemotePrepared);
    assert.deepEqual(await hall.locate(POINTS), WORDS);
    assert.deepEqual(await tenths.locate([[0.2, 0.2], [0.4, 0.1], [1, 1]]), [IN, ON, OUT]);
    const numbers = new Int32Array(POINTS.flat());
    assert.deepEqual(await hall.contains(numbers), new Uint8Array([0, 0, 1, 0]));
    assert.deepEqual([...numbers], POINTS.flat());
    assert.deepEqual(await (await remote.prepare(flat(BigInt64Array))).locate([[4n, 1n]]), [ON]);
    await assert.rejects(hall.locate([[0.5, 0]]), BadInput);
    await assert.rejects(remote.prepare([SQUARE], { fill: "odd" }), BadInput);
    await assert.rejects(remote.prepare(UNSETTLED, { solver: "rounds" }), NotSettled);
    const last = hall.locate(POINTS);
    hall.free();
    hall.free();
    assert.deepEqual(await last, WORDS);
    await assert.rejects(hall.locate(POINTS), (fault) => fault instanceof BadInput && fault.message.includes("freed"));
    assert.deepEqual(await tenths.contains([[0.2, 0.2]]), [true]);
    remote.end();
    tenths.free();
    await assert.rejects(tenths.locate([[0, 0]]), WorkerEnded);
  } finally {
    remote.end();
  }
});
