/** Arrangements: answers by hand and beside the calls, forms, what is refused, memory; slices by options. */

import assert from "node:assert/strict";
import test from "node:test";
import { Arrangement, BadInput, Flat, FlatShapes, NotSettled, RemoteArrangement, WorkerEnded } from "../polyover.js";
import { load } from "../polyover.js";
import { flat, polyover, rows } from "./there.js";

const { SQUARE, OTHER, FRAME, NESTED, HALL, UNSETTLED } = rows;
const RULES = ["subject", "clip", "intersect", "union", "difference", "inverse_difference", "xor"];
const FILLS = ["evenodd", "nonzero", "positive", "negative"];
const SOLVERS = ["snapped", "rounds"];
const LIMIT = 2n ** 62n - 1n;
const AT_MOST = { timeout: 120_000 };

/** That a call raises BadInput with these words. */
function refused(call, words) {
  assert.throws(call, (fault) => {
    assert.ok(fault instanceof BadInput);
    assert.ok(fault.message.includes(words), `${fault.message} has no ${words}`);
    return true;
  });
}

/** That an arrangement answers as the calls do. */
function compared(calls, subject, clip, how) {
  const both = calls.arrangement(subject, clip, how);
  const looks = [{}, { clockwise: true, keep: true }, { touching: true, minimumArea: 3 }, { answer: "arrays" }];
  for (const rule of RULES) {
    for (const look of looks) {
      const [given, asked] = [{ rule, ...how, ...look }, { rule, ...look }];
      assert.deepEqual(both.overlay(asked), calls.overlay(subject, clip, given));
      assert.deepEqual(both.hierarchy(asked), calls.hierarchy(subject, clip, given));
    }
  }
  assert.deepEqual(both.edges(), calls.edges(subject, clip, how));
  assert.deepEqual(both.edges({ answer: "arrays" }), calls.edges(subject, clip, { ...how, answer: "arrays" }));
  both.free();
}

test("answers by hand", () => {
  for (const solver of SOLVERS) {
    const both = polyover.arrangement([SQUARE], [OTHER], { solver });
    assert.ok(both instanceof Arrangement);
    assert.deepEqual(both.overlay({ rule: "intersect" }), [[[[2, 4], [2, 2], [4, 2], [4, 4]]]]);
    assert.equal(both.overlay().length, 1);
    assert.equal(both.overlay({ rule: "xor" }).length, 2);
    // (two sides of each square cross the other square)
    assert.equal(both.edges().length, 12);
    both.free();
  }
  const alone = polyover.arrangement(NESTED, [], { fill: "evenodd" });
  assert.deepEqual(alone.hierarchy({ rule: "subject" }).links, [[0, 1, 1]]);
});

test("answers beside the calls", () => {
  for (const fill of FILLS) {
    for (const solver of SOLVERS) {
      compared(polyover, [SQUARE], [OTHER], { fill, solver });
      compared(polyover, FRAME, HALL, { fill, solver });
      compared(polyover, [], [], { fill, solver });
    }
  }
  for (const kind of [BigInt64Array, Int32Array, Float64Array]) {
    compared(polyover, flat(kind), flat(kind, OTHER), {});
    assert.ok(polyover.arrangement(flat(kind)).overlay().contours.coordinates instanceof kind);
  }
  compared(polyover.scaled(10, [3, 0]), [[[0, 0], [0.5, 0], [0.5, 0.5]]], [[[0, 0.1], [0.7, 0.1], [0, 0.4]]], {});
  const far = new Flat(new BigInt64Array([-LIMIT, -LIMIT, LIMIT, -LIMIT, LIMIT, LIMIT, -LIMIT, LIMIT]), [4]);
  compared(polyover, far, flat(BigInt64Array), {});
});

test("forms of answers", () => {
  const polygon = { type: "Polygon", coordinates: HALL.map((ring) => [...ring, ring[0]]) };
  const both = polyover.arrangement(polygon, [SQUARE]);
  assert.equal(both.overlay({ rule: "intersect" }).type, "MultiPolygon");
  assert.deepEqual(both.overlay(), polyover.overlay(polygon, [SQUARE]));
  assert.ok(both.overlay({ answer: "arrays" }) instanceof FlatShapes);
  assert.ok(Array.isArray(both.overlay({ answer: "lists" })));
});

test("what is refused", () => {
  refused(() => polyover.arrangement(3), "subject: 3 in the place of a list of contours");
  const half = [[0.5, 0], [1, 0], [1, 1]];
  refused(() => polyover.arrangement([SQUARE], [half]), "clip: contour 1, point 1: 0.5 is no whole");
  refused(() => polyover.arrangement([SQUARE], [], { rule: "xor" }), 'unknown option "rule": one of fill, solver');
  assert.throws(() => polyover.arrangement(UNSETTLED, [], { solver: "rounds" }), NotSettled);
  const both = polyover.arrangement([SQUARE], [OTHER]);
  refused(() => both.overlay({ rule: "join" }), 'unknown rule "join"');
  refused(() => both.overlay({ solver: "rounds" }), 'unknown option "solver"');
  refused(() => both.overlay({ fill: "evenodd" }), 'unknown option "fill"');
  refused(() => both.edges({ rule: "xor" }), 'unknown option "rule"');
  both.free();
  both.free();
  for (const call of [() => both.overlay(), () => both.hierarchy(), () => both.edges()]) {
    refused(call, "the arrangement was freed");
  }
});

test("memory is given back, and other calls run meanwhile", async () => {
  const fresh = await load();
  const kept = fresh.arrangement(HALL);
  const expected = kept.overlay();
  for (let times = 0; times < 5_000; times++) {
    const both = fresh.arrangement(FRAME, [SQUARE], { fill: "evenodd" });
    both.overlay({ rule: "xor" });
    both.free();
    if (times % 100 === 0) {
      assert.throws(() => fresh.arrangement(UNSETTLED, [], { solver: "rounds" }), NotSettled);
      assert.deepEqual(kept.overlay(), expected);
    }
  }
});

test("arrangements in a worker", AT_MOST, async () => {
  const remote = await load({ worker: true });
  try {
    const [both, tenths] = await Promise.all([
      remote.arrangement([SQUARE], [OTHER]),
      remote.scaled(10).arrangement([[[0, 0], [0.5, 0], [0.5, 0.5]]]),
    ]);
    assert.ok(both instanceof RemoteArrangement);
    assert.deepEqual(await both.overlay({ rule: "xor" }), polyover.overlay([SQUARE], [OTHER], { rule: "xor" }));
    assert.ok((await both.overlay({ answer: "arrays" })) instanceof FlatShapes);
    assert.deepEqual(await both.edges(), polyover.edges([SQUARE], [OTHER]));
    assert.deepEqual((await both.hierarchy()).links, []);
    // (it begins with the larger end of the upper edge at the least point)
    assert.deepEqual(await tenths.overlay(), [[[[0.5, 0.5], [0, 0], [0.5, 0]]]]);
    await assert.rejects(both.overlay({ rule: "join" }), BadInput);
    both.free();
    both.free();
    await assert.rejects(both.edges(), (fault) => fault.message === "the arrangement was freed");
    assert.equal((await tenths.edges()).length, 3);
    const waiting = assert.rejects(tenths.overlay(), WorkerEnded);
    remote.end();
    await waiting;
  } finally {
    remote.end();
  }
});

// ---- slices

// (a square of 400, a line across it, which leaves two halves of 200, and a closed line round 100 of it)
const WIDE = [[-10, -10], [10, -10], [10, 10], [-10, 10]];
const ACROSS = [[-20, 0], [20, 0]];
const ROUND = [[-5, -5], [-5, 5], [5, 5], [5, -5], [-5, -5]];
const LOWER = [[10, -10], [10, 0], [-10, 0], [-10, -10]];
const UPPER = [[10, 0], [10, 10], [-10, 10], [-10, 0]];

test("slices in either direction, and without small contours", () => {
  for (const solver of SOLVERS) {
    const back = [[[...LOWER].reverse()], [[...UPPER].reverse()]];
    assert.deepEqual(polyover.slice([WIDE], [ACROSS], { solver }), [[LOWER], [UPPER]]);
    assert.deepEqual(polyover.slice([WIDE], [ACROSS], { solver, clockwise: true }), back);
    assert.deepEqual(polyover.slice([WIDE], [ACROSS], { solver, minimumArea: 200 }), [[LOWER], [UPPER]]);
    assert.deepEqual(polyover.slice([WIDE], [ACROSS], { solver, minimumArea: 201n }), []);
  }
  const [ring, inner] = polyover.slice([WIDE], [ROUND], { minimumArea: 100 });
  assert.deepEqual([ring.length, inner.length], [2, 1]);
  assert.deepEqual(polyover.slice([WIDE], [ROUND], { minimumArea: 101 }), [[ring[0]]]);
  const narrow = new Flat(Int32Array.from(WIDE.flat()), [4]);
  const found = polyover.slice(narrow, new Flat(Int32Array.from(ACROSS.flat()), [2]), { clockwise: true });
  assert.deepEqual([...found], [[[...LOWER].reverse()], [[...UPPER].reverse()]]);
  assert.deepEqual(polyover.slice([WIDE], [ACROSS], { minimumArea: 2n ** 100n }), []);
  refused(() => polyover.slice([WIDE], [ACROSS], { keep: true }), 'unknown option "keep"');
});
