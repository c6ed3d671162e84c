/**
 * Relations of contours as they are given: worked by hand, and those of made calls, which are the library's for C, for
 * each kind of coordinates. POLYOVER_MADE says how many calls are made, 200 if it is not set.
 */

import assert from "node:assert/strict";
import { execFileSync } from "node:child_process";
import { existsSync } from "node:fs";
import { fileURLToPath } from "node:url";
import test from "node:test";
import { BadInput, Flat, load } from "../polyover.js";
import { polyover } from "./there.js";

const COUNT = process.env.POLYOVER_MADE ?? "200";
const LIBRARY = process.env.POLYOVER_LIBRARY ?? fileURLToPath(new URL("../../out/libpolyover.so", import.meta.url));
const SKIPPED = existsSync(LIBRARY) ? false : "no library for C (make -C c)";
// in the order of their bits
const NAMES = ["intersects", "interiorsIntersect", "touches", "pointIntersects", "within", "disjoint", "covers"];
const FILLS = ["nonzero", "evenodd", "positive", "negative"];

/** The subject fills the strip between y = 3x/2 - 1 and the lower of y = 3x - 1 and y = x + 1. */
const SLIVER = [[0, -1], [4, 5], [1, 2]];
/** It runs clockwise; between y = 6x/5 and the lower of y = 5x/4 and y = x + 1, and so in the strip at x = 2. */
const TURNED = [[0, 0], [4, 5], [5, 6]];
/** By even-odd both meet in (1/3, 2/3) alone, where y = 2x, y = 5x - 1, y = 1 - x and y = 2 - 4x cross. */
const BOW = [[0, 0], [1, 2], [1, 4], [0, -1]];
const OTHER_BOW = [[0, 1], [1, 0], [1, -2], [0, 2]];
/** The border of these two is the edge from (0, 0) to (5, 2); (3, 1) is below it, and (2, 1) above. */
const BELOW = [[0, 0], [3, 1], [5, 2]];
const ABOVE = [[0, 0], [5, 2], [2, 1]];
const AROUND = [[0, 0], [5, 0], [5, 2]];
/** (2, 1) is inside: at y = 1 it reaches from x = 3/2 to 5/2. */
const CUP = [[1, 2], [2, 0], [3, 2]];
const NEEDLE = [[0, 0], [3, 2], [2, 1]];

const box = (x, y, side) => [[x, y], [x + side, y], [x + side, y + side], [x, y + side]];
const polygon = (...rings) => ({ type: "Polygon", coordinates: rings });
const held = (told) => NAMES.filter((name) => told[name]);
const bitsOf = (told) => NAMES.reduce((sum, name, at) => sum + (told[name] ? 2 ** at : 0), 0);

const OVERLAPS = ["intersects", "interiorsIntersect"];
const TOUCHES = ["intersects", "touches"];
const WORKED = [
  ["a needle whose end is inside", CUP, NEEDLE, { nonzero: OVERLAPS, negative: ["disjoint"] }],
  ["slivers that overlap", SLIVER, TURNED, { nonzero: OVERLAPS, evenodd: OVERLAPS }],
  ["one of them runs clockwise", SLIVER, TURNED, { positive: ["disjoint"], negative: ["disjoint"] }],
  ["bows that meet at thirds", BOW, OTHER_BOW, { evenodd: [...TOUCHES, "pointIntersects"] }],
  ["shapes along an edge", BELOW, ABOVE, { nonzero: TOUCHES, evenodd: TOUCHES }],
  ["a shape in another", BELOW, AROUND, { nonzero: [...OVERLAPS, "within"], evenodd: [...OVERLAPS, "within"] }],
  ["a shape round another", AROUND, BELOW, { nonzero: [...OVERLAPS, "covers"], positive: [...OVERLAPS, "covers"] }],
  ["a shape and itself", CUP, CUP, { evenodd: [...OVERLAPS, "within", "covers"] }],
  ["corners that touch", box(0, 0, 2), box(2, 2, 2), { nonzero: [...TOUCHES, "pointIntersects"] }],
  ["a corner on an edge", box(0, 0, 4), [[4, 1], [6, 0], [6, 3]], { positive: [...TOUCHES, "pointIntersects"] }],
  ["shapes apart", box(0, 0, 2), box(3, 0, 2), { nonzero: ["disjoint"] }],
];

for (const [name, subject, clip, byFill] of WORKED) {
  test(`relations of ${name}`, () => {
    for (const [fill, expected] of Object.entries(byFill)) {
      const told = polyover.relate([subject], [clip], { fill });
      assert.deepEqual(Object.keys(told), NAMES);
      assert.deepEqual(held(told), NAMES.filter((each) => expected.includes(each)), fill);
      for (const relation of NAMES) {
        assert.equal(polyover.relateOne(relation, [subject], [clip], { fill }), expected.includes(relation), relation);
      }
    }
  });
}

test("one relation", () => {
  // (a square, one at its corner, and one along its side)
  const [square, corner, beside] = [box(0, 0, 2), box(2, 2, 2), box(2, 0, 2)];
  const one = (relation, clip, options) => polyover.relateOne(relation, [square], [clip], options);
  assert.deepEqual(NAMES.filter((name) => one(name, corner)), [...TOUCHES, "pointIntersects"]);
  assert.deepEqual(NAMES.filter((name) => one(name, beside)), TOUCHES);
  assert.deepEqual(NAMES.filter((name) => one(name, square)), [...OVERLAPS, "within", "covers"]);
  for (const solver of ["snapped", "rounds", "exact"]) {
    assert.deepEqual(NAMES.filter((name) => one(name, beside, { solver })), TOUCHES);
  }
  assert.equal(polyover.relateOne("within", polygon(box(1, 1, 1)), polygon(square), { fill: "negative" }), true);
  const tenths = [[[[0, 0], [0.1, 0], [0, 0.1]]], [[[0.1, 0], [1, 0], [1, 1]]]];
  assert.equal(polyover.scaled(10).relateOne("touches", ...tenths), true);
  for (const relation of ["interiors_intersect", "", undefined, 1, "toString"]) {
    assert.throws(() => one(relation, corner), { name: "BadInput", message: /^unknown relation .*: one of inters/ });
  }
  assert.throws(() => one("within", [[0, 0], [1.5, 0], [0, 1]]), { message: /^clip: contour 1, point 2: / });
  assert.throws(() => one("within", corner, { rule: "xor" }), BadInput);
});

test("relations of nothing", () => {
  for (const fill of FILLS) {
    assert.deepEqual(held(polyover.relate([], [], { fill })), ["disjoint"]);
    assert.deepEqual(held(polyover.relate([box(0, 0, 2)], [], { fill })), ["disjoint"]);
    assert.deepEqual(held(polyover.relate([[]], [[[1, 1]], [[0, 0], [4, 4]]], { fill })), ["disjoint"]);
  }
});

test("relations at the ends of the range", () => {
  const most = 2n ** 62n - 1n;
  const left = [[-most, -most], [0n, -most], [0n, most], [-most, most]];
  const right = [[0n, -most], [most, most], [0n, most]];
  assert.deepEqual(held(polyover.relate([left], [right])), TOUCHES);
  // (the line from the least corner to the greatest has (0, 0), and passes below (-1, 0) and (most - 1, most))
  const low = [[-most, -most], [most, -most], [most, most]];
  assert.deepEqual(held(polyover.relate([low], [[[-1n, 0n], [most - 1n, most], [-most, most]]])), ["disjoint"]);
  assert.deepEqual(held(polyover.relate([low], [[[0n, 0n], [most - 1n, most], [-most, most]]])), [
    ...TOUCHES,
    "pointIntersects",
  ]);
  const beyond = [[[0n, 0n], [most + 1n, 0n], [0n, 1n]]];
  assert.throws(() => polyover.relate(beyond, [CUP]), { name: "BadInput", message: /^subject: contour 1, point 2: / });
  const narrow = new Flat(Int32Array.of(0, 0, 2 ** 30, 0, 0, 1), [3]);
  assert.throws(() => polyover.relate(narrow, narrow), { message: /1073741824 is out of range: .* in an Int32Array/ });
});

test("a solver asks for relations of the arrangement", () => {
  for (const solver of ["snapped", "rounds"]) {
    // (they meet in whole points alone: nothing is rounded)
    assert.deepEqual(held(polyover.relate([BELOW], [ABOVE], { solver })), TOUCHES);
    assert.deepEqual(held(polyover.relate([CUP], [NEEDLE], { solver })), OVERLAPS);
    // (at the limit no power is left: a cut at (3/2, 1) is rounded to (2, 1), and the clip falls to a line)
    const far = 2n ** 62n - 1n;
    const big = (path) => path.map(([x, y]) => [BigInt(x), BigInt(y)]);
    const corner = [[far, far], [far, far - 1n], [far - 1n, far]];
    const both = [[big(CUP), corner], [big(NEEDLE)]];
    assert.deepEqual(held(polyover.relate(...both, { solver })), ["disjoint"]);
    assert.deepEqual(held(polyover.relate(...both)), OVERLAPS);
  }
  for (const solver of [undefined, "exact"]) {
    assert.deepEqual(held(polyover.relate([BOW], [OTHER_BOW], { fill: "evenodd", solver })), [
      ...TOUCHES,
      "pointIntersects",
    ]);
  }
  assert.throws(() => polyover.relate([CUP], [NEEDLE], { solver: "exactly" }), /one of snapped, rounds, exact/);
  assert.throws(() => polyover.overlay([CUP], [NEEDLE], { solver: "exact" }), BadInput);
  assert.throws(() => polyover.relate([CUP], [NEEDLE], { rule: "xor" }), BadInput);
});

test("relations of geometries", () => {
  const both = { type: "GeometryCollection", geometries: [polygon(SLIVER), polygon(box(0, -1, 1))] };
  // (a ring's direction is not asked; no polygon is joined, and none moves)
  for (const fill of FILLS) {
    assert.deepEqual(held(polyover.relate(both, polygon(TURNED), { fill })), OVERLAPS, fill);
    assert.deepEqual(held(polyover.relate(polygon(TURNED), both, { fill })), OVERLAPS, fill);
    const ring = polygon(box(0, 0, 9), box(3, 3, 3));
    assert.deepEqual(held(polyover.relate(ring, polygon(box(3, 3, 3)), { fill })), TOUCHES);
  }
  assert.deepEqual(held(polyover.relate(polygon(CUP), [NEEDLE])), OVERLAPS);
});

test("relations of floats", () => {
  const tenths = (path) => path.map(([x, y]) => [x / 10, y / 10]);
  const told = polyover.scaled(10).relate([tenths(BOW)], [tenths(OTHER_BOW)], { fill: "evenodd" });
  assert.deepEqual(held(told), [...TOUCHES, "pointIntersects"]);
});

test("relations in a worker", async () => {
  const remote = await load({ worker: true });
  try {
    for (const [, subject, clip, byFill] of WORKED) {
      for (const [fill, expected] of Object.entries(byFill)) {
        const told = await remote.relate([subject], [clip], { fill });
        assert.deepEqual(held(told), NAMES.filter((each) => expected.includes(each)));
        assert.equal(await remote.relateOne("touches", [subject], [clip], { fill }), expected.includes("touches"));
      }
    }
    assert.deepEqual(held(await remote.relate([CUP], [NEEDLE], { solver: "snapped" })), OVERLAPS);
    assert.deepEqual(held(await remote.scaled(3).relate([SLIVER], [TURNED], { fill: "positive" })), ["disjoint"]);
    await assert.rejects(remote.relate([CUP], 3), BadInput);
  } finally {
    remote.end();
  }
});

/** Paths in arrays of a kind. */
function flat(paths, kind) {
  let count = 0;
  const number = kind === BigInt64Array ? BigInt : Number;
  return new Flat(kind.from(paths.flat(2), number), paths.map((path) => (count += path.length)));
}

test("made relations are those of the library for C", { skip: SKIPPED }, () => {
  const script = fileURLToPath(new URL("./relations.py", import.meta.url));
  const text = execFileSync("python3", [script, COUNT], { encoding: "utf8", maxBuffer: 2 ** 30 });
  const lines = text.trim().split("\n");
  assert.equal(lines.length, Number(COUNT));
  const found = new Set();
  for (const line of lines) {
    const { subject, clip, fill, bits, is32 } = JSON.parse(line, (key, value) =>
      typeof value === "string" && key !== "fill" ? BigInt(value) : value,
    );
    const isBig = typeof subject[0][0][0] === "bigint";
    const kinds = isBig ? [BigInt64Array] : [BigInt64Array, Float64Array, ...(is32 ? [Int32Array] : [])];
    assert.equal(bitsOf(polyover.relate(subject, clip, { fill })), bits, line);
    const each = NAMES.map((name) => [name, polyover.relateOne(name, subject, clip, { fill })]);
    assert.equal(bitsOf(Object.fromEntries(each)), bits, line);
    for (const kind of kinds) {
      const told = polyover.relate(flat(subject, kind), flat(clip, kind), { fill });
      assert.equal(bitsOf(told), bits, `${kind.name} ${line}`);
    }
    found.add(bits);
  }
  // (they are of many kinds)
  assert.ok(Number(COUNT) < 200 || found.size >= 6, [...found].join(" "));
});
