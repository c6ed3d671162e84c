/** Wrong arguments: each is told by its class, and by the place where it stands. */

import assert from "node:assert/strict";
import test from "node:test";
import { BadInput, Flat, FlatShapes, LibraryMissing, NotResolved, PolyoverError, load } from "../polyover.js";
import { polyover, rows } from "./there.js";

const { SQUARE, OTHER } = rows;
const BOX = { type: "Polygon", coordinates: [[[0, 0], [4, 0], [4, 4], [0, 4], [0, 0]]] };

/** That a call raises BadInput with these words. */
function refused(call, words) {
  assert.throws(call, (fault) => {
    assert.ok(fault instanceof BadInput && fault instanceof PolyoverError && fault instanceof Error);
    assert.equal(fault.name, "BadInput");
    assert.ok(fault.message.includes(words), `${fault.message} has no ${words}`);
    return true;
  });
}

/** A contour with a point in the place of one of the square's. */
function withPoint(point) {
  return [SQUARE, [[0, 0], [1, 1], point]];
}

test("what is no list of contours", () => {
  for (const thing of [3, null, "0 0 4 4", true, () => 0, Symbol("no")]) {
    refused(() => polyover.overlay(thing), "in the place of a list of contours");
    refused(() => polyover.clip([SQUARE], thing), "in the place of a list of lines");
  }
  refused(() => polyover.overlay([SQUARE, 3]), "subject: contour 2: 3 in the place of a list of points");
  refused(() => polyover.overlay(SQUARE), "subject: contour 1, point 1: 0 is no point of two numbers");
  refused(() => polyover.clip([SQUARE], [SQUARE, 3]), "lines: line 2: 3");
  refused(() => polyover.locate([SQUARE], 3), "points: 3 in the place of a list of points");
  refused(() => polyover.locate([SQUARE], [[1, 1], 3]), "points, point 2: 3");
  refused(() => polyover.locate([SQUARE], new Float64Array(3)), "odd count");
});

test("an iterator is gone over once", () => {
  const square = () => [SQUARE].values();
  const told = "an iterator that was gone over before in the place of a list of";
  const one = square();
  refused(() => polyover.overlay(one, one), `clip: ${told} contours`);
  refused(() => polyover.scaled(10).simplify(one), `subject: ${told} contours`);
  const points = [[1, 1]].values();
  assert.deepEqual(polyover.locate(square(), points), ["inside"]);
  refused(() => polyover.locate(square(), points), `points: ${told} points`);
  const again = { [Symbol.iterator]: square };
  assert.deepEqual(polyover.overlay(again, again), polyover.overlay([SQUARE]));
  refused(() => polyover.overlay([SQUARE, , SQUARE]), "subject: contour 2: undefined in the place of a list of points");
});

test("what is no point", () => {
  for (const point of [[], [1], [1, 2, 3], "11", null, { x: 1, y: 2 }]) {
    refused(() => polyover.overlay([], withPoint(point)), "clip: contour 2, point 3:");
  }
  for (const point of [["1", 2], [undefined, 1], [1, null], [true, 1], [{}, 1], [1n, "2"]]) {
    refused(() => polyover.relate(withPoint(point), []), "subject: contour 2, point 3:");
  }
});

test("what is no whole number in the range", () => {
  refused(() => polyover.overlay(withPoint([0.5, 1])), "contour 2, point 3: 0.5 is no whole number: scaled()");
  for (const calls of [polyover, polyover.scaled(10)]) {
    refused(() => calls.overlay([[[0, 0], [1n, 2], [0.5, 1]]]), "point 3: 0.5 is no whole number: beside a BigInt all");
    refused(() => calls.overlay([[[0.5, 0], [1n, 2], [0, 1]]]), "point 1: 0.5 is no whole number: beside a BigInt all");
  }
  for (const value of [NaN, Infinity, -Infinity]) {
    refused(() => polyover.overlay(withPoint([1, value])), `contour 2, point 3: ${value} is no finite number`);
    refused(() => polyover.scaled(10).overlay(withPoint([1, value])), `point 3: ${value} is no finite number`);
  }
  for (const value of [2 ** 53, -(2 ** 53), 1e300]) {
    refused(() => polyover.simplify(withPoint([value, 1])), `${value} is out of range`);
  }
  for (const value of [2n ** 62n, -(2n ** 62n), 2n ** 64n, 10n ** 30n]) {
    refused(() => polyover.edges(withPoint([1, value])), `contour 2, point 3: ${value} is out of range`);
  }
  refused(() => polyover.scaled(2 ** 62).overlay(withPoint([1, 1])), "4 at this scale is out of range");
  const most = 2n ** 62n - 1n;
  assert.equal(polyover.overlay([[[-most, -most], [most, -most], [most, most], [-most, most]]]).length, 1);
});

test("BigInts that are no floats are not rounded at a scale", () => {
  const calls = polyover.scaled(1);
  const [even, odd] = [2n ** 53n, 2n ** 53n + 1n];
  const told = "9007199254740993 is no float, which scaled() takes";
  refused(() => calls.overlay(withPoint([odd, 1n])), `subject: contour 2, point 3: ${told}`);
  const array = new BigInt64Array([0n, 0n, 4n, 0n, odd, 4n]);
  refused(() => calls.relate([SQUARE], new Flat(array, [3])), `clip: contour 1, point 3: ${told}`);
  refused(() => calls.prepare([SQUARE]).locate([[0n, odd]]), `points, point 1: ${told}`);
  assert.deepEqual(calls.simplify([[[0n, 0n], [even, 0n], [even, 4n]]])[0][0][1], [2 ** 53, 0]);
});

test("arrays that do not fit any more", () => {
  const [coordinates, ends] = [new Int32Array([0, 0, 4, 0, 4, 4, 0, 4]), new Uint32Array([2, 4])];
  const flat = new Flat(coordinates, ends);
  ends[0] = 9;
  refused(() => polyover.overlay([SQUARE], flat), "clip: ends: 4 is below the one before it");
  ends.set([1, 3]);
  refused(() => polyover.scaled(10).simplify(flat), "subject: ends: they rise to 3, and there are 4 points");
});

test("arrays that are out of range, or do not fit", () => {
  const wide = new Int32Array([0, 0, 1, 2 ** 30, 5, 5]);
  refused(() => polyover.overlay(new Flat(wide, [3])), "contour 1, point 2: 1073741824 is out of range");
  const big = new BigInt64Array([0n, 0n, 1n, 1n, 2n ** 62n, 5n]);
  refused(() => polyover.isResolved(new Flat(big, [1, 3])), "contour 2, point 2: 4611686018427387904 is out of range");
  refused(() => polyover.locate([SQUARE], big), "points, point 3");
  refused(() => new Flat([0, 0], [1]), "coordinates: no");
  refused(() => new Flat(new Uint8Array(2), [1]), "coordinates: no");
  refused(() => new Flat(new Float64Array(4), [1]), "they rise to 1, and there are 2 points");
  refused(() => new Flat(new Float64Array(3), [1]), "they rise to 1");
  refused(() => new Flat(new Float64Array(4), [2, 1]), "1 is below the one before it");
  refused(() => new Flat(new Float64Array(2), [-1]), "-1 is no count");
  refused(() => new Flat(new Float64Array(2), [0.5]), "0.5 is no count");
  for (const end of [null, "1", true, [1]]) {
    refused(() => new Flat(new Float64Array(2), [end]), "is no count");
  }
  refused(() => new Flat(new Float64Array(2), 1), "ends: no list");
  refused(() => new FlatShapes(new Flat(new Float64Array(2), [1]), [2]), "they rise to 2, and there are 1 contours");
});

test("values are told as a program has them", () => {
  refused(() => polyover.overlay([[NaN]]), "subject: contour 1, point 1: NaN is no point of two numbers");
  refused(() => polyover.overlay([[[NaN]]]), "subject: contour 1, point 1: [NaN] is no point");
  refused(() => polyover.overlay([[[1n, -Infinity, 3]]]), "point 1: [1n,-Infinity,3] is no point");
  refused(() => polyover.overlay({ ...BOX, coordinates: [[[0, NaN]]] }), "ring 1, point 1: [0,NaN] is no point");
  refused(() => polyover.overlay([], [], { rule: NaN }), "unknown rule NaN");
  refused(() => polyover.overlay([], [], { rule: null }), "unknown rule null");
  refused(() => polyover.relate([], [], { solver: null }), "unknown solver null");
  refused(() => polyover.simplify([], { touching: null }), "touching: null is neither true nor false");
  refused(() => polyover.overlay([], [], { minimumArea: NaN }), "the minimum area NaN is no whole number");
  refused(() => polyover.scaled(NaN), "the scale NaN is no finite number");
  refused(() => polyover.scaled(1, [NaN, 1]), "the origin [NaN,1] is no point");
  refused(() => polyover.simplify([], { clockwise: { a: NaN, b: 1n } }), 'clockwise: {"a":"NaN","b":"1"} is neither');
  const looped = [];
  looped.push(looped);
  refused(() => polyover.overlay([looped]), "is no point of two numbers");
});

test("cells that do not fit", () => {
  for (const side of [0, -1, 0n]) {
    refused(() => polyover.tiles([SQUARE], side, 1), `width: ${side}`);
    refused(() => polyover.tiles([SQUARE], 1, side), `height: ${side}`);
  }
  for (const side of [0.5, NaN, "1", null, 2 ** 60]) {
    refused(() => polyover.tiles([SQUARE], 1, side), "is no whole number");
  }
  refused(() => polyover.scaled(10).tiles([SQUARE], 0.04, 1), "width: 0.04 at this scale is not at least 1");
  refused(() => polyover.scaled(1).tiles([SQUARE], 0.5, 1), "width: 0.5 at this scale is not at least 1");
  refused(() => polyover.scaled(10).tiles([SQUARE], Infinity, 1), "width: Infinity is no finite number");
  const long = [[[0, 0], [1002, 0], [0, 1]]];
  refused(() => polyover.tiles(long, 1, 1), "cells of 1 by 1 do not fit: more than 1,000 lines in a direction");
  refused(() => polyover.tiles([SQUARE, [[0, 0], [0.5, 1]]], 1, 1), "shape: contour 2, point 2: 0.5 is no whole");
});

test("arrays that are detached", () => {
  for (const kind of [BigInt64Array, Int32Array, Float64Array]) {
    const numbers = new kind(8);
    const group = new Flat(numbers, new Uint32Array([4]));
    structuredClone(numbers, { transfer: [numbers.buffer] });
    refused(() => polyover.overlay(group), "subject: the array is detached");
    refused(() => polyover.overlay([], group), "clip: the array is detached");
    refused(() => polyover.clip([SQUARE], group), "lines: the array is detached");
    refused(() => polyover.locate([SQUARE], numbers), "points: the array is detached");
    refused(() => polyover.prepare([SQUARE]).locate(numbers), "points: the array is detached");
    refused(() => new Flat(numbers, [4]), "coordinates: the array is detached");
  }
  const ends = new Uint32Array([4]);
  const group = new Flat(new Int32Array(8), ends);
  const shapes = new FlatShapes(group, new Uint32Array([1]));
  structuredClone(ends, { transfer: [ends.buffer] });
  refused(() => polyover.overlay(group), "subject: ends: the array is detached");
  refused(() => new Flat(new Int32Array(8), ends), "ends: the array is detached");
  refused(() => new FlatShapes(shapes.contours, ends), "shape ends: the array is detached");
});

test("wrong options of load", async () => {
  for (const [options, told] of [
    [{ wrker: true }, 'unknown option "wrker": one of wasm, worker'],
    [{ worker: 1 }, "worker: 1 is neither true nor false"],
    [3, "options: 3 in the place of an object"],
    [null, "options: null in the place of an object"],
    ["./polyover.wasm", "options:"],
  ]) {
    await assert.rejects(load(options), (fault) => fault instanceof BadInput && fault.message.includes(told));
  }
  const plain = await load({ wasm: undefined, worker: undefined });
  assert.equal(plain.overlay([SQUARE]).length, 1);
});

test("wrong options", () => {
  refused(() => polyover.overlay([], [], { rule: "join" }), 'unknown rule "join": one of subject,');
  refused(() => polyover.overlay([], [], { fill: 1 }), "unknown fill rule 1");
  refused(() => polyover.overlay([], [], { solver: "exact" }), 'unknown solver "exact"');
  refused(() => polyover.overlay([], [], { answer: "text" }), 'unknown answer "text"');
  refused(() => polyover.overlay([], [], { ogc: true }), 'unknown option "ogc"');
  refused(() => polyover.overlay([], [], 3), "options: 3 in the place of an object");
  refused(() => polyover.overlay([], [], "union"), "options:");
  refused(() => polyover.simplify([], { rule: "union" }), 'unknown option "rule"');
  for (const name of ["clockwise", "keep", "touching"]) {
    refused(() => polyover.hierarchy([], [], { [name]: 1 }), `${name}: 1 is neither true nor false`);
  }
  refused(() => polyover.clip([], [], { invert: "yes" }), "invert:");
  for (const minimumArea of [-1, 0.5, NaN, "1", -1n, 2n ** 127n, 2 ** 53]) {
    refused(() => polyover.overlay([], [], { minimumArea }), "the minimum area");
  }
  for (const minimumArea of [-1, NaN, Infinity, "1", -1n, 2n ** 127n, 1e300]) {
    refused(() => polyover.scaled(1).overlay([], [], { minimumArea }), "the minimum area");
  }
  const fine = polyover.scaled(1e6);
  refused(() => fine.simplify([], { minimumArea: 1e27 }), "the minimum area 1e+27 at this scale is above");
  for (const scale of [0, -1, NaN, Infinity, "10", 10n, undefined]) {
    refused(() => polyover.scaled(scale), "the scale");
  }
  for (const origin of [[0], [0, NaN], 3, [0n, 0n], null]) {
    refused(() => polyover.scaled(1, origin), "the origin");
  }
});

test("wrong geometries", () => {
  const words = [
    [{ type: "Circle" }, '"Circle" is no geometry'],
    [{ type: "Point", coordinates: [0, 0] }, "Point in the place of Polygon or MultiPolygon"],
    [{ type: "Polygon" }, "coordinates: undefined in the place of a list"],
    [{ type: "Polygon", coordinates: [[[0, 0], [1, 1], [0, 0]]] }, "ring 1: 2 points"],
    [{ type: "Polygon", coordinates: [[[0, 0], [1], [0, 1]]] }, "ring 1, point 2: [1] is no point"],
    [{ type: "MultiPolygon", coordinates: [BOX.coordinates, 3] }, "subject, 2: 3 in the place of a list"],
    [{ type: "FeatureCollection" }, "features: undefined"],
    [{ type: "FeatureCollection", features: [{ type: "Feature", geometry: 3 }] }, "feature 1: 3 is no geometry"],
    [{ type: "FeatureCollection", features: [3] }, "subject: feature 1: 3 is no geometry"],
    [{ type: "FeatureCollection", features: [null] }, "subject: feature 1: null is no geometry"],
    [{ type: "Feature" }, "subject: undefined is no geometry"],
  ];
  for (const [thing, told] of words) {
    refused(() => polyover.overlay(thing), told);
  }
  refused(() => polyover.clip([SQUARE], BOX), "lines: Polygon in the place of LineString or MultiLineString");
  refused(() => polyover.overlay({ ...BOX, coordinates: [[[0, 0], [0.5, 1], [1, 0]]] }), "0.5 is no whole number");
});

test("features stand in no features and no geometries", () => {
  const feature = { type: "Feature", properties: {}, geometry: BOX };
  const all = { type: "FeatureCollection", features: [feature] };
  for (const inner of [feature, all]) {
    const told = `"${inner.type}" is no geometry`;
    refused(() => polyover.overlay({ ...feature, geometry: inner }), `subject: ${told}`);
    const second = { ...all, features: [feature, { ...feature, geometry: inner }] };
    refused(() => polyover.overlay(second), `feature 2: ${told}`);
    const several = { type: "GeometryCollection", geometries: [BOX, inner] };
    refused(() => polyover.overlay(several), `subject, geometry 2: ${told}`);
    refused(() => polyover.overlay({ ...feature, geometry: several }), `subject, geometry 2: ${told}`);
  }
  const nested = { ...all, features: [all] };
  refused(() => polyover.overlay(nested), 'subject: feature 1: "FeatureCollection" is no geometry');
  let deep = BOX;
  for (let times = 0; times < 50; times++) {
    deep = { type: "GeometryCollection", geometries: [deep] };
  }
  assert.equal(polyover.overlay(deep).coordinates.length, 1);
  deep = { type: "GeometryCollection", geometries: [deep] };
  refused(() => polyover.overlay(deep), "more than 50 collections in one another");
});

test("members of points beyond x and y are finite numbers too", () => {
  for (const third of ["5", null, NaN, Infinity, true, 5n, [5]]) {
    const [first, second, ...rest] = BOX.coordinates[0];
    const high = { ...BOX, coordinates: [[first, [...second, third], ...rest]] };
    refused(() => polyover.overlay(high), "subject, ring 1, point 2: [4,0,");
    refused(() => polyover.locate([SQUARE], { type: "Point", coordinates: [1, 1, third] }), "points: [1,1,");
    const line = { type: "LineString", coordinates: [[0, 0], [4, 4, third]] };
    refused(() => polyover.clip([SQUARE], line), "point 2: [4,4,");
  }
  const high = { ...BOX, coordinates: [BOX.coordinates[0].map((point) => [...point, 7, 8])] };
  assert.deepEqual(polyover.overlay(high), polyover.overlay(BOX));
});

test("geometries that are passed over are whole", () => {
  const beside = (geometry) => ({ type: "GeometryCollection", geometries: [BOX, geometry] });
  for (const [type, coordinates, told] of [
    ["LineString", 5, "subject, geometry 2: coordinates: 5 in the place of a list"],
    ["LineString", [[0, 0], [1]], "subject, geometry 2: coordinates: [1] is no point"],
    ["LineString", [0, 0], "subject, geometry 2: coordinates: 0 is no point"],
    ["MultiLineString", [[0, 0]], "coordinates: 0 is no point"],
    ["Point", [0, NaN], "coordinates: [0,NaN] is no point"],
    ["Point", undefined, "coordinates: undefined is no point"],
    ["MultiPoint", [0, 0], "coordinates: 0 is no point"],
  ]) {
    refused(() => polyover.overlay(beside({ type, coordinates })), told);
  }
  const lines = { type: "GeometryCollection", geometries: [{ type: "Polygon", coordinates: [[0, 0]] }] };
  refused(() => polyover.clip([SQUARE], lines), "lines, geometry 1: coordinates: 0 is no point");
  const good = [["Point", []], ["LineString", []], ["MultiPoint", [[0, 0]]], ["Point", [0, 0, 1]]];
  for (const [type, coordinates] of good) {
    assert.deepEqual(polyover.overlay(beside({ type, coordinates })), polyover.overlay(BOX));
  }
});

test("answers that GeoJSON has not", () => {
  const told = 'unknown answer "geojson": one of lists, arrays';
  const answer = "geojson";
  const [both, prepared] = [polyover.arrangement([SQUARE]), polyover.prepare([SQUARE])];
  for (const call of [
    () => polyover.edges([SQUARE], [], { answer }),
    () => polyover.vectors([SQUARE], [], { answer }),
    () => polyover.trace([SQUARE], [], { answer }),
    () => polyover.locate([SQUARE], [[1, 1]], { answer }),
    () => prepared.locate([[1, 1]], { answer }),
    () => prepared.contains([[1, 1]], { answer }),
    () => both.edges({ answer }),
  ]) {
    refused(call, told);
  }
  const first = [[0, 0], [0, 4], 2];
  for (const edges of [polyover.edges(BOX), polyover.arrangement(BOX).edges()]) {
    assert.deepEqual(edges[0], first);
  }
  assert.deepEqual(polyover.locate(BOX, { type: "Point", coordinates: [1, 1] }), ["inside"]);
});

test("BigInts that floats do not have are not rounded for GeoJSON", () => {
  const [low, far] = [2n ** 53n, 2n ** 53n + 1n];
  const box = (end) => [[[0n, 0n], [end, 0n], [end, 4n], [0n, 4n]]];
  assert.equal(polyover.overlay(box(low), [], { answer: "geojson" }).coordinates[0][0][1][0], 0);
  refused(() => polyover.overlay(box(far), [], { answer: "geojson" }), "GeoJSON: 9007199254740993 would be rounded");
  refused(() => polyover.clip(box(far), [[[0n, 1n], [far, 1n]]], { answer: "geojson" }), "9007199254740993 would be");
  assert.equal(polyover.overlay(box(far))[0][0][2][0], far);
});

test("a contour that meets itself is told by its number", () => {
  const crossed = [[0, 0], [4, 4], [4, 0], [0, 4]];
  assert.throws(
    () => polyover.locate([SQUARE, OTHER, crossed], [[1, 1]]),
    (fault) => fault instanceof NotResolved && fault.contour === 3 && fault.name === "NotResolved",
  );
  const first = { contour: 1, message: /^contour 1 is not resolved/ };
  assert.throws(() => polyover.locate([crossed, SQUARE], [[1, 1]]), first);
});

test("a module that is not there, or none", async () => {
  for (const wasm of ["./none.wasm", new Uint8Array(8), new URL("file:///nowhere.wasm"), 3]) {
    await assert.rejects(load({ wasm }), LibraryMissing);
  }
});

test("after a fault the calls answer as before, and no memory is lost", () => {
  const before = polyover.overlay([SQUARE], [OTHER], { rule: "xor" });
  for (let times = 0; times < 2000; times++) {
    assert.throws(() => polyover.overlay([SQUARE], withPoint([0.5, 0])), BadInput);
  }
  assert.deepEqual(polyover.overlay([SQUARE], [OTHER], { rule: "xor" }), before);
});
