/** Forms of what is given and answered: arrays, GeoJSON, floats by a scale. */

import assert from "node:assert/strict";
import { readFileSync } from "node:fs";
import test from "node:test";
import { Flat, FlatShapes, LOCATIONS, multiLineString, multiPolygon } from "../polyover.js";
import { doubleArea, flat, polyover, rows } from "./there.js";

const { SQUARE, OTHER, HALL, WALLS, NESTED } = rows;
const KINDS = [BigInt64Array, Int32Array, Float64Array];

/** A polygon of GeoJSON of rings that are not closed. */
function polygon(...rings) {
  return { type: "Polygon", coordinates: rings.map((ring) => [...ring, ring[0]]) };
}

/** The area of a geometry of polygons. */
function area({ coordinates }) {
  return coordinates.flat().reduce((sum, ring) => sum + doubleArea(ring), 0) / 2;
}

test("arrays are answered in arrays of their kind", () => {
  for (const kind of KINDS) {
    const shapes = polyover.overlay(flat(kind), flat(kind, OTHER), { rule: "intersect" });
    assert.ok(shapes instanceof FlatShapes);
    assert.ok(shapes.contours.coordinates instanceof kind);
    const number = kind === BigInt64Array ? BigInt : Number;
    assert.deepEqual([...shapes.contours.coordinates], [2, 4, 2, 2, 4, 2, 4, 4].map(number));
    assert.deepEqual([...shapes.contours.ends, ...shapes.shapeEnds], [4, 1]);
    assert.ok(polyover.clip(flat(kind), flat(kind)).coordinates instanceof kind);
    const edges = polyover.edges(flat(kind));
    assert.ok(edges.coordinates instanceof kind && edges.fills instanceof Uint8Array);
    assert.equal(edges.coordinates.length, 16);
    const places = polyover.locate([SQUARE], kind.from([2, 2, 4, 1, 9, 9], number));
    assert.deepEqual([...places].map((at) => LOCATIONS[at]), ["inside", "boundary", "outside"]);
  }
});

test("what is given stays as it is", () => {
  for (const kind of KINDS) {
    const given = flat(kind);
    const before = given.coordinates.slice();
    polyover.relate(given, given);
    polyover.overlay(given, given);
    assert.deepEqual(given.coordinates, before);
  }
});

test("kinds that are mixed", () => {
  const big = polyover.overlay(flat(Int32Array), flat(BigInt64Array, OTHER), { rule: "intersect" });
  assert.ok(big.contours.coordinates instanceof BigInt64Array);
  const float = polyover.overlay(flat(Int32Array), [OTHER], { rule: "intersect" });
  assert.ok(float.contours.coordinates instanceof Float64Array);
  assert.deepEqual([...big.contours.coordinates].map(Number), [...float.contours.coordinates]);
  assert.ok(polyover.overlay(flat(Int32Array)).contours.coordinates instanceof Int32Array);
  assert.equal(typeof polyover.overlay([SQUARE], [[[2n, 2n], [6n, 2n], [6n, 6n]]])[0][0][0][0], "bigint");
});

test("the option answer names a form", () => {
  assert.ok(polyover.overlay([SQUARE], [], { answer: "arrays" }) instanceof FlatShapes);
  assert.deepEqual(polyover.overlay(flat(Int32Array), [], { answer: "lists" }), polyover.overlay([SQUARE]));
  const square = polyover.overlay([SQUARE], [], { answer: "geojson" });
  assert.deepEqual(square, multiPolygon(polyover.overlay([SQUARE])));
  assert.equal(square.coordinates[0][0].length, 5);
  const { links } = polyover.hierarchy(NESTED, [], { fill: "evenodd", answer: "arrays" });
  assert.deepEqual(links, new Uint32Array([0, 1, 1]));
  const lines = polyover.clip([SQUARE], [[[2, -1], [2, 5]]], { answer: "geojson" });
  assert.deepEqual(lines, multiLineString([[[2, 0], [2, 4]]]));
});

test("flat paths and shapes are gone over as lists", () => {
  assert.deepEqual([...flat(Int32Array)], [SQUARE]);
  const rooms = polyover.slice(HALL, WALLS, { fill: "evenodd" });
  const flatRooms = polyover.slice(HALL, WALLS, { fill: "evenodd", answer: "arrays" });
  assert.deepEqual([...flatRooms], rooms);
  assert.equal(flatRooms.length, rooms.length);
  assert.deepEqual(polyover.overlay(flatRooms.contours, [], { answer: "lists" }), polyover.overlay(rooms.flat()));
});

test("polygons of GeoJSON: holes and directions", () => {
  const hole = [[1, 1], [1, 3], [3, 3], [3, 1]];
  for (const rings of [[SQUARE, hole], [[...SQUARE].reverse(), hole], [SQUARE, [...hole].reverse()]]) {
    const found = polyover.overlay(polygon(...rings));
    assert.equal(found.type, "MultiPolygon");
    assert.equal(area(found), 12);
  }
  const both = { type: "GeometryCollection", geometries: [polygon(SQUARE, hole), polygon([...hole].reverse())] };
  assert.equal(area(polyover.overlay(both)), 16);
  const crossed = polygon([[0, 0], [4, 4], [4, 0], [0, 4]]);
  assert.equal(area(polyover.overlay(crossed)), 8);
  const touching = polygon([[0, 0], [2, 2], [4, 4], [4, 0], [2, 2], [0, 4]]);
  for (const fill of ["nonzero", "positive"]) {
    assert.equal(area(polyover.overlay(touching, [], { fill })), 8);
  }
  const features = { type: "FeatureCollection", features: [{ type: "Feature", properties: {}, geometry: crossed }] };
  assert.equal(area(polyover.simplify(features)), 8);
  assert.deepEqual(polyover.overlay({ type: "Feature", properties: {}, geometry: null }).coordinates, []);
  assert.equal(area(polyover.overlay({ type: "MultiPolygon", coordinates: [polygon(SQUARE).coordinates] })), 16);
});

test("polygons of GeoJSON beside other forms", () => {
  const { contours } = polyover.overlay(flat(Int32Array), polygon(OTHER), { rule: "intersect" });
  assert.ok(contours.coordinates instanceof Float64Array);
  assert.deepEqual([...contours.coordinates], [2, 4, 2, 2, 4, 2, 4, 4]);
  const lists = polyover.overlay([SQUARE], polygon(OTHER), { rule: "intersect" });
  assert.deepEqual(lists, [[[[2, 4], [2, 2], [4, 2], [4, 4]]]]);
  assert.equal(polyover.relate(polygon(SQUARE), polygon(OTHER)).interiorsIntersect, true);
  assert.equal(polyover.scaled(4).relate(polygon(SQUARE), [OTHER]).interiorsIntersect, true);
  assert.equal(polyover.isResolved(polygon(SQUARE)), true);
  const tenth = [[0.1, 0.1], [0.3, 0.1], [0.3, 0.3], [0.1, 0.3]];
  assert.deepEqual(polyover.scaled(10).overlay([tenth], polygon(tenth), { rule: "intersect" }).flat(2).length, 4);
  const third = polyover.scaled(3, [1 / 3, 0]).overlay(polygon([[0, 0], [9, 0], [0, 9]], [[1, 1], [2, 1], [1, 2]]));
  assert.equal(third.coordinates[0].length, 2);
});

test("lines and points of GeoJSON", () => {
  const line = { type: "LineString", coordinates: [[2, -1, 7], [2, 5, 7]] };
  assert.deepEqual(polyover.clip(polygon(SQUARE), line).coordinates, [[[2, 0], [2, 4]]]);
  const halves = polyover.slice(polygon(SQUARE), { type: "MultiLineString", coordinates: [line.coordinates] });
  assert.equal(halves.coordinates.length, 2);
  const points = { type: "MultiPoint", coordinates: [[2, 2], [4, 1], [9, 9]] };
  assert.deepEqual(polyover.locate(polygon(SQUARE), points), ["inside", "boundary", "outside"]);
  assert.deepEqual(polyover.locate([SQUARE], { type: "Point", coordinates: [1, 1] }), ["inside"]);
});

test("files of the examples", () => {
  const [meadow, flood] = ["meadow", "flood"].map((name) =>
    JSON.parse(readFileSync(new URL(`../../examples/${name}.geojson`, import.meta.url), "utf8")),
  );
  const wet = polyover.scaled(1000).overlay(meadow, flood, { rule: "intersect" });
  assert.deepEqual(
    wet.coordinates[0][0].slice(1).sort(([x, y], [u, v]) => x - u || y - v),
    [[2.5, 2], [2.5, 4], [4, 2], [4, 4]],
  );
});

test("floats by a scale", () => {
  const tenths = polyover.scaled(10);
  const rounded = tenths.overlay([[[0, 0], [0.31, 0], [0.29, 0.3], [0, 0.3]]]);
  assert.deepEqual(rounded, [[[[0, 0.3], [0, 0], [0.3, 0], [0.3, 0.3]]]]);
  const moved = polyover.scaled(4, [1000.5, -7]);
  const square = [[1000.5, -7], [1001, -7], [1001, -6.5], [1000.5, -6.5]];
  const found = moved.overlay([square])[0][0];
  assert.deepEqual(found, [[1000.5, -6.5], [1000.5, -7], [1001, -7], [1001, -6.5]]);
  // (halves go to the even one: 0.5 to 0, 1.5 to 2, 2.5 to 2)
  const halves = polyover.scaled(1).edges([[[0.5, 0], [9, 0], [1.5, 9]]]);
  assert.deepEqual(halves.map(([a, b]) => [...a, ...b]), [[0, 0, 2, 9], [0, 0, 9, 0], [2, 9, 9, 0]]);
  const array = new Flat(new Float64Array([0, 0, 0.5, 0, 0.5, 0.5]), [3]);
  assert.deepEqual([...tenths.simplify(array).contours.coordinates], [0, 0, 0.5, 0, 0.5, 0.5]);
  const half = [[0, 0], [0.5, 0], [0.5, 0.5]];
  assert.deepEqual(tenths.locate([half], [[0.3, 0.1], [0.5, 0.2], [1, 1]]), ["inside", "boundary", "outside"]);
  assert.equal(tenths.relate([half], [[[0.5, 0], [1, 0], [1, 1]]]).touches, true);
  assert.equal(tenths.isResolved([half]), true);
});

test("a minimum area is in squares of the floats' unit", () => {
  const square = [[0, 0], [1, 0], [1, 1], [0, 1]];
  const third = [[0, 0], [5, 0], [0, 1]];
  const pair = [[0, 0], [1, 0], [1, 2], [0, 2]];
  const thin = [[0, 0], [0.1, 0], [0.1, 0.7], [0, 0.7]];
  // (the scale, a contour, an area, and whether the contour stays)
  for (const [scale, contour, minimumArea, isKept] of [
    [1e6, square, 2, false],
    [1e6, square, 1, true],
    [1e6, square, 1n, true],
    [1, third, 2.5, true],
    [1, third, 2.6, false],
    [1, third, 3, false],
    [1, pair, 2.5, true],
    [1, pair, 2.51, false],
    [10, thin, 0.07, true],
    [10, thin, 0.08, false],
    [0.5, [[0, 0], [8, 0], [8, 8], [0, 8]], 64, true],
    [0.5, [[0, 0], [8, 0], [8, 8], [0, 8]], 68, false],
    [1, square, 1e-300, true],
  ]) {
    const scaled = polyover.scaled(scale);
    for (const found of [
      scaled.overlay([contour], [], { minimumArea }),
      scaled.hierarchy([contour], [], { minimumArea }).shapes,
      scaled.simplify([contour], { minimumArea }),
      [...scaled.overlay(new Flat(new Float64Array(contour.flat()), [contour.length]), [], { minimumArea })],
    ]) {
      assert.equal(found.length, isKept ? 1 : 0, `${minimumArea} at ${scale}`);
    }
  }
});

test("the library tells whether its module is proved", () => {
  assert.ok(["proved", "unproved"].includes(polyover.built()), polyover.built());
  assert.equal(polyover.scaled(2).built(), polyover.built());
});
