/** Answers in lists, in typed arrays, or as geometries of GeoJSON. */

import { BadInput } from "./errors.js";
import { Flat, FlatShapes } from "./flat.js";
import { LOCATIONS } from "./names.js";
import { SOURCE } from "./traced.js";

const SIDES = ["subject", "clip"];

/** The points of coordinates from one place to another. */
function pointsIn(coordinates, start, end) {
  const points = new Array(end - start);
  for (let at = start; at < end; at++) {
    points[at - start] = [coordinates[2 * at], coordinates[2 * at + 1]];
  }
  return points;
}

/** The paths of coordinates with ends. */
function pathsIn(coordinates, ends) {
  return Array.from(ends, (end, number) => pointsIn(coordinates, number === 0 ? 0 : ends[number - 1], end));
}

/** The parts of a list, of which each end is known. */
function parted(items, ends) {
  return Array.from(ends, (end, number) => items.slice(number === 0 ? 0 : ends[number - 1], end));
}

/** A contour as a ring, which has its first point at its end too. */
function ring(points) {
  return points.length === 0 ? [] : [...numbered(points), numbered(points.slice(0, 1))[0]];
}

function numbered(points) {
  return points.map(([x, y]) => [numberOf(x), numberOf(y)]);
}

/** A coordinate as JSON has it; a BigInt that no float equals is refused. */
function numberOf(value) {
  const found = Number(value);
  if (typeof value === "bigint" && BigInt(found) !== value) {
    throw new BadInput(`GeoJSON: ${value} would be rounded: other forms of answers have BigInts`);
  }
  return found;
}

/** Shapes as a geometry of GeoJSON. */
export function multiPolygon(shapes) {
  return { type: "MultiPolygon", coordinates: Array.from(shapes, (shape) => Array.from(shape, ring)) };
}

/** Paths as a geometry of GeoJSON. */
export function multiLineString(paths) {
  return { type: "MultiLineString", coordinates: Array.from(paths, numbered) };
}

/** Shapes in a form. */
export function shapesIn({ coordinates, contourEnds, shapeEnds }, form) {
  if (form === "arrays") {
    return new FlatShapes(new Flat(coordinates, contourEnds), shapeEnds);
  }
  const shapes = parted(pathsIn(coordinates, contourEnds), shapeEnds);
  return form === "geojson" ? multiPolygon(shapes) : shapes;
}

/** Links in a form: three numbers in a row each, or triples. */
export function linksIn(links, form) {
  if (form === "arrays") {
    return links;
  }
  return Array.from({ length: links.length / 3 }, (_, at) => [...links.subarray(3 * at, 3 * at + 3)]);
}

/** Paths in a form. */
export function linesIn({ coordinates, contourEnds }, form) {
  if (form === "arrays") {
    return new Flat(coordinates, contourEnds);
  }
  const paths = pathsIn(coordinates, contourEnds);
  return form === "geojson" ? multiLineString(paths) : paths;
}

/** Edges in a form: arrays of four coordinates and one sum each, or two points and the sum. */
export function edgesIn({ coordinates, fills }, form) {
  if (form === "arrays") {
    return { coordinates, fills };
  }
  return Array.from(fills, (sum, number) => [...pointsIn(coordinates, 2 * number, 2 * number + 2), sum]);
}

/** Shapes with filled sides in a form: `FlatShapes` with one sum for each point, or contours of steps, as edges are. */
export function vectorsIn(found, form) {
  const { coordinates, contourEnds, shapeEnds, fills } = found;
  if (form === "arrays") {
    return { shapes: shapesIn(found, form), fills };
  }
  const filled = pathsIn(coordinates, contourEnds).map((points, number) => {
    const start = number === 0 ? 0 : contourEnds[number - 1];
    return points.map((point, at) => [point, [...points[(at + 1) % points.length]], fills[start + at]]);
  });
  return parted(filled, shapeEnds);
}

/** A source: the side, the numbers of path and step, and two truths. */
function sourceIn(sources, number) {
  const [side, path, step, cut, back] = sources.subarray(SOURCE * number, SOURCE * (number + 1));
  return { side: SIDES[side], path, step, cut: cut === 1, reversed: back === 1 };
}

/** Traced edges in a form: arrays, with five numbers for each source, or edges with a list of sources behind. */
export function tracedIn(found, form) {
  if (form === "arrays") {
    return found;
  }
  const { sourceEnds, sources } = found;
  const all = Array.from({ length: sources.length / SOURCE }, (_, number) => sourceIn(sources, number));
  const listed = parted(all, sourceEnds);
  return edgesIn(found, form).map((edge, number) => [...edge, listed[number]]);
}

/** Locations in a form: numbers, which are places in LOCATIONS, or words. */
export function locationsIn(locations, form) {
  return form === "arrays" ? locations : Array.from(locations, (number) => LOCATIONS[number]);
}
