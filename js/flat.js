/** Contours, paths and shapes in typed arrays. */

import { BadInput } from "./errors.js";
import { shown } from "./shown.js";

const NUMBERS = [BigInt64Array, Int32Array, Float64Array];
const COUNTS = [Uint32Array, BigUint64Array, BigInt64Array, Int32Array];

/** Whether a thing is a typed array of coordinates. */
export function isNumbers(thing) {
  return NUMBERS.some((kind) => thing instanceof kind);
}

/** That an array still has its items: it has none once its buffer was handed over, as to a worker. */
export function checkHeld(what, array) {
  try {
    new Uint8Array(array.buffer);
  } catch {
    throw new BadInput(`${what}: the array is detached: its buffer was handed over`);
  }
}

/** Ends as an Uint32Array. */
function ends32(what, ends) {
  if (!Array.isArray(ends) && !COUNTS.some((kind) => ends instanceof kind)) {
    throw new BadInput(`${what}: no list or typed array of whole numbers`);
  }
  if (!Array.isArray(ends)) {
    checkHeld(what, ends);
  }
  if (ends instanceof Uint32Array) {
    return ends;
  }
  return Uint32Array.from(ends, (end) => {
    const number = typeof end === "bigint" ? Number(end) : end;
    if (!Number.isInteger(number) || number < 0 || number >= 2 ** 32) {
      throw new BadInput(`${what}: ${shown(end)} is no count`);
    }
    return number;
  });
}

/** That counts rise from 0 to another count. */
export function checkEnds(what, ends, count, counted) {
  let before = 0;
  for (const end of ends) {
    if (end < before) {
      throw new BadInput(`${what}: ${end} is below the one before it`);
    }
    before = end;
  }
  if (before !== count) {
    throw new BadInput(`${what}: they rise to ${before}, and there are ${count} ${counted}`);
  }
}

/**
 * Contours or open paths in two arrays: `coordinates` has the points, x before y in a row, and `ends` how many points
 * there are up to the end of each path. The coordinates are a BigInt64Array, an Int32Array or a Float64Array. The calls
 * take it in the place of lists of points; going over it gives lists.
 *
 * Raises BadInput where the arrays are of another kind, or the ends do not rise to the number of points.
 */
export class Flat {
  constructor(coordinates, ends) {
    if (!isNumbers(coordinates)) {
      throw new BadInput("coordinates: no BigInt64Array, Int32Array or Float64Array");
    }
    checkHeld("coordinates", coordinates);
    this.coordinates = coordinates;
    this.ends = ends32("ends", ends);
    checkEnds("ends", this.ends, coordinates.length / 2, "points");
  }

  /** How many paths there are. */
  get length() {
    return this.ends.length;
  }

  /** The points of a path. */
  path(number) {
    const points = [];
    for (let at = number === 0 ? 0 : this.ends[number - 1]; at < this.ends[number]; at++) {
      points.push([this.coordinates[2 * at], this.coordinates[2 * at + 1]]);
    }
    return points;
  }

  *[Symbol.iterator]() {
    for (let number = 0; number < this.length; number++) {
      yield this.path(number);
    }
  }
}

/** Shapes in arrays: their contours, a `Flat`, and how many contours there are up to the end of each shape. */
export class FlatShapes {
  constructor(contours, shapeEnds) {
    this.contours = contours;
    this.shapeEnds = ends32("shape ends", shapeEnds);
    checkEnds("shape ends", this.shapeEnds, contours.length, "contours");
  }

  /** How many shapes there are. */
  get length() {
    return this.shapeEnds.length;
  }

  *[Symbol.iterator]() {
    let contour = 0;
    for (const end of this.shapeEnds) {
      const shape = [];
      for (; contour < end; contour++) {
        shape.push(this.contours.path(contour));
      }
      yield shape;
    }
  }
}
