/** The smallest area of a contour that stays, as the library takes it: in squares of the unit of whole coordinates. */

import { BadInput } from "./errors.js";
import { shown } from "./shown.js";

const LIMIT = 2n ** 127n - 1n;

/** A minimum area: a whole number, or, where floats are taken by a scale, a number in squares of their unit. */
export function areaOf(value, grid) {
  const isNumber = typeof value === "bigint" || Number.isFinite(value);
  const isTaken = grid ? isNumber : typeof value === "bigint" || Number.isSafeInteger(value);
  if (!isTaken || value < 0) {
    throw new BadInput(`the minimum area ${shown(value)} is no ${grid ? "finite" : "whole"} number from 0 on`);
  }
  const area = grid ? scaledArea(value, grid.scale) : BigInt(value);
  if (area > LIMIT) {
    throw new BadInput(`the minimum area ${shown(value)}${grid ? " at this scale" : ""} is above ${LIMIT}`);
  }
  return area;
}

/**
 * An area times the square of a scale, as the nearest whole number; of two equally near ones it is the smaller.
 * So a contour whose area equals the minimum stays, whose area in whole numbers the library rounds down.
 */
function scaledArea(value, scale) {
  const [top, bottom] = fractionOf(value);
  const [up, down] = fractionOf(scale);
  const [whole, parts] = [top * up * up, bottom * down * down];
  return (2n * whole + parts - 1n) / (2n * parts);
}

/** A number from 0 on as two whole numbers, one over the other. */
function fractionOf(value) {
  let [top, bottom] = [value, 1n];
  // (a float that is no whole number can be doubled exactly)
  while (typeof top === "number" && !Number.isInteger(top)) {
    top *= 2;
    bottom *= 2n;
  }
  return [BigInt(top), bottom];
}
