/** The cells of a grid, along whose lines tiles are cut. */

import { BadInput } from "./errors.js";
import { shown } from "./shown.js";

/** In words that there is no such grid over a shape. */
export function misfit(width, height) {
  return `cells of ${shown(width)} by ${shown(height)} do not fit: more than 1,000 lines in a direction`;
}

/** The whole number nearest to a float; of two equally near ones the even one, as coordinates are rounded. */
function nearest(value) {
  const found = Math.round(value);
  return found - value === 0.5 && found % 2 !== 0 ? found - 1 : found;
}

/** A side of a cell as a whole number: of `scaled` it is a number of the floats' unit, times the scale, and rounded. */
export function sideOf(name, value, grid) {
  const isNumber = typeof value === "bigint" || Number.isFinite(value);
  if (!isNumber || !(grid || typeof value === "bigint" || Number.isSafeInteger(value))) {
    throw new BadInput(`${name}: ${shown(value)} is no ${grid ? "finite" : "whole"} number`);
  }
  const scaled = grid ? nearest(Number(value) * grid.scale) : value;
  if (!(scaled >= 1) || scaled === Infinity) {
    throw new BadInput(`${name}: ${shown(value)}${grid ? " at this scale" : ""} is not at least 1`);
  }
  return BigInt(scaled);
}
