/** What tests take: the package, the worked inputs, and the program's text of answers. */

import { readFileSync } from "node:fs";
import { Flat, load } from "../polyover.js";

export const rows = JSON.parse(readFileSync(new URL("./rows.json", import.meta.url), "utf8"));
export const polyover = await load();

/** A contour in an array of a kind; the square if none is given. */
export function flat(kind, points = rows.SQUARE) {
  return new Flat(kind.from(points.flat(), kind === BigInt64Array ? BigInt : Number), [points.length]);
}

/** Twice the area inside a contour. */
export function doubleArea(contour) {
  return contour.reduce((sum, [x, y], at) => {
    const [u, v] = contour[(at + 1) % contour.length];
    return sum + x * v - u * y;
  }, 0);
}

/** A path as the program prints it. */
export function printedPath(points) {
  return `${points.flat().join(" ")}\n`;
}

/** Shapes as the program prints them. */
export function printedShapes(shapes) {
  return shapes.map((shape) => `shape\n${shape.map(printedPath).join("")}`).join("");
}
