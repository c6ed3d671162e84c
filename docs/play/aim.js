/**
 * What lies under the pointer: a point, an edge, the inside of a contour, or a piece of the answer.
 *
 * @typedef {import("./drawing.js").Place} Place
 * @typedef {{place: Place, point: number[]}} Aim
 */

import { COMMANDS } from "./commands.js";
import { KINDS, allPaths, boxOf, isClosed, isLive } from "./drawing.js";
import { isInside, squareToStep } from "./measure.js";
import { FARTHEST, PARTS, windingOf } from "./windings.js";

/** The nearest point within a distance, later ones and those drawn on top first. @returns {Aim | null} */
export function pointNear(figures, x, y, /** @type {number} */ reach) {
  let [found, least] = [null, reach * reach];
  for (const kind of KINDS) {
    figures[kind].forEach((path, number) => {
      for (let at = 0; at < path.length; at += 1) {
        const [u, v] = path[at];
        const square = (u - x) ** 2 + (v - y) ** 2;
        if (square <= least) [found, least] = [{ place: { kind, path: number, at }, point: path[at] }, square];
      }
    });
  }
  return found;
}

/**
 * The nearest edge within a distance: the place is that of the point before which a new one goes.
 *
 * @returns {Aim | null}
 */
export function edgeNear(figures, x, y, /** @type {number} */ reach) {
  let [found, least] = [null, reach * reach];
  for (const kind of KINDS) {
    figures[kind].forEach((path, number) => {
      for (let at = isClosed(kind) ? 0 : 1; at < path.length && path.length > 1; at += 1) {
        const square = squareToStep(at ? path[at - 1] : path[path.length - 1], path[at], x, y);
        const place = { kind, path: number, at: at || path.length };
        if (square < least) [found, least] = [{ place, point: [x, y] }, square];
      }
    });
  }
  return found;
}

/** The last contour round a point, the clip's before the subject's. @returns {Place | null} */
export function contourRound(figures, x, y) {
  for (const kind of /** @type {const} */ (["clip", "subject"])) {
    for (let number = figures[kind].length - 1; number >= 0; number -= 1) {
      if (isInside([figures[kind][number]], x, y)) return { kind, path: number, at: 0 };
    }
  }
  return null;
}

/** The number of the piece of an answer at a point: a shape round it, or a path within a distance. */
export function pieceAt(answer, x, y, /** @type {number} */ reach) {
  const shape = (answer?.shapes ?? []).findIndex((contours) => isInside(contours, x, y));
  if (shape >= 0) return shape;
  const path = (answer?.paths ?? []).findIndex((points) =>
    points.some((point, at) => at && squareToStep(points[at - 1], point, x, y) < reach * reach),
  );
  return path >= 0 ? path : null;
}

/**
 * The windings round a point of what the command takes, where that is not too much: pairs of a kind and a number. Null
 * beside the drawing.
 *
 * @returns {[string, number][] | null}
 */
export function windingsAt(/** @type {import("./state.js").Drawing} */ { figures, asked }, x, y) {
  const [left, low, right, high] = boxOf(allPaths(figures)) ?? [1, 1, 0, 0];
  const isIn = x >= left && x <= right && y >= low && y <= high;
  if (!isIn || !isLive(figures) || Math.max(-left, right, -low, high) > FARTHEST) return null;
  const kinds = COMMANDS[asked.command].takes.filter(isClosed);
  const point = [Math.round(PARTS * x), Math.round(PARTS * y)];
  return kinds.map((kind) => [kind, windingOf(figures[kind], point[0], point[1])]);
}
