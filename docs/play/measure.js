/** Areas, distances, and whether a point lies in a shape: for what the page shows, not for answers. */

/** Twice the area inside a contour, negative where it runs clockwise; exact as long as numbers of JavaScript are. */
export function doubleArea(/** @type {number[][]} */ path) {
  let sum = 0;
  const [left, low] = path[0] ?? [0, 0];
  for (let at = 0, before = path.length - 1; at < path.length; before = at, at += 1) {
    const [ax, ay] = path[before];
    const [bx, by] = path[at];
    sum += (ax - left) * (by - low) - (bx - left) * (ay - low);
  }
  return sum;
}

/** Whether a contour runs clockwise; exact for all coordinates of the page. */
export function runsClockwise(/** @type {number[][]} */ path) {
  const [left, low] = path[0] ?? [0, 0];
  const reach = path.reduce((most, [x, y]) => Math.max(most, Math.abs(x - left), Math.abs(y - low)), 0);
  if (2 * reach * reach * path.length <= Number.MAX_SAFE_INTEGER) return doubleArea(path) < 0;
  let sum = 0n;
  path.forEach(([bx, by], at) => {
    const [ax, ay] = path[at ? at - 1 : path.length - 1];
    sum += BigInt(ax) * BigInt(by) - BigInt(bx) * BigInt(ay);
  });
  return sum < 0n;
}

/** The area of a shape: of its outline, less that of its holes. */
export const areaOf = (/** @type {number[][][]} */ shape) =>
  Math.abs(shape.reduce((sum, path) => sum + doubleArea(path), 0)) / 2;

/** How long an open path is. */
export const lengthOf = (/** @type {number[][]} */ path) =>
  path.slice(1).reduce((sum, [x, y], at) => sum + Math.hypot(x - path[at][0], y - path[at][1]), 0);

/** Whether a point lies in an odd number of the contours. */
export function isInside(/** @type {number[][][]} */ shape, /** @type {number} */ x, /** @type {number} */ y) {
  let inside = false;
  for (const path of shape) {
    for (let at = 0, before = path.length - 1; at < path.length; before = at, at += 1) {
      const [ax, ay] = path[before];
      const [bx, by] = path[at];
      if (ay > y !== by > y && x < ((bx - ax) * (y - ay)) / (by - ay) + ax) inside = !inside;
    }
  }
  return inside;
}

/** The square of the distance from a point to a step. */
export function squareToStep([ax, ay], [bx, by], /** @type {number} */ x, /** @type {number} */ y) {
  const [dx, dy] = [bx - ax, by - ay];
  const along = dx || dy ? Math.max(0, Math.min(1, ((x - ax) * dx + (y - ay) * dy) / (dx * dx + dy * dy))) : 0;
  return (ax + along * dx - x) ** 2 + (ay + along * dy - y) ** 2;
}

/**
 * The points in which steps of the paths cross, as they are before rounding; those at ends of both are left out.
 *
 * @returns {[number, number][]}
 */
export function crossings(/** @type {any[]} */ steps) {
  /** @type {[number, number][]} */
  const found = [];
  for (let at = 0; at < steps.length; at += 1) {
    for (let other = 0; other < at; other += 1) {
      const point = crossing(steps[at], steps[other]);
      if (point) found.push(point);
    }
  }
  return found;
}

/**
 * The point in which two steps cross, both inside, or null.
 *
 * @returns {[number, number] | null}
 */
function crossing([[ax, ay], [bx, by]], [[cx, cy], [dx, dy]]) {
  const across = (bx - ax) * (dy - cy) - (by - ay) * (dx - cx);
  if (!across) return null;
  const along = ((cx - ax) * (dy - cy) - (cy - ay) * (dx - cx)) / across;
  const other = ((cx - ax) * (by - ay) - (cy - ay) * (bx - ax)) / across;
  const isOutside = along < 0 || along > 1 || other < 0 || other > 1;
  const isCorner = (along === 0 || along === 1) && (other === 0 || other === 1);
  return isOutside || isCorner ? null : [ax + along * (bx - ax), ay + along * (by - ay)];
}
