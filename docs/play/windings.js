/**
 * Exact windings of contours round points, and whether a contour comes near a point. Coordinates of points are whole
 * numbers of parts of a unit. Floats tell a sign where their rounding cannot change it, and else BigInts do.
 */

/** The parts of a unit, and the greatest coordinate of contours: up to there all differences of floats are exact. */
export const PARTS = 64;
export const FARTHEST = 2 ** 45;
/** More than the rounding of a sum of products, against the products. */
const ROUNDING = 2 ** -50;
/** The most bands of an index. */
const BANDS = 256;

/** The sign of a difference of products and a third one, exactly. */
function signOf(/** @type {number[]} */ [a, b], /** @type {number[]} */ [c, d], /** @type {number[]} */ [e, f]) {
  const [first, second, third] = [a * b, c * d, e * f];
  const value = first - second - third;
  if (Math.abs(value) > ROUNDING * (Math.abs(first) + Math.abs(second) + Math.abs(third))) return Math.sign(value);
  const exact = BigInt(a) * BigInt(b) - BigInt(c) * BigInt(d) - BigInt(e) * BigInt(f);
  return exact > 0n ? 1 : exact < 0n ? -1 : 0;
}

/** On which side of a step a point lies: 1 on the left, -1 on the right, 0 on its line. All are in parts. */
export function sideOf(/** @type {number[]} */ [ax, ay, bx, by], /** @type {number} */ x, /** @type {number} */ y) {
  return signOf([bx - ax, y - ay], [by - ay, x - ax], [0, 0]);
}

/** How a step counts in the winding round a point that is not on it: whether it crosses the ray to the right. */
function crossingOf(step, x, y) {
  const [, ay, , by] = step;
  if (ay <= y === by <= y) return 0;
  const way = ay <= y ? 1 : -1;
  return sideOf(step, x, y) === way ? way : 0;
}

/** Whether a step meets the square round a point, whose sides are twice a reach. */
export function isNear(/** @type {number[]} */ step, x, y, /** @type {number} */ reach) {
  const [ax, ay, bx, by] = step;
  if (Math.max(ax, bx) < x - reach || Math.min(ax, bx) > x + reach) return false;
  if (Math.max(ay, by) < y - reach || Math.min(ay, by) > y + reach) return false;
  const [dx, dy] = [bx - ax, by - ay];
  const far = Math.abs(dx) + Math.abs(dy);
  const [right, up] = [x - ax, y - ay];
  // (the line misses the square where all corners lie on one side of it)
  return signOf([dx, up], [dy, right], [reach, far]) <= 0 && signOf([dy, right], [dx, up], [reach, far]) <= 0;
}

/** The steps of closed contours in parts, each with the number of its group. */
export function stepsIn(/** @type {number[][][]} */ contours, /** @type {number} */ group) {
  return contours.flatMap((path) =>
    path.map(([bx, by], at) => {
      const [ax, ay] = path[at ? at - 1 : path.length - 1];
      return [PARTS * ax, PARTS * ay, PARTS * bx, PARTS * by, group];
    }),
  );
}

/** The winding of contours round a point that lies on none. */
export function windingOf(/** @type {number[][][]} */ contours, /** @type {number} */ x, /** @type {number} */ y) {
  let sum = 0;
  for (const path of contours) {
    let [bx, by] = path[path.length - 1] ?? [0, 0];
    for (const [cx, cy] of path) {
      sum += crossingOf([PARTS * bx, PARTS * by, PARTS * cx, PARTS * cy], x, y);
      [bx, by] = [cx, cy];
    }
  }
  return sum;
}

/** Groups of contours, made ready to be asked for windings round many points. */
export class Windings {
  /** `reach` is how far from a point, in parts, `isNear` has to look. */
  constructor(/** @type {number[][][][]} */ groups, /** @type {number} */ reach) {
    this.count = groups.length;
    const steps = groups.flatMap((contours, number) => stepsIn(contours, number));
    this.low = steps.reduce((least, [, ay, , by]) => Math.min(least, ay, by), Infinity) - reach;
    const high = steps.reduce((most, [, ay, , by]) => Math.max(most, ay, by), -Infinity) + reach;
    const bands = Math.min(BANDS, steps.length + 1);
    this.tall = Math.max(1, (high - this.low) / bands);
    /** @type {number[][][]} */
    this.bands = Array.from({ length: bands }, () => []);
    for (const step of steps) {
      const from = this.at(Math.min(step[1], step[3]) - reach);
      const to = this.at(Math.max(step[1], step[3]) + reach);
      for (let band = from; band <= to; band += 1) this.bands[band].push(step);
    }
  }

  /** The number of the band of a height. (Of higher points it is not below that of lower ones.) */
  at(/** @type {number} */ y) {
    return Math.max(0, Math.min(this.bands.length - 1, Math.floor((y - this.low) / this.tall)));
  }

  /** The steps that may count for a point of that height. */
  near(/** @type {number} */ y) {
    return this.bands[this.at(y)];
  }

  /** The winding of each group round a point that lies on no contour. */
  round(/** @type {number} */ x, /** @type {number} */ y) {
    const found = new Array(this.count).fill(0);
    for (const step of this.near(y)) found[step[4]] += crossingOf(step, x, y);
    return found;
  }
}
