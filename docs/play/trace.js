/**
 * Ways of paths over the board, in pixels: without points that nobody can tell apart, and without the parts beyond the
 * border that change nothing within it.
 *
 * @typedef {import("./view.js").View} View
 */

/** Points nearer than this many pixels to the one before them are left out: of many points, and of few. */
const NEAR = { many: 1, few: 0.3 };
/** Paths of more points are painted plainly: without dashes and round joins, which take long. */
export const MOST_FINE = 4000;
/** How far beyond the border, in pixels, a stroke may still be seen. */
const EDGE = 8;
/** Pixels beyond which nothing is painted, so that numbers stay small. */
const FAR = 1e6;
/** The number of points that are stroked at once: long paths at once take much longer. */
const BLOCK = 100;

/** On which sides of the pane some pixels lie: 1 left, 2 right, 4 above, 8 below. */
const sidesOf = (wide, high, x, y) =>
  (x < -EDGE ? 1 : x > wide + EDGE ? 2 : 0) + (y < -EDGE ? 4 : y > high + EDGE ? 8 : 0);

/**
 * The way of a path: x and y in turn. (It does what `View.toPixels` does, without a list for each point.)
 *
 * @returns {number[]}
 */
export function wayOf(/** @type {View} */ view, /** @type {ArrayLike<number[]>} */ path) {
  const near = path.length > MOST_FINE ? NEAR.many : NEAR.few;
  const { scale, x: middleX, y: middleY, height, paneWidth } = view;
  const [halfWide, halfHigh] = [paneWidth / 2, height / 2];
  const way = [];
  // (the sides on which the last point lies, and the one before it)
  let [left, top, last, before, all] = [NaN, NaN, 0, 0, 15];
  for (let at = 0; at < path.length; at += 1) {
    const x = (path[at][0] - middleX) * scale + halfWide;
    const y = halfHigh - (path[at][1] - middleY) * scale;
    if (Math.abs(x - left) < near && Math.abs(y - top) < near) continue;
    left = x < -FAR ? -FAR : x > FAR ? FAR : x;
    top = y < -FAR ? -FAR : y > FAR ? FAR : y;
    const sides = sidesOf(paneWidth, height, left, top);
    // (three points in a row beyond one border: the middle one changes nothing within it)
    if (sides & last & before) way.length -= 2;
    else before = last;
    way.push(left, top);
    last = sides;
    all &= sides;
  }
  // (all of it is beyond one border)
  return all ? [] : way;
}

/** Adds a way, closed, to what is filled. */
export function fillWay(context, /** @type {number[]} */ way) {
  if (way.length < 6) return;
  context.moveTo(way[0], way[1]);
  for (let at = 2; at < way.length; at += 2) context.lineTo(way[at], way[at + 1]);
  context.closePath();
}

/** Adds a way to what is stroked at once. */
function strokeShort(context, /** @type {number[]} */ way, /** @type {boolean} */ isClosed) {
  context.moveTo(way[0], way[1]);
  for (let at = 2; at < way.length; at += 2) context.lineTo(way[at], way[at + 1]);
  if (isClosed) context.closePath();
}

/** Strokes a way by blocks, but for the steps beyond a border. */
function strokeLong(context, view, /** @type {number[]} */ way, /** @type {boolean} */ isClosed) {
  const count = way.length / 2;
  let [open, last] = [0, 0];
  context.beginPath();
  for (let at = 0; at < count + Number(isClosed); at += 1) {
    const [x, y] = [way[2 * (at % count)], way[2 * (at % count) + 1]];
    const sides = sidesOf(view.paneWidth, view.height, x, y);
    if (at === 0 || sides & last) context.moveTo(x, y);
    else {
      context.lineTo(x, y);
      open += 1;
    }
    last = sides;
    if (open < BLOCK) continue;
    context.stroke();
    context.beginPath();
    context.moveTo(x, y);
    open = 0;
  }
  context.stroke();
}

/** Strokes ways: short ones together, and each long one in blocks. */
export function strokeWays(context, view, /** @type {number[][]} */ ways, /** @type {boolean} */ isClosed) {
  let open = 0;
  context.beginPath();
  for (const way of ways) {
    if (way.length < 2 || way.length > 2 * BLOCK) continue;
    strokeShort(context, way, isClosed);
    open += way.length / 2;
    if (open < BLOCK) continue;
    context.stroke();
    context.beginPath();
    open = 0;
  }
  context.stroke();
  for (const way of ways) if (way.length > 2 * BLOCK) strokeLong(context, view, way, isClosed);
}
