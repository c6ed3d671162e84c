/**
 * Paints marks on a canvas.
 *
 * @typedef {import("./scene.js").Mark} Mark
 * @typedef {import("./view.js").View} View
 */

import { inkOf } from "./palette.js";
import { DASHES, PATH_DASHES, shapeOf, tickOf } from "./signs.js";
import { MOST_FINE, fillWay, strokeWays, wayOf } from "./trace.js";
import { gridStep, multiples } from "./view.js";

/** More dots than this are painted as small squares. */
const MOST_ROUND = 1500;
/** Of areas of more points the contours that are smaller than two pixels are specks, and none has a stroke. */
const MOST_STROKED = 100000;
/** How many pixels a tick is long, and a dot is wide from its centre. */
const TICK = 6;
const DOT = 3.2;
/** How far from the top, in pixels, labels stand: the buttons are above. */
const BELOW = 130;
/** Over panes of fewer pixels the buttons and the legend leave no room for a title. */
const NARROW = 280;

/** The number of points in some paths. */
const countOf = (paths) => paths.reduce((sum, path) => sum + path.length, 0);

/** Whether paths have so many points that they are painted plainly. */
const isPlain = (paths) => countOf(paths) > MOST_FINE;

/** The width of a stroke, of very many points at most a pixel of the screen: that takes a fraction of the time. */
const thinned = (context, paths, /** @type {number} */ width) =>
  isPlain(paths) ? Math.min(width, 1 / (context.getTransform().a || 1)) : width;

/** The widest stroke along some contours: a sixth of the smallest of few of them. */
function strokeOf(view, paths, /** @type {number} */ most) {
  if (paths.length > 2000) return Math.min(most, 0.6);
  let least = Infinity;
  for (const path of paths) {
    let [left, low, right, high] = [Infinity, Infinity, -Infinity, -Infinity];
    for (let at = 0; at < path.length; at += 1) {
      const [x, y] = path[at];
      if (x < left) left = x;
      if (x > right) right = x;
      if (y < low) low = y;
      if (y > high) high = y;
    }
    const size = Math.max(right - left, high - low);
    if (size) least = Math.min(least, size);
  }
  return Math.max(0.3, Math.min(most, (least * view.scale) / 6));
}

/** Whether a path with points is smaller than two pixels. */
function isSpeck(view, path) {
  const reach = 2 / view.scale;
  const [x, y] = path[0] ?? [NaN, NaN];
  for (const [u, v] of path) if (Math.abs(u - x) > reach || Math.abs(v - y) > reach) return false;
  return path.length > 0;
}

/** Paints a dot of a shape. */
function paintDot(context, left, top, /** @type {number} */ size, /** @type {string} */ shape) {
  context.beginPath();
  if (shape === "square") context.rect(left - size, top - size, 2 * size, 2 * size);
  else if (shape === "disc") context.arc(left, top, size, 0, 2 * Math.PI);
  if (shape !== "cross") return context.fill();
  context.lineWidth = 2.4;
  for (const way of [-1, 1]) {
    context.moveTo(left - size, top - way * size);
    context.lineTo(left + size, top + way * size);
  }
  context.stroke();
}

/** Paints many dots as small squares, of those that lie on one another but one. */
function specks(context, view, paths) {
  const taken = new Set();
  for (const [[x, y]] of paths) {
    const [left, top] = view.toPixels(x, y);
    const place = (left >> 1) * 65536 + (top >> 1);
    if (!isSeen(view, left, top) || taken.has(place)) continue;
    taken.add(place);
    context.fillRect(left - 1, top - 1, 2, 2);
  }
}

/** The ways of paths, but for those that are not in sight. */
const waysOf = (view, paths) => paths.map((path) => wayOf(view, path)).filter((way) => way.length);

/** How each type of mark is painted. */
const PAINTED = {
  area(context, view, mark, colours) {
    const isVast = countOf(mark.paths) > MOST_STROKED;
    const isSmall = (path) => isVast && isSpeck(view, path);
    const ways = waysOf(view, isVast ? mark.paths.filter((path) => !isSmall(path)) : mark.paths);
    context.fillStyle = colours[mark.colour];
    context.beginPath();
    for (const way of ways) fillWay(context, way);
    context.globalAlpha *= mark.strength;
    context.fill(mark.fillRule);
    if (isVast) specks(context, view, mark.paths.filter(isSmall));
    context.globalAlpha /= mark.strength;
    if (!mark.width || mark.strength <= 0.1 || isVast) return;
    context.lineWidth = thinned(context, mark.paths, strokeOf(view, mark.paths, mark.width));
    strokeWays(context, view, ways, true);
  },
  outline(context, view, mark) {
    // (beneath one that is dashed an area of the same colour has a stroke)
    if (mark.dashed && isPlain(mark.paths)) return;
    if (mark.dashed) context.setLineDash(DASHES[mark.colour] ?? DASHES.subject);
    context.lineWidth = thinned(context, mark.paths, mark.width ?? 1.2);
    strokeWays(context, view, waysOf(view, mark.paths), true);
  },
  path(context, view, mark) {
    if (PATH_DASHES[mark.colour] && !isPlain(mark.paths)) context.setLineDash(PATH_DASHES[mark.colour]);
    context.lineWidth = thinned(context, mark.paths, mark.width);
    strokeWays(context, view, waysOf(view, mark.paths), false);
  },
  dot(context, view, mark) {
    if (mark.paths.length > MOST_ROUND) return specks(context, view, mark.paths);
    for (const [[x, y]] of mark.paths) {
      const [left, top] = view.toPixels(x, y);
      if (!isSeen(view, left, top)) continue;
      paintDot(context, left, top, mark.width ?? DOT, shapeOf(mark.colour));
    }
  },
  ring(context, view, mark) {
    context.lineWidth = 1.6;
    for (const [[x, y]] of mark.paths) {
      const [left, top] = view.toPixels(x, y);
      context.beginPath();
      context.arc(left, top, DOT + 2, 0, 2 * Math.PI);
      context.stroke();
    }
  },
  square(context, view, mark) {
    context.lineWidth = 1;
    context.globalAlpha *= 0.18;
    for (const [[x, y]] of mark.paths) {
      const [left, top] = view.toPixels(x - 0.5, y + 0.5);
      context.fillRect(left, top, view.scale, view.scale);
    }
    context.globalAlpha /= 0.18;
    for (const [[x, y]] of mark.paths) {
      const [left, top] = view.toPixels(x - 0.5, y + 0.5);
      context.strokeRect(left, top, view.scale, view.scale);
    }
  },
  tick(context, view, mark) {
    context.beginPath();
    for (const path of mark.paths) {
      const { place: [left, top], way: [right, down], foot: [x, y] } = tickOf(view, mark, path, TICK);
      if (!isSeen(view, left, top)) continue;
      context.moveTo(left, top);
      context.lineTo(left + right, top + down);
      if (!x && !y) continue;
      context.moveTo(left + right - x, top + down - y);
      context.lineTo(left + right + x, top + down + y);
    }
    context.lineWidth = 2.4;
    context.stroke();
  },
  hop(context, view, mark) {
    context.setLineDash([2, 2]);
    context.lineWidth = 1.6;
    strokeWays(context, view, waysOf(view, mark.paths), false);
  },
};

/** Whether some pixels lie in the pane, or near it. */
const isSeen = (view, left, top) =>
  left > -20 && top > -20 && left < view.paneWidth + 20 && top < view.height + 20;

/** Paints marks; where a piece of the answer is looked at, the others are pale. */
export function paintMarks(context, view, /** @type {Mark[]} */ marks, colours, piece = null) {
  for (const mark of marks) {
    context.save();
    context.strokeStyle = context.fillStyle = colours[inkOf(mark.colour)];
    context.lineJoin = isPlain(mark.paths) ? "bevel" : "round";
    const isPale = piece !== null && mark.piece !== undefined && mark.piece !== piece;
    context.globalAlpha = isPale ? 0.25 : 1;
    PAINTED[mark.type](context, view, mark, colours);
    context.restore();
  }
}

// ---- the grid

/** Paints the whole-number grid, where there is room for it, the lines to which points snap, and the coordinates. */
export function paintGrid(context, /** @type {View} */ view, colours, /** @type {number} */ snap) {
  const [left, high] = view.toPoint(0, 0);
  const right = left + view.paneWidth / view.scale;
  const low = high - view.height / view.scale;
  const fine = snap * view.scale >= 7 ? snap : gridStep(view.scale, 7);
  const coarse = gridStep(view.scale, 60);
  paintLines(context, view, colours.grid, [multiples(left, right, fine), multiples(low, high, fine)], 0.55);
  paintLines(context, view, colours.grid, [multiples(left, right, coarse), multiples(low, high, coarse)], 1);
  paintLines(context, view, colours.axis, [[0], [0]], 1);
  paintLabels(context, view, colours, multiples(left, right, coarse), multiples(low, high, coarse));
}

/** Paints upright and level lines. */
function paintLines(context, view, colour, [xs, ys], strength) {
  context.save();
  context.beginPath();
  for (const x of xs) {
    const left = Math.round(view.toPixels(x, 0)[0]) + 0.5;
    context.moveTo(left, 0);
    context.lineTo(left, view.height);
  }
  for (const y of ys) {
    const top = Math.round(view.toPixels(0, y)[1]) + 0.5;
    context.moveTo(0, top);
    context.lineTo(view.paneWidth, top);
  }
  context.strokeStyle = colour;
  context.globalAlpha = strength;
  context.lineWidth = 1;
  context.stroke();
  context.restore();
}

/** Paints coordinates along the lower and the left border. */
function paintLabels(context, view, colours, xs, ys) {
  context.save();
  context.font = "11px system-ui, sans-serif";
  context.lineWidth = 3;
  context.lineJoin = "round";
  context.strokeStyle = colours.ground;
  context.fillStyle = colours.label;
  const label = (text, left, top) => {
    context.strokeText(text, left, top);
    context.fillText(text, left, top);
  };
  context.textAlign = "center";
  let end = 34;
  for (const x of xs) {
    const [left] = view.toPixels(x, 0);
    const half = context.measureText(String(x)).width / 2;
    if (left - half < end || left + half > view.paneWidth - 4) continue;
    label(String(x), left, view.height - 7);
    end = left + half + 8;
  }
  context.textAlign = "left";
  for (const y of ys) {
    const [, top] = view.toPixels(0, y);
    if (top > BELOW && top < view.height - 24) label(String(y), 6, top + 4);
  }
  context.restore();
}

/** Paints the title of a pane, in its middle: at the top, or in a narrow pane above what lies at the foot. */
export function paintTitle(context, /** @type {View} */ view, colours, /** @type {string} */ title) {
  context.save();
  context.font = "600 13px system-ui, sans-serif";
  context.textAlign = "center";
  context.lineWidth = 4;
  context.lineJoin = "round";
  context.strokeStyle = colours.ground;
  context.fillStyle = colours.label;
  const down = view.paneWidth < NARROW ? view.height - 64 : 22;
  context.strokeText(title, view.paneWidth / 2, down);
  context.fillText(title, view.paneWidth / 2, down);
  context.restore();
}
