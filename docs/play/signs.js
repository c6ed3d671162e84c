/** Signs that tell marks of a kind apart without their colours: on the board, and in pictures that are saved. */

/** How a contour is dashed over the answer, by its kind. */
export const DASHES = { subject: [7, 4], clip: [2, 3] };
/** How an edge is dashed that is not as the arrangement has it. */
export const PATH_DASHES = { before: [8, 4] };
/** The shapes of points by where they lie. */
export const SHAPES = { inside: "disc", boundary: "square", outside: "cross" };
/** Whose ticks end in a foot, which is this many pixels long to each side. */
export const FEET = { clip: 3 };

/** The shape of a point. */
export const shapeOf = (/** @type {string} */ name) => SHAPES[name] ?? "disc";

/**
 * A tick on an edge, in pixels: the place on the edge, the way to its other end, and half of its foot.
 *
 * @param {import("./view.js").View} view
 * @param {import("./scene.js").Mark} mark
 * @param {number[][]} edge
 * @param {number} size  how long it is
 */
export function tickOf(view, { side = 1, along = 0.5, colour }, edge, size) {
  const [[ax, ay], [bx, by]] = edge;
  const [left, top] = view.toPixels(ax + (bx - ax) * along, ay + (by - ay) * along);
  const length = Math.hypot(bx - ax, by - ay) || 1;
  const [x, y] = [(bx - ax) / length, (by - ay) / length];
  const foot = FEET[colour] ?? 0;
  return { place: [left, top], way: [-y * size * side, -x * size * side], foot: [x * foot, -y * foot] };
}
