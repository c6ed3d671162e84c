/** Two stars round nearly the same centre, with as many edges as are asked for. */

import { noFigures } from "./drawing.js";

export const RADIUS = 10000;
/** The numbers of edges of both stars together that can be chosen, and the place of the first choice. */
export const EDGES = [20, 40, 100, 200, 400, 1000, 2000, 4000, 10000, 20000];
export const FIRST = 1;

/**
 * A star of whole points.
 *
 * @returns {import("./drawing.js").Path}
 */
function star(/** @type {number} */ middle, /** @type {number} */ spikes, /** @type {number} */ phase) {
  const inner = RADIUS * (1 - 1.2 / Math.sqrt(spikes));
  return Array.from({ length: 2 * spikes }, (_, at) => {
    const angle = phase + (Math.PI * at) / spikes;
    const far = at % 2 ? inner : RADIUS;
    return [Math.round(middle + far * Math.cos(angle)) + 0, Math.round(far * Math.sin(angle)) + 0];
  });
}

/**
 * A subject and a clip, turned by an angle against each other. The more spikes they have, the nearer are their centres:
 * so each spike meets few others.
 */
export function starsOf(/** @type {number} */ edges, turn = 0) {
  const spikes = Math.round(edges / 4);
  const apart = (0.75 * RADIUS) / spikes;
  const [subject, clip] = [[star(-apart, spikes, turn)], [star(apart, spikes, Math.PI / spikes - turn)]];
  return { ...noFigures(), subject, clip };
}
