/** The lens: round the pointer, nodes in their squares of half a unit to each side, and edges as they were before. */

import { nodesOf } from "./answers.js";
import { COMMANDS } from "./commands.js";
import { stepsOf } from "./drawing.js";
import { crossings } from "./measure.js";
import { paintMarks } from "./painter.js";
import { View, multiples } from "./view.js";

/** How wide the lens is from its middle, and how many pixels a unit takes there at least. */
export const RADIUS = 100;
const UNIT = 40;
/** The most steps in the lens of which crossings are shown. */
const MOST = 300;

/** Whether a step may pass through a box. */
const isIn = (/** @type {number[]} */ [left, low, right, high]) => (/** @type {any} */ [[ax, ay], [bx, by]]) =>
  Math.max(ax, bx) >= left && Math.min(ax, bx) <= right && Math.max(ay, by) >= low && Math.min(ay, by) <= high;

/** Marks of what lies in a box: steps as given, where they cross, edges after snapping, and where points went. */
function marksIn(/** @type {import("./answers.js").Answer} */ answer, box) {
  const { figures, asked } = answer.drawing;
  const steps = stepsOf(figures, COMMANDS[asked.command].takes).filter(isIn(box));
  const edges = (answer.edges ?? answer.arrangement ?? []).filter(isIn(box));
  const found = steps.length > MOST ? [] : crossings(steps);
  const moved = found.filter((point) => point.some((each) => each !== Math.round(each)));
  return /** @type {import("./scene.js").Mark[]} */ ([
    { type: "square", colour: "node", paths: nodesOf(edges).map((node) => [node]) },
    { type: "path", colour: "edge", paths: edges.map(([a, b]) => [a, b]), width: 2 },
    { type: "path", colour: "before", paths: steps, width: 1.2 },
    { type: "hop", colour: "before", paths: moved.map(([x, y]) => [[x, y], [Math.round(x), Math.round(y)]]) },
    { type: "ring", colour: "before", paths: moved.map((each) => [each]) },
    { type: "dot", colour: "node", paths: nodesOf(edges).map((node) => [node]), width: 3 },
  ]);
}

/** Paints the whole points of the lens, as small crosses. */
function paintWhole(context, view, colours, /** @type {number[]} */ [left, low, right, high]) {
  context.beginPath();
  for (const x of multiples(left, right, 1)) {
    for (const y of multiples(low, high, 1)) {
      const [across, down] = view.toPixels(x, y);
      context.moveTo(across - 3, down);
      context.lineTo(across + 3, down);
      context.moveTo(across, down - 3);
      context.lineTo(across, down + 3);
    }
  }
  context.lineWidth = 1;
  context.strokeStyle = colours.label;
  context.stroke();
}

/** Paints the lens round some pixels of a pane. */
export function paintLens(context, /** @type {View} */ outer, [across, down], answer, colours) {
  const [x, y] = [(across - outer.paneWidth / 2) / outer.scale + outer.x, outer.toPoint(0, down)[1]];
  const size = { width: 2 * RADIUS, height: 2 * RADIUS };
  const view = Object.assign(new View(), size, { x, y, scale: Math.max(UNIT, outer.scale) });
  const reach = RADIUS / view.scale + 1;
  const box = [x - reach, y - reach, x + reach, y + reach];
  context.save();
  context.translate(across - RADIUS, down - RADIUS);
  context.beginPath();
  context.arc(RADIUS, RADIUS, RADIUS, 0, 2 * Math.PI);
  context.fillStyle = colours.ground;
  context.fill();
  context.lineWidth = 5;
  context.strokeStyle = colours.accent;
  context.stroke();
  context.clip();
  paintWhole(context, view, colours, box);
  if (answer) paintMarks(context, view, marksIn(answer, box), colours);
  context.restore();
}
