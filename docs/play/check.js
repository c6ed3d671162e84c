/**
 * Checks an answer: round random points it has to wind once where the rules hold of the windings of the contours as
 * drawn, and else not at all. Points too near to a contour are left out: there snapping may have moved an edge past.
 */

import { FARTHEST, PARTS, Windings, isNear } from "./windings.js";

export const POINTS = 10000;
/** The most points that are tried, left out or not. */
const TRIED = 20 * POINTS;
/** How far edges may move, in units: half a unit by snap rounding, and as much in each of 64 rounds. */
const REACH = { snapped: 0.5, rounds: 32 };
const RULES = {
  union: (a, b) => a || b,
  intersect: (a, b) => a && b,
  difference: (a, b) => a && !b,
  inverse_difference: (a, b) => b && !a,
  xor: (a, b) => a !== b,
  subject: (a) => a,
  clip: (_, b) => b,
};
const FILLS = {
  nonzero: (winding) => winding !== 0,
  evenodd: (winding) => winding % 2 !== 0,
  positive: (winding) => winding > 0,
  negative: (winding) => winding < 0,
};

/** Whether a winding is filled by a fill rule. */
export const isFilled = (/** @type {string} */ fill, /** @type {number} */ winding) => FILLS[fill](winding);

/** Whether a region by the rules is checked of that answer; a minimum area leaves contours out of it. */
export const isChecked = (/** @type {import("./answers.js").Answer | null} */ answer) =>
  answer?.kind === "shapes" &&
  ["overlay", "hierarchy"].includes(answer.drawing.asked.command) &&
  answer.drawing.asked.minimumArea === 0;

export class Check {
  constructor(/** @type {import("./answers.js").Answer} */ answer) {
    const { figures, asked } = answer.drawing;
    this.asked = asked;
    this.reach = PARTS * REACH[asked.solver];
    this.windings = new Windings([figures.subject, figures.clip, (answer.shapes ?? []).flat()], this.reach);
    const points = [...figures.subject, ...figures.clip].flat();
    const all = [0, 1].map((axis) => points.map((point) => point[axis]));
    this.box = all.map((each) => [least(each), -least(each.map((value) => -value))]);
    this.isTooFar = this.box.flat().some((value) => Math.abs(value) > FARTHEST);
    this.agreed = this.checked = this.inside = this.leftOut = 0;
    /** @type {number[] | null} the first point round which the answer winds otherwise */
    this.wrong = null;
  }

  get isDone() {
    return this.isTooFar || this.checked === POINTS || this.checked + this.leftOut >= TRIED || !this.windings.bands;
  }

  /** Tries some more points. */
  run(/** @type {number} */ count) {
    for (let at = 0; at < count && !this.isDone; at += 1) {
      const [x, y] = this.box.map(drawn);
      if (this.windings.near(y).some((step) => step[4] < 2 && isNear(step, x, y, this.reach))) this.leftOut += 1;
      else this.take(x, y);
    }
  }

  /** Compares the windings round a point. */
  take(/** @type {number} */ x, /** @type {number} */ y) {
    const { rule, fill, clockwise } = this.asked;
    const [subject, clip, answer] = this.windings.round(x, y);
    const wanted = RULES[rule](isFilled(fill, subject), isFilled(fill, clip)) ? (clockwise ? -1 : 1) : 0;
    this.checked += 1;
    this.inside += Number(wanted !== 0);
    if (answer === wanted) this.agreed += 1;
    else this.wrong ??= [x / PARTS, y / PARTS];
  }

  /** What was found, in words. */
  get said() {
    if (this.isTooFar) return "Coordinates are too large for this check.";
    const near = this.asked.solver === "snapped" ? "half a unit" : "32 units, half of one for each of 64 rounds,";
    if (!this.checked) return `No point was found that is not nearer than ${near} to a contour.`;
    const numbers = [this.agreed, this.checked, this.inside, this.leftOut].map((each) => each.toLocaleString("en"));
    const [agreed, checked, inside, leftOut] = numbers;
    const others = this.wrong ? ` The first of the others is (${this.wrong.join(", ")}).` : "";
    const left = `Left out, nearer than ${near} to a contour: ${leftOut}.`;
    return `${agreed} of ${checked} points agree; the rules hold at ${inside} of them.${others} ${left}`;
  }
}

/** The least of some numbers, 0 where there are none. */
const least = (/** @type {number[]} */ numbers) =>
  numbers.length ? numbers.reduce((found, each) => Math.min(found, each), Infinity) : 0;

/** A random number of parts between two coordinates, or a little beyond. */
function drawn([low, high]) {
  const beyond = (high - low) / 16 + 1;
  return Math.round(PARTS * (low - beyond + Math.random() * (high - low + 2 * beyond)));
}
