/**
 * The commands, what each of them takes and answers, and the words for rules in each language.
 *
 * @typedef {import("./drawing.js").Kind} Kind
 * @typedef {"overlay" | "hierarchy" | "simplify" | "relate" | "clip" | "slice" | "tiles" | "locate" | "edges"} Name
 * @typedef {"shapes" | "paths" | "edges" | "relations" | "locations"} AnswerKind
 * @typedef {{takes: Kind[], answers: AnswerKind, says: string, options: string[]}} Command
 *
 * @typedef {object} Asked  all that is asked for; a command reads its own part
 * @property {Name} command
 * @property {string} rule  a key of RULES
 * @property {string} fill  a key of FILLS
 * @property {"snapped" | "rounds"} solver
 * @property {"contours" | "arrangement"} of  whose relations are told: of the contours as drawn no solver is asked
 * @property {boolean} valid  no contour visits a point twice
 * @property {boolean} clockwise
 * @property {boolean} keep
 * @property {number} minimumArea
 * @property {boolean} invert
 * @property {boolean} boundary
 * @property {number} width  of a cell of a grid
 * @property {number} height
 */

const FILLED = ["fill", "solver"];
const LOOK = [...FILLED, "valid", "clockwise", "keep", "minimumArea"];

/** @returns {Command} */
const command = (
  /** @type {Kind[]} */ takes,
  /** @type {AnswerKind} */ answers,
  /** @type {string[]} */ options,
  /** @type {string} */ says,
) => ({ takes, answers, options, says });

const [REGIONS, LINES] = /** @type {Kind[][]} */ ([["subject", "clip"], ["subject", "line"]]);

/** @type {Record<string, Command>} */
export const COMMANDS = {
  overlay: command(REGIONS, "shapes", ["rule", ...LOOK], "The shapes round the region where the rules hold."),
  hierarchy: command(REGIONS, "shapes", ["rule", ...LOOK], "The same shapes, and which of them lie in holes of which."),
  simplify: command(
    ["subject"],
    "shapes",
    LOOK,
    "The shapes round what the subject fills; one simple contour stays as it is.",
  ),
  relate: command(
    REGIONS,
    "relations",
    ["of", ...FILLED],
    "How subject and clip lie to each other, as they are drawn: nothing is rounded.",
  ),
  clip: command(LINES, "paths", [...FILLED, "invert", "boundary"], "The parts of the lines inside the subject."),
  slice: command(LINES, "shapes", FILLED, "The shapes into which the lines cut the subject."),
  tiles: command(
    ["subject"],
    "shapes",
    [...FILLED, "width", "height"],
    "The shapes into which the cells of a grid cut the subject. A node of the grid is at (0, 0).",
  ),
  locate: command(
    ["subject", "point"],
    "locations",
    FILLED,
    "Where each point lies: inside, on the boundary or outside. Even-odd joins contours by exclusive or.",
  ),
  edges: command(
    REGIONS,
    "edges",
    FILLED,
    "The edges of the arrangement, after snapping, and the sides that are filled.",
  ),
};

/** The overlay rules: what each takes, and its words. */
export const RULES = {
  union: { label: "Union", program: "Union", c: "POLYOVER_UNION" },
  intersect: { label: "Intersect", program: "Intersect", c: "POLYOVER_INTERSECT" },
  difference: { label: "Difference", program: "Difference", c: "POLYOVER_DIFFERENCE" },
  inverse_difference: {
    label: "Inverse difference",
    program: "InverseDifference",
    c: "POLYOVER_INVERSE_DIFFERENCE",
  },
  xor: { label: "Exclusive or", program: "Xor", c: "POLYOVER_XOR" },
  subject: { label: "Subject", program: "Subject", c: "POLYOVER_SUBJECT" },
  clip: { label: "Clip", program: "Clip", c: "POLYOVER_CLIP" },
};

/** The fill rules: which windings each fills, and its words. */
export const FILLS = {
  nonzero: { label: "Nonzero", program: "NonZero", c: "POLYOVER_NON_ZERO" },
  evenodd: { label: "Even-odd", program: "EvenOdd", c: "POLYOVER_EVEN_ODD" },
  positive: { label: "Positive", program: "Positive", c: "POLYOVER_POSITIVE" },
  negative: { label: "Negative", program: "Negative", c: "POLYOVER_NEGATIVE" },
};

/** The relations, in the order in which they are told. */
export const RELATIONS = [
  "intersects",
  "interiors_intersect",
  "touches",
  "point_intersects",
  "within",
  "disjoint",
  "covers",
];

/** Where a point lies, by its number. */
export const LOCATIONS = ["outside", "inside", "boundary"];

/** @type {Asked} */
export const DEFAULTS = {
  command: "overlay",
  rule: "union",
  fill: "nonzero",
  solver: "snapped",
  of: "contours",
  valid: true,
  clockwise: false,
  keep: false,
  minimumArea: 0,
  invert: false,
  boundary: false,
  width: 10,
  height: 10,
};

/** Whose relations are told. */
export const OF = { contours: { label: "Contours" }, arrangement: { label: "Arrangement" } };
const ARRANGED =
  "How they lie to each other in the arrangement, whose points are rounded, at the finest scale in the range.";

/** Whether a command has an option. No solver is asked for relations of contours as drawn, nor where points lie. */
export function isOption(/** @type {Asked} */ { command, of }, /** @type {string} */ name) {
  const isExact = command === "relate" ? of === "contours" : command === "locate";
  return COMMANDS[command].options.includes(name) && !(isExact && name === "solver");
}

/** What a command answers, in words. */
export function saysOf(/** @type {Asked} */ { command, of }) {
  return command === "relate" && of === "arrangement" ? ARRANGED : COMMANDS[command].says;
}

/** @returns {Asked} the same question to the other solver */
export function otherSolver(/** @type {Asked} */ asked) {
  return { ...asked, solver: asked.solver === "snapped" ? "rounds" : "snapped" };
}

/** The name whose word of the program is this one, or undefined. */
export function nameOf(/** @type {Record<string, {program: string}>} */ table, /** @type {string} */ word) {
  return Object.keys(table).find((name) => table[name].program === word);
}
