/**
 * What is drawn of a drawing and its answer, described once: a list of marks, which `painter.js` paints on the board
 * and `svg.js` writes as a picture. Colours are names of `palette.js`, as in the pictures of `python3 -m polyover svg`.
 *
 * @typedef {number[][]} Path
 *
 * @typedef {object} Mark
 * @property {"area" | "outline" | "path" | "dot" | "ring" | "square" | "tick" | "hop"} type
 * @property {string} colour
 * @property {Path[]} paths  an area's contours; of all others each mark stands for each path
 * @property {string} [fillRule]
 * @property {number} [strength]  of an area
 * @property {number} [width]  of a stroke, in pixels; of a dot, from its centre
 * @property {boolean} [dashed]
 * @property {number} [side]  of a tick: 1 above its edge, -1 below it
 * @property {number} [along]  where a tick stands along its edge
 * @property {number} [piece]  the piece of the answer that it shows
 */

import { COMMANDS } from "./commands.js";
import { stepsOf } from "./drawing.js";
import { crossings } from "./measure.js";

/** Of each bit of the filled sides: whose it is, on which side, and where along the edge its tick stands. */
const TICKS = [
  [1, "subject", 1, 0.45],
  [2, "subject", -1, 0.45],
  [4, "clip", 1, 0.55],
  [8, "clip", -1, 0.55],
];
/** The fill rules that canvases do not have. */
export const SIGNED = ["positive", "negative"];
const STRENGTHS = [0.25, 0.5, 0.37];
/** The number of steps up to which crossings before snapping are shown. */
const MOST_STEPS = 600;

/**
 * Marks of what was given: filled below the answer. Canvases have no rule Positive or Negative: by these the library
 * tells the regions, and while those of a drawing are on their way the ones before stand there.
 *
 * @param {import("./state.js").Drawing} drawing
 * @param {import("./answers.js").Answer | null} answer
 */
export function inputMarks({ figures, asked }, answer = null) {
  const fillRule = asked.fill === "evenodd" ? "evenodd" : "nonzero";
  const isSigned = SIGNED.includes(asked.fill);
  const regions = isSigned && answer?.drawing.asked.fill === asked.fill ? answer.regions : undefined;
  const { takes } = COMMANDS[asked.command];
  /** @type {Mark[]} */
  const marks = [];
  for (const kind of ["subject", "clip"]) {
    const strength = takes.includes(/** @type {any} */ (kind)) ? 0.25 : 0.06;
    const width = asked.command === "edges" ? 0 : 1.2;
    const area = { colour: kind, strength };
    if (isSigned) {
      marks.push({ type: "area", ...area, paths: regions?.[kind] ?? [], fillRule: "evenodd", width: 0 });
      if (width) marks.push({ type: "outline", colour: kind, paths: figures[kind], width });
    } else marks.push({ type: "area", ...area, paths: figures[kind], fillRule, width });
  }
  const width = takes.includes("line") ? 2.2 : 1;
  marks.push({ type: "path", colour: "line", paths: figures.line, width });
  return marks;
}

/** Marks of what was given that stand over the answer: dashed outlines, and points that are not located. */
export function outlineMarks(/** @type {import("./state.js").Drawing} */ { figures, asked }) {
  const kinds = COMMANDS[asked.command].answers === "shapes" ? ["subject", "clip"] : [];
  /** @type {Mark[]} */
  const marks = kinds.map((kind) => ({ type: "outline", colour: kind, paths: figures[kind], dashed: true }));
  if (asked.command !== "locate") marks.push({ type: "dot", colour: "point", paths: figures.point, width: 5 });
  return marks;
}

/** Marks of edges, with a tick on each filled side. */
function edgeMarks(edges, hasTicks = true) {
  /** @type {Mark[]} */
  const marks = [{ type: "path", colour: "edge", paths: edges.map(([a, b]) => [a, b]), width: 1.4 }];
  for (const [bit, colour, side, along] of hasTicks ? TICKS : []) {
    const paths = edges.filter(([, , fill]) => fill & Number(bit)).map(([a, b]) => [a, b]);
    marks.push(/** @type {Mark} */ ({ type: "tick", colour, paths, side, along }));
  }
  return marks;
}

/** Marks of edges before snapping: straight, with their crossings, each joined to the whole point nearby. */
function beforeMarks(/** @type {import("./answers.js").Answer} */ answer) {
  const { figures, asked } = answer.drawing;
  const steps = stepsOf(figures, COMMANDS[asked.command].takes);
  /** @type {Mark[]} */
  const marks = [{ type: "path", colour: "before", paths: steps, width: 1.4 }];
  if (steps.length > MOST_STEPS) return marks;
  const found = crossings(steps);
  const hops = found.map(([x, y]) => [[x, y], [Math.round(x), Math.round(y)]]);
  marks.push({ type: "hop", colour: "before", paths: hops });
  marks.push({ type: "ring", colour: "before", paths: found.map((each) => [each]) });
  return marks;
}

/** Marks of the pieces of an answer: shapes are filled, by turns a little stronger. */
function pieceMarks(/** @type {import("./answers.js").Answer} */ answer) {
  /** @type {Mark[]} */
  const shapes = (answer.shapes ?? []).map((paths, piece) => ({
    type: "area",
    colour: "answer",
    paths,
    fillRule: "evenodd",
    strength: STRENGTHS[piece % STRENGTHS.length],
    width: 2.2,
    piece,
  }));
  const paths = (answer.paths ?? []).map((path, piece) =>
    /** @type {Mark} */ ({ type: "path", colour: "answer", paths: [path], width: 3.4, piece }),
  );
  return [...shapes, ...paths];
}

/** Marks of located points, by where they lie. */
function locationMarks(/** @type {import("./answers.js").Answer} */ answer) {
  return ["inside", "boundary", "outside"].map((colour) => ({
    type: "dot",
    colour,
    width: 5.5,
    paths: answer.drawing.figures.point.filter((_, at) => answer.locations?.[at] === colour),
  }));
}

/**
 * Marks of an answer.
 *
 * @returns {Mark[]}
 */
export function answerMarks(/** @type {import("./answers.js").Answer | null} */ answer, looks) {
  if (!answer) return [];
  const marks = pieceMarks(answer);
  if (answer.edges) {
    if (looks.snapping !== "after") marks.push(...beforeMarks(answer));
    if (looks.snapping !== "before") marks.push(...edgeMarks(answer.edges));
  } else if (answer.arrangement && looks.sides) marks.push(...edgeMarks(answer.arrangement));
  if (answer.locations) marks.push(.../** @type {Mark[]} */ (locationMarks(answer)));
  return marks;
}

/** Marks of the nodes of the arrangement: the ends of its edges. */
export function nodeMarks(/** @type {import("./answers.js").Answer | null} */ answer, looks) {
  if (!looks.nodes || !answer?.nodes) return [];
  return [/** @type {Mark} */ ({ type: "dot", colour: "node", paths: answer.nodes.map((node) => [node]) })];
}

/** What the colours of some marks stand for, each once: their names, and how they look. */
export function legendOf(/** @type {Mark[]} */ marks) {
  const kinds = { area: "area", dot: "dot", ring: "dot", path: "path" };
  const found = new Map();
  for (const { type, colour, paths } of marks) {
    if (kinds[type] && paths.length && !found.has(colour)) found.set(colour, kinds[type]);
  }
  return [...found];
}
