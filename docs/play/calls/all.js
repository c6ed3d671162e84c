/** The calls that give an answer, by their languages. */

import { COMMANDS, isOption } from "../commands.js";
import { pointCount, noFigures } from "../drawing.js";
import { commandWords, figureLines, isInText } from "../text.js";
import { cOf } from "./c.js";
import { finestOf } from "./finest.js";
import { javascriptOf } from "./javascript.js";
import { pythonOf } from "./python.js";
import { rattleOf } from "./rattle.js";

/** Calls are written of at most this many points. */
const MOST = 2000;
const TOO_MANY = `(of more than ${MOST.toLocaleString("en")} points no call is written: save them)`;

/** Calls that take relations of the arrangement at the scale of the coordinates as they are. */
const SCALED = ["c", "rattle", "program"];

/** Whether a call is written of coordinates at the finest scale. (The program tells relations of the arrangement.) */
const isScaled = (/** @type {string} */ name, /** @type {import("../commands.js").Asked} */ { command, of }) =>
  command === "relate" && SCALED.includes(name) && (of === "arrangement" || name === "program");
const FINEST = "Coordinates are times a power of two: relations are told at the finest scale in the range.";
const OTHERS = "The page answers of the contours as drawn, the program of the arrangement, which may differ.";
const NO_RULE = "(the program locates points in contours that are joined by exclusive or: choose Even-odd)";

/** The lines of the program. */
function programOf({ figures, asked }) {
  if (!isInText(asked)) return NO_RULE;
  const lines = figureLines(figures, COMMANDS[asked.command].takes);
  return [...lines, `run ${commandWords(asked).join(" ")}`, ""].join("\n");
}

/** @type {{name: string, label: string, write: (drawing: any) => string}[]} */
export const LANGUAGES = [
  { name: "python", label: "Python", write: pythonOf },
  { name: "c", label: "C", write: cOf },
  { name: "javascript", label: "JavaScript", write: javascriptOf },
  { name: "rattle", label: "Rattle", write: rattleOf },
  { name: "program", label: "Program", write: programOf },
];

/** In which the answer of a call may differ from that of the page. */
export function noteOf(/** @type {string} */ name, /** @type {import("../commands.js").Asked} */ asked) {
  const finest = isScaled(name, asked) && FINEST;
  if (name !== "program") return finest || "";
  const isOfContours = asked.command === "relate" && asked.of === "contours";
  const notes = [
    asked.command === "simplify" && "It has no command simplify: one simple contour may begin at another point.",
    isOfContours && OTHERS,
    (isOfContours || (asked.solver === "snapped" && isOption(asked, "solver"))) && "It splits edges in rounds.",
  ];
  return [...notes, finest].filter(Boolean).join(" ");
}

/** The call in a language that gives the answer to a drawing. */
export function callOf(/** @type {string} */ name, /** @type {import("../state.js").Drawing} */ drawing) {
  const { takes } = COMMANDS[drawing.asked.command];
  const taken = { ...noFigures(), ...Object.fromEntries(takes.map((kind) => [kind, drawing.figures[kind]])) };
  const figures = isScaled(name, drawing.asked) ? finestOf(taken) : taken;
  if (pointCount(figures) > MOST) return TOO_MANY;
  const language = LANGUAGES.find((each) => each.name === name) ?? LANGUAGES[0];
  return language.write({ ...drawing, figures });
}
