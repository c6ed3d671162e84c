/**
 * The link that holds a drawing: its hash has the lines of the program's text, and what else the page shows.
 */

import { isOption } from "./commands.js";
import { KINDS } from "./drawing.js";
import { BadText, askedIn, commandWords, drawingIn } from "./text.js";

const SOLVERS = ["snapped", "rounds"];
const FILLS = ["nonzero", "positive", "negative"];
const NAMES = [...KINDS, "run", "solver", "fill", "digits"];

/**
 * What is asked for: the words of the program behind `run`, and what it has no words for, as far as that is not the
 * default. Relations with a solver are those of the arrangement, and else of the contours.
 *
 * @returns {Record<string, string>}
 */
export function questionOf(/** @type {import("./commands.js").Asked} */ asked) {
  const { command, solver } = asked;
  const run = [command, ...commandWords(asked).slice(command === "simplify" ? 2 : 1)].join(" ");
  return {
    run,
    ...(isOption(asked, "solver") && (asked.solver !== "snapped" || command === "relate") ? { solver } : {}),
    ...(command === "locate" && asked.fill !== "evenodd" ? { fill: asked.fill } : {}),
  };
}

/**
 * What a question asks for. A fault in it is a `BadText`.
 *
 * @returns {import("./commands.js").Asked}
 */
export function askedOf(/** @type {{run: string, solver?: string | null, fill?: string | null}} */ question) {
  const asked = askedIn(question.run.split(" "));
  asked.solver = /** @type {any} */ (oneOf(SOLVERS, question.solver ?? "snapped", "solver"));
  if (asked.command === "relate" && question.solver) asked.of = "arrangement";
  if (question.solver && !isOption(asked, "solver")) throw new BadText("solver is no option here");
  if (question.fill) asked.fill = oneOf(asked.command === "locate" ? FILLS : [], question.fill, "fill rule");
  return asked;
}

/** A word, if it is one of some. */
function oneOf(/** @type {string[]} */ words, /** @type {string} */ word, /** @type {string} */ what) {
  if (!words.includes(word)) throw new BadText(`${word} is no ${what} here`);
  return word;
}

/**
 * The hash of a drawing, without the `#`.
 *
 * @param {import("./state.js").Drawing} drawing
 */
export function hashOf({ figures, asked, digits }) {
  const words = new URLSearchParams();
  for (const kind of KINDS) {
    for (const path of figures[kind]) words.append(kind, path.flat().join(" "));
  }
  for (const [name, word] of Object.entries(questionOf(asked))) words.set(name, word);
  if (digits) words.set("digits", String(digits));
  return words.toString();
}

/**
 * The drawing of a hash, or null where there is none. A fault in it is a `BadText`.
 *
 * @returns {import("./state.js").Drawing | null}
 */
export function drawingOfHash(/** @type {string} */ hash) {
  const words = new URLSearchParams(hash.replace(/^#/, ""));
  const names = [...words.keys()];
  if (!names.length) return null;
  const unknown = names.find((name) => !NAMES.includes(name));
  if (unknown !== undefined) throw new BadText(`${unknown} is no part of a drawing`);
  const twice = names.find((name, at) => !KINDS.includes(/** @type {any} */ (name)) && names.indexOf(name) < at);
  if (twice !== undefined) throw new BadText(`${twice} comes twice`);
  const run = words.get("run");
  if (run === null) throw new BadText("it has no command: it may be cut short");
  const figures = figuresIn(words);
  const asked = askedOf({ run, solver: words.get("solver"), fill: words.get("fill") });
  return { figures, asked, digits: digitsIn(words.get("digits") ?? "0") };
}

/** The figures of a hash, each of which is one line of the program. */
function figuresIn(/** @type {URLSearchParams} */ words) {
  const lines = KINDS.flatMap((kind) => words.getAll(kind).map((numbers) => `${kind} ${numbers}`));
  const broken = lines.findIndex((line) => /[\r\n]/.test(line));
  if (broken >= 0) throw new BadText(`line ${broken + 1}: it has a line break`);
  return drawingIn(lines.join("\n")).figures;
}

/** The number of digits behind the point, from 0 to 15. */
function digitsIn(/** @type {string} */ word) {
  if (!/^([0-9]|1[0-5])$/.test(word)) throw new BadText(`${word} is no number of digits from 0 to 15`);
  return Number(word);
}
