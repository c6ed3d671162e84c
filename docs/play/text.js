/**
 * The text of the program (docs/PROGRAM.md): lines of figures, and one line with the command.
 */

import { COMMANDS, DEFAULTS, FILLS, RULES, nameOf } from "./commands.js";
import { KINDS, LIMIT, noFigures } from "./drawing.js";

/** A fault in what is opened: its message says where it is. */
export class BadText extends Error {}

/** The words that the program reads after `run`, and what stands in the place of a command that it has not. */
export function commandWords(/** @type {import("./commands.js").Asked} */ asked) {
  const { command } = asked;
  const fill = FILLS[asked.fill].program;
  const look = [
    ...(asked.valid ? ["ogc"] : []),
    ...(asked.clockwise ? ["clockwise"] : []),
    ...(asked.keep ? ["keep"] : []),
    ...(asked.minimumArea ? ["min", String(asked.minimumArea)] : []),
  ];
  switch (command) {
    case "overlay":
    case "hierarchy":
      return [command, RULES[asked.rule].program, fill, ...look];
    case "simplify":
      return ["overlay", "Subject", fill, ...look];
    case "clip":
      return [command, fill, ...(asked.invert ? ["invert"] : []), ...(asked.boundary ? ["boundary"] : [])];
    case "tiles":
      return [command, fill, String(asked.width), String(asked.height)];
    case "locate":
      return [command];
    default:
      return [command, fill];
  }
}

/** Whether the program has a command that asks the same. */
export const isInText = (/** @type {import("./commands.js").Asked} */ { command, fill }) =>
  command !== "locate" || fill === "evenodd";

/** A line of the program for each path of the kinds. */
export function figureLines(/** @type {import("./drawing.js").Figures} */ figures, kinds = KINDS) {
  return kinds.flatMap((kind) => figures[kind].map((path) => `${kind} ${path.flat().join(" ")}`));
}

/** The text of a drawing: all that is drawn, and the command. */
export function textOf(/** @type {{figures: any, asked: any}} */ drawing) {
  return [...figureLines(drawing.figures), `run ${commandWords(drawing.asked).join(" ")}`, ""].join("\n");
}

/** The numbers of a line. */
function numbersIn(/** @type {string[]} */ words, /** @type {string} */ where) {
  return words.map((word) => {
    if (!/^-?[0-9]+$/.test(word)) throw new BadText(`${where}: ${word} is no whole number`);
    const number = Number(word);
    if (Math.abs(number) > LIMIT) throw new BadText(`${where}: ${word} is beyond ${LIMIT}, the most on this page`);
    return number + 0;
  });
}

/** Adds the path of a line. */
function addFigure(figures, /** @type {string[]} */ words, /** @type {string} */ where) {
  const kind = words[0];
  const numbers = numbersIn(words.slice(1), where);
  if (numbers.length % 2) throw new BadText(`${where}: an odd count of numbers`);
  const path = [];
  for (let at = 0; at < numbers.length; at += 2) path.push([numbers[at], numbers[at + 1]]);
  if (kind === "point" && path.length !== 1) throw new BadText(`${where}: a point has two numbers`);
  if (path.length) figures[kind].push(path);
}

/** Takes the words of the options of a command. */
function takeOptions(asked, /** @type {string[]} */ words, /** @type {string} */ where) {
  const names = { ogc: "valid", clockwise: "clockwise", keep: "keep", invert: "invert", boundary: "boundary" };
  const seen = new Set();
  while (words.length) {
    const word = /** @type {string} */ (words.shift());
    const name = word === "min" ? "minimumArea" : names[word];
    if (!Object.hasOwn(names, word) && word !== "min") throw new BadText(`${where}: ${word} is no option`);
    if (!COMMANDS[asked.command].options.includes(name)) throw new BadText(`${where}: ${word} is no option here`);
    if (seen.has(word)) throw new BadText(`${where}: ${word} comes twice`);
    seen.add(word);
    asked[name] = word === "min" ? numbersIn([words.shift() ?? ""], where)[0] : true;
    if (asked[name] < 0) throw new BadText(`${where}: min takes a whole number from 0 on`);
  }
}

/** The sides of a cell of a grid. */
function cellIn(/** @type {string[]} */ words, /** @type {string} */ where) {
  const [width, height] = numbersIn(words, where);
  if (!(width >= 1 && height >= 1)) throw new BadText(`${where}: a cell has a width and a height, of at least 1`);
  return { width, height };
}

/**
 * What the words after `run` ask for.
 *
 * @returns {import("./commands.js").Asked}
 */
export function askedIn(/** @type {string[]} */ given, where = "the command") {
  const words = given.slice();
  const asked = { ...DEFAULTS, valid: false };
  const command = words.shift() ?? "";
  if (!Object.hasOwn(COMMANDS, command)) throw new BadText(`${where}: ${command || "nothing"} is no command here`);
  asked.command = /** @type {any} */ (command);
  const { options } = COMMANDS[command];
  // (the program locates points in contours that are joined by exclusive or)
  if (command === "locate") asked.fill = "evenodd";
  else for (const [option, table] of /** @type {[string, any][]} */ ([["rule", RULES], ["fill", FILLS]])) {
    if (!options.includes(option)) continue;
    const name = nameOf(table, words.shift() ?? "");
    if (name === undefined) throw new BadText(`${where}: an unknown ${option} rule`);
    asked[option] = name;
  }
  if (command === "tiles") Object.assign(asked, cellIn(words.splice(0, 2), where));
  takeOptions(asked, words, where);
  return asked;
}

/**
 * The figures and the command of a text. A text without a command is taken too: then the command is null.
 *
 * @returns {{figures: import("./drawing.js").Figures, asked: import("./commands.js").Asked | null}}
 */
export function drawingIn(/** @type {string} */ text) {
  const figures = noFigures();
  let asked = null;
  text.split(/\r?\n/).forEach((line, at) => {
    const words = line.split(" ").filter(Boolean);
    const where = `line ${at + 1}`;
    if (!words.length) return;
    if (asked) throw new BadText(`${where}: it stands behind the command`);
    if (words[0] === "run") asked = askedIn(words.slice(1), where);
    else if (Object.hasOwn(figures, words[0])) addFigure(figures, words, where);
    else throw new BadText(`${where}: ${words[0]} is not one of subject, clip, line, point and run`);
  });
  return { figures, asked };
}
