/** The call in JavaScript that gives an answer. */

import { isOption } from "../commands.js";

/** A list of paths. */
const listed = (/** @type {number[][][]} */ paths) =>
  `[${paths.map((path) => `[${path.map(([x, y]) => `[${x}, ${y}]`).join(", ")}]`).join(",\n  ")}]`;

/** Whether a solver is no default: of relations each is none, since these are told without a solver. */
const isSolverNamed = (/** @type {import("../commands.js").Asked} */ asked) =>
  isOption(asked, "solver") && (asked.solver !== "snapped" || asked.command === "relate");

/** The options of a call that are not the defaults, as an object, or nothing. */
function optionsOf(/** @type {import("../commands.js").Asked} */ asked, /** @type {string[]} */ names) {
  const told = {
    rule: asked.rule !== "union" && JSON.stringify(asked.rule),
    fill: asked.fill !== "nonzero" && JSON.stringify(asked.fill),
    solver: isSolverNamed(asked) && JSON.stringify(asked.solver),
    touching: !asked.valid && "true",
    clockwise: asked.clockwise && "true",
    keep: asked.keep && "true",
    minimumArea: asked.minimumArea > 0 && `${asked.minimumArea}`,
    invert: asked.invert && "true",
    boundary: asked.boundary && "true",
  };
  const words = names.filter((name) => told[name]).map((name) => `${name}: ${told[name]}`);
  return words.length ? [`{ ${words.join(", ")} }`] : [];
}

/** The lines of a program in JavaScript. */
export function javascriptOf(/** @type {import("../state.js").Drawing} */ { figures, asked }) {
  const names = { subject: "subject", clip: "clip", line: "lines" };
  const given = (/** @type {string} */ kind) => `const ${names[kind]} = ${listed(figures[kind])};`;
  const look = ["fill", "solver", "touching", "clockwise", "keep", "minimumArea"];
  const call = (/** @type {string[]} */ words, /** @type {string[]} */ options) =>
    `console.log(polyover.${asked.command}(${[...words, ...optionsOf(asked, options)].join(", ")}));`;
  const both = [given("subject"), given("clip")];
  const lines = [given("subject"), given("line")];
  const points = `const points = [${figures.point.map(([[x, y]]) => `[${x}, ${y}]`).join(", ")}];`;
  const prepared = `polyover.prepare(${["subject", ...optionsOf(asked, ["fill"])].join(", ")})`;
  const locate = asked.fill === "evenodd" ? "polyover.locate(subject, " : `${prepared}.locate(`;
  const located = `console.log(${locate}points));`;
  const parts = {
    overlay: [...both, call(["subject", "clip"], ["rule", ...look])],
    hierarchy: [...both, call(["subject", "clip"], ["rule", ...look])],
    simplify: [given("subject"), call(["subject"], look)],
    relate: [...both, call(["subject", "clip"], ["fill", "solver"])],
    clip: [...lines, call(["subject", "lines"], ["fill", "invert", "boundary", "solver"])],
    slice: [...lines, call(["subject", "lines"], ["fill", "solver"])],
    tiles: [given("subject"), call(["subject", `${asked.width}`, `${asked.height}`], ["fill", "solver"])],
    locate: [given("subject"), points, located],
    edges: [...both, call(["subject", "clip"], ["fill", "solver"])],
  };
  const head = ['import { load } from "polyover";', "", "const polyover = await load();"];
  return [...head, ...parts[asked.command], ""].join("\n");
}
