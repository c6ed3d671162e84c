/** The call in Python that gives an answer. */

import { isOption } from "../commands.js";

/** A list of paths in Python. */
const listed = (/** @type {number[][][]} */ paths) =>
  `[${paths.map((path) => `[${path.map(([x, y]) => `(${x}, ${y})`).join(", ")}]`).join(",\n    ")}]`;

const quoted = (/** @type {string} */ name) => `"${name}"`;

/** The options of a call that are not the defaults. */
function optionsOf(/** @type {import("../commands.js").Asked} */ asked) {
  const look = [
    ...(asked.valid ? [] : ["ogc=False"]),
    ...(asked.clockwise ? ["clockwise=True"] : []),
    ...(asked.keep ? ["keep=True"] : []),
    ...(asked.minimumArea ? [`minimum_area=${asked.minimumArea}`] : []),
  ];
  // (relations are told without a solver if none is named)
  const isNamed = isOption(asked, "solver") && (asked.solver !== "snapped" || asked.command === "relate");
  const solver = isNamed ? [`solver="${asked.solver}"`] : [];
  return { look: [...look, ...solver], solver };
}

/** The lines of a program in Python. */
export function pythonOf(/** @type {import("../state.js").Drawing} */ { figures, asked }) {
  const { look, solver } = optionsOf(asked);
  const fill = quoted(asked.fill);
  const names = { subject: "subject", clip: "clip", line: "lines" };
  const given = (/** @type {string} */ kind) => `${names[kind]} = ${listed(figures[kind])}`;
  const both = [given("subject"), given("clip")];
  const lines = [given("subject"), given("line")];
  const points = `points = [${figures.point.map(([[x, y]]) => `(${x}, ${y})`).join(", ")}]`;
  const call = (/** @type {string} */ name, ...words) => `print(polyover.${name}(${words.join(", ")}))`;
  const clipped = ["invert", "boundary"].filter((name) => asked[name]).map((name) => `${name}=True`);
  const prepared = `polyover.Prepared(subject, ${fill})`;
  const located = `print(${asked.fill === "evenodd" ? "polyover.locate(subject, " : `${prepared}.locate(`}points))`;
  const parts = {
    overlay: [...both, call("overlay", "subject", "clip", quoted(asked.rule), fill, ...look)],
    hierarchy: [...both, call("hierarchy", "subject", "clip", quoted(asked.rule), fill, ...look)],
    simplify: [given("subject"), call("simplify", "subject", fill, ...look)],
    relate: [...both, call("relate", "subject", "clip", fill, ...solver)],
    clip: [...lines, call("clip", "subject", "lines", fill, ...clipped, ...solver)],
    slice: [...lines, call("slice", "subject", "lines", fill, ...solver)],
    tiles: [given("subject"), call("tiles", "subject", asked.width, asked.height, fill, ...solver)],
    locate: [given("subject"), points, located],
    edges: [...both, call("edges", "subject", "clip", fill, ...solver)],
  };
  return ["import polyover", "", ...parts[asked.command], ""].join("\n");
}
