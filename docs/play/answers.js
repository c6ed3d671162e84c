/**
 * Answers as the page shows them: lists of points, decoded of the arrays of the library.
 *
 * @typedef {number[][]} Path
 * @typedef {[number[], number[], number]} Edge  two points, and the sum of the bits of the filled sides
 *
 * @typedef {object} Answer
 * @property {"shapes" | "paths" | "edges" | "relations" | "locations" | "fault"} kind
 * @property {Path[][]} [shapes]
 * @property {number[][]} [links]
 * @property {Path[]} [paths]
 * @property {Edge[]} [edges]
 * @property {Record<string, boolean>} [relations]
 * @property {string[]} [locations]
 * @property {string} [name]  of a fault
 * @property {string} [message]  of a fault
 * @property {Edge[]} [arrangement]  the edges of the arrangement, where they are asked for
 * @property {number[][]} [nodes]  the ends of the arrangement's edges, where they are asked for
 * @property {Record<string, Path[]>} [regions]  what a rule fills that canvases do not have, by kinds
 * @property {Answer} [other]  the answer by the other solver, where it is asked for
 * @property {number} time  milliseconds in the library
 * @property {import("./state.js").Drawing} drawing  of which it is the answer
 */

import { areaOf, lengthOf } from "./measure.js";

/** The paths in an array of coordinates, by the numbers of points up to the end of each. */
export function pathsIn(/** @type {ArrayLike<number>} */ coordinates, /** @type {ArrayLike<number>} */ ends) {
  const paths = [];
  for (let at = 0, begin = 0; at < ends.length; begin = Number(ends[at]), at += 1) {
    const path = [];
    for (let point = begin; point < Number(ends[at]); point += 1) {
      path.push([Number(coordinates[2 * point]), Number(coordinates[2 * point + 1])]);
    }
    paths.push(path);
  }
  return paths;
}

/** Groups of paths, by the numbers of paths up to the end of each. */
export function groupsIn(/** @type {Path[]} */ paths, /** @type {ArrayLike<number>} */ ends) {
  return Array.from(ends, (end, at) => paths.slice(at ? Number(ends[at - 1]) : 0, Number(end)));
}

/** The edges in an array of coordinates, with their filled sides. */
export function edgesIn(/** @type {ArrayLike<number>} */ flat, /** @type {ArrayLike<number>} */ fills) {
  return Array.from(fills, (fill, at) => {
    const [ax, ay, bx, by] = [0, 1, 2, 3].map((place) => Number(flat[4 * at + place]));
    return /** @type {Edge} */ ([[ax, ay], [bx, by], Number(fill)]);
  });
}

/** The ends of edges and of paths, each once. */
export function nodesOf(/** @type {Edge[]} */ edges, /** @type {Path[]} */ paths = []) {
  const nodes = new Map();
  for (const point of [...edges.flatMap(([a, b]) => [a, b]), ...paths.flat()]) nodes.set(point.join(" "), point);
  return [...nodes.values()];
}

// ---- in words

/** A number with its thing, in the plural where it is not 1. */
export const counted = (/** @type {number} */ count, /** @type {string} */ thing) =>
  `${count.toLocaleString("en")} ${thing}${count === 1 ? "" : "s"}`;

/** A number as short as it is read well. */
export const shortNumber = (/** @type {number} */ value) =>
  value.toLocaleString("en", { maximumFractionDigits: value < 100 ? 2 : 1 });

/** The pieces of an answer, each in words: its name, and how large it is. */
export function piecesOf(/** @type {Answer} */ answer, unit = 1) {
  if (answer.shapes) {
    return answer.shapes.map((shape, at) => {
      const points = shape.reduce((sum, path) => sum + path.length, 0);
      const holes = shape.length > 1 ? `, ${counted(shape.length - 1, "hole")}` : "";
      const size = `area ${shortNumber(areaOf(shape) * unit * unit)}, ${counted(points, "point")}${holes}`;
      return { name: `Shape ${at}`, size: size + linkOf(answer, at) };
    });
  }
  return (answer.paths ?? []).map((path, at) => ({
    name: `Path ${at}`,
    size: `length ${shortNumber(lengthOf(path) * unit)}, ${counted(path.length, "point")}`,
  }));
}

/** In which hole of which shape a shape lies, in words. */
function linkOf(/** @type {Answer} */ answer, /** @type {number} */ shape) {
  const link = answer.links?.find(([, , child]) => child === shape);
  return link ? `, in a hole of shape ${link[0]} (contour ${link[1]})` : "";
}

/** An answer in one sentence. */
export function summaryOf(/** @type {Answer} */ answer, unit = 1) {
  switch (answer.kind) {
    case "shapes": {
      const shapes = /** @type {Path[][]} */ (answer.shapes);
      const holes = shapes.reduce((sum, shape) => sum + shape.length - 1, 0);
      const area = shapes.reduce((sum, shape) => sum + areaOf(shape), 0) * unit * unit;
      const links = answer.links ? `, ${counted(answer.links.length, "link")}` : "";
      return `${counted(shapes.length, "shape")}, ${counted(holes, "hole")}${links}, area ${shortNumber(area)}`;
    }
    case "paths": {
      const paths = /** @type {Path[]} */ (answer.paths);
      const length = paths.reduce((sum, path) => sum + lengthOf(path), 0) * unit;
      return `${counted(paths.length, "path")}, length ${shortNumber(length)}`;
    }
    case "edges": {
      const edges = /** @type {Edge[]} */ (answer.edges);
      return `${counted(edges.length, "edge")}, ${counted(nodesOf(edges).length, "node")}`;
    }
    case "relations": {
      const names = Object.entries(answer.relations ?? {}).filter(([, holds]) => holds);
      return names.length ? names.map(([name]) => name.replaceAll("_", " ")).join(", ") : "no relation holds";
    }
    case "locations": {
      const count = (/** @type {string} */ name) => answer.locations?.filter((each) => each === name).length;
      return `${count("inside")} inside, ${count("boundary")} on the boundary, ${count("outside")} outside`;
    }
    default:
      return answer.message ?? "no answer";
  }
}
