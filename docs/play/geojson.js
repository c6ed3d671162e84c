/**
 * GeoJSON that is saved: what is drawn, each contour a polygon by itself with its `role`, or an answer. Coordinates are
 * whole numbers over a power of ten, by all their digits.
 *
 * @typedef {import("./drawing.js").Figures} Figures
 */

import { decimalOf } from "./decimal.js";
import { KINDS } from "./drawing.js";
import { questionOf } from "./link.js";

/** A point in a file. */
const point = ([x, y], /** @type {number} */ digits) => `[${decimalOf(x, digits)}, ${decimalOf(y, digits)}]`;

/** A list in a file. */
const list = (/** @type {string[]} */ items) => `[${items.join(", ")}]`;

/** A path, closed as GeoJSON has rings where it is one. */
function written(path, /** @type {number} */ digits, isRing = false) {
  const points = path.map((each) => point(each, digits));
  return list(isRing ? [...points, points[0]] : points);
}

/** A line of a file, which has a feature. */
const feature = (/** @type {string} */ type, /** @type {string} */ coordinates, properties) =>
  `  {"type": "Feature", "properties": ${JSON.stringify(properties)}, "geometry": {"type": "${type}", "coordinates": ` +
  `${coordinates}}}`;

/** A file of features, with members of its own. */
const collection = (/** @type {string[]} */ features, members = "") =>
  `{"type": "FeatureCollection",${members} "features": [\n${features.join(",\n")}\n]}\n`;

/** The text of what is drawn as GeoJSON, with what is asked of it. */
export function geojsonOf(/** @type {import("./state.js").Drawing} */ drawing) {
  const { figures, digits } = drawing;
  const features = KINDS.flatMap((role) =>
    figures[role].map((path) => {
      if (role === "point") return feature("Point", point(path[0], digits), { role });
      if (role === "line") return feature("LineString", written(path, digits), { role });
      return feature("Polygon", list([written(path, digits, true)]), { role });
    }),
  );
  return collection(features, ` "polyover": ${JSON.stringify({ digits, ...questionOf(drawing.asked) })},`);
}

/** The text of an answer as GeoJSON: a feature for each shape, path, edge or point that it has. */
export function answerGeojson(answer, /** @type {Figures} */ figures, /** @type {number} */ digits) {
  const features = {
    shapes: () =>
      answer.shapes.map((contours, number) =>
        feature("Polygon", list(contours.map((path) => written(path, digits, true))), { number }),
      ),
    paths: () => answer.paths.map((path, number) => feature("LineString", written(path, digits), { number })),
    edges: () => answer.edges.map(([a, b, fill]) => feature("LineString", written([a, b], digits), { fill })),
    locations: () =>
      figures.point.map((path, at) => feature("Point", point(path[0], digits), { location: answer.locations[at] })),
  };
  return collection(features[answer.kind]?.() ?? []);
}
