/** Geometries of GeoJSON as paths: of polygons their rings, of lines their points. */

import { BadInput } from "./errors.js";
import { shown } from "./shown.js";

const POLYGONS = ["Polygon", "MultiPolygon"];
const LINES = ["LineString", "MultiLineString"];
const POINTS = ["Point", "MultiPoint"];
const KINDS = [...POLYGONS, ...LINES, ...POINTS];
const WANTED = { polygons: POLYGONS, lines: LINES, points: POINTS };
const LEAST = { polygons: 3, lines: 2 };
/** How many lists stand round a point. */
const DEPTHS = { Point: 0, MultiPoint: 1, LineString: 1, MultiLineString: 2, Polygon: 2, MultiPolygon: 3 };
/** The most collections that may stand in one another. */
const NESTED = 50;

/** Whether a thing is given as a geometry, and not as a list of paths. */
export function isGeometry(thing) {
  return typeof thing === "object" && thing !== null && typeof thing.type === "string";
}

function list(place, thing) {
  if (!Array.isArray(thing)) {
    throw new BadInput(`${place}: ${shown(thing)} in the place of a list`);
  }
  return thing;
}

/** The geometries in a thing that are no collections, each with its place. */
function* geometries(thing, place) {
  if (thing.type !== "FeatureCollection") {
    yield* ofFeature(thing, place);
    return;
  }
  for (const [at, each] of list(`${place}: features`, thing.features).entries()) {
    yield* ofFeature(each, `${place}: feature ${at + 1}`);
  }
}

/** Those of a feature, or of a geometry that stands alone. */
function* ofFeature(thing, place) {
  if (thing?.type !== "Feature") {
    yield* ofGeometry(thing, place, 0);
  } else if (thing.geometry !== null) {
    yield* ofGeometry(thing.geometry, place, 0);
  }
}

/** Those of a geometry, which may be a collection. `depth` tells how many others it stands in. */
function* ofGeometry(thing, place, depth) {
  if (!isGeometry(thing)) {
    throw new BadInput(`${place}: ${shown(thing)} is no geometry`);
  }
  if (thing.type !== "GeometryCollection") {
    if (!KINDS.includes(thing.type)) {
      throw new BadInput(`${place}: ${shown(thing.type)} is no geometry`);
    }
    yield [thing, place];
    return;
  }
  if (depth === NESTED) {
    throw new BadInput(`${place}: more than ${NESTED} collections in one another`);
  }
  for (const [at, each] of list(`${place}: geometries`, thing.geometries).entries()) {
    yield* ofGeometry(each, `${place}, geometry ${at + 1}`, depth + 1);
  }
}

/** A point of two finite numbers; what it has beyond x and y is left out, if it is finite numbers too. */
function pointAt(place, point) {
  // (this asks of places too where a list has no item)
  if (!Array.isArray(point) || point.length < 2 || point.findIndex((value) => !Number.isFinite(value)) >= 0) {
    throw new BadInput(`${place}: ${shown(point)} is no point of two finite numbers`);
  }
  return [point[0], point[1]];
}

/** That coordinates of a geometry that is passed over are points in as many lists; an empty point has none. */
function checkNested(place, coordinates, depth) {
  if (depth > 0) {
    list(place, coordinates).forEach((each) => checkNested(place, each, depth - 1));
  } else if (!Array.isArray(coordinates) || coordinates.length > 0) {
    pointAt(place, coordinates);
  }
}

/** Whether two points are equal in all their members. */
function isSame(point, other) {
  return point.length === other.length && point.every((value, at) => value === other[at]);
}

/** The points of a ring or line; a ring does not repeat its first one at its end. */
function pathAt(place, path, kind) {
  const points = list(place, path).map((point, at) => pointAt(`${place}, point ${at + 1}`, point));
  if (kind === "polygons" && points.length > 1 && isSame(path[0], path[path.length - 1])) {
    points.pop();
  }
  if (points.length < LEAST[kind]) {
    throw new BadInput(`${place}: ${points.length} points, and it takes at least ${LEAST[kind]}`);
  }
  return points;
}

/**
 * The parts of all geometries of a kind, each `{place, part}`: of "polygons" a part is a list of rings, of "lines" a
 * list of points, of "points" a point. Others are passed over, unless there are others alone.
 */
export function partsOf(kind, thing, name) {
  const parts = [];
  let isFound = false;
  let passed;
  for (const [geometry, place] of geometries(thing, name)) {
    if (!WANTED[kind].includes(geometry.type)) {
      checkNested(`${place}: coordinates`, geometry.coordinates, DEPTHS[geometry.type]);
      passed ??= `${place}: ${geometry.type} in the place of ${WANTED[kind].join(" or ")}`;
      continue;
    }
    isFound = true;
    const items = list(`${place}: coordinates`, geometry.coordinates);
    const isMulti = geometry.type.startsWith("Multi");
    const each = isMulti ? items : items.length > 0 ? [items] : [];
    each.forEach((item, at) => {
      const where = isMulti ? `${place}, ${at + 1}` : place;
      const part = partAt(kind, where, item);
      // (a polygon without rings covers nothing)
      if (part.length > 0) {
        parts.push({ place: where, part });
      }
    });
  }
  if (passed !== undefined && !isFound) {
    throw new BadInput(passed);
  }
  return parts;
}

function partAt(kind, place, item) {
  if (kind === "points") {
    return pointAt(place, item);
  }
  if (kind === "lines") {
    return pathAt(place, item, kind);
  }
  return list(place, item).map((ring, at) => pathAt(`${place}, ring ${at + 1}`, ring, kind));
}
