/**
 * GeoJSON that is opened. Polygons are contours of the subject, or of the clip where a feature has the property `role`
 * with the value `clip`; lines and points are those of the page. Coordinates are multiplied by a power of ten and
 * rounded. A fault names where it is.
 *
 * @typedef {import("./drawing.js").Path} Path
 * @typedef {{feature: number, geometries: number[], part: string, ring: number}} Place  numbers from 1
 * @typedef {import("./decimal.js").Decimal[][]} Given  a path, by points of two numbers or more
 * @typedef {{place: Place, kind: "polygon" | "line" | "point", role: string | null, paths: Given[]}} Part
 * @typedef {{kind: "subject" | "clip", isDrawn: boolean, place: Place, rings: Path[]}} Polygon
 */

import { areEqual, digitsOf, floatOf, isNumber, jsonOf, shown, wholeOf } from "./decimal.js";
import { KINDS, LIMIT } from "./drawing.js";
import { twiceIn } from "./once.js";
import { BadText } from "./text.js";

/** The most digits behind the point that are read, where the file does not say how many it has. */
const MOST_DIGITS = 7;
/** The most collections that may stand in one another. */
const NESTED = 50;
const READ = { Polygon: "polygon", LineString: "line", Point: "point" };
const LEAST = { polygon: 3, line: 2, point: 1 };

/** A place in words. */
export const words = (/** @type {Place} */ { feature, geometries, part, ring }) =>
  [
    `feature ${feature}`,
    ...geometries.map((number) => `geometry ${number}`),
    ...(part ? [part] : []),
    ...(ring ? [`ring ${ring}`] : []),
  ].join(", ");

/** A list, which a thing at a place must be, or a member of one that has a name. */
function listed(/** @type {any} */ thing, /** @type {Place | null} */ place, name = "") {
  if (Array.isArray(thing)) return thing;
  const where = [...(place ? [words(place)] : []), ...(name ? [name] : [])].join(": ");
  throw new BadText(`${where}: ${shown(thing)} in the place of a list`);
}

/** Reads the parts of geometries, and counts what it leaves out. */
class Reader {
  constructor() {
    /** @type {Part[]} */
    this.parts = [];
    this.digits = 0;
    /** @type {Map<string, {count: number, first: string}>} */
    this.notes = new Map();
  }

  /** Notes what is not taken as it stands. */
  note(/** @type {string} */ text, /** @type {string} */ first) {
    const found = this.notes.get(text);
    if (found) found.count += 1;
    else this.notes.set(text, { count: 1, first });
  }

  feature(/** @type {Place} */ place, /** @type {any} */ thing) {
    if (thing?.type !== "Feature") return this.geometry(place, thing, null);
    if (thing.geometry === null) return this.note("features have no geometry", words(place));
    const { role } = thing.properties ?? {};
    return this.geometry(place, thing.geometry, KINDS.includes(role) ? role : null);
  }

  geometry(/** @type {Place} */ place, /** @type {any} */ thing, /** @type {string | null} */ role) {
    const type = thing?.type;
    if (type === "GeometryCollection") {
      if (place.geometries.length >= NESTED) throw new BadText(`${words(place)}: too many collections in one another`);
      listed(thing.geometries, place, "geometries").forEach((each, at) =>
        this.geometry({ ...place, geometries: [...place.geometries, at + 1] }, each, role),
      );
      return;
    }
    const kind = typeof type === "string" ? READ[type.replace(/^Multi/, "")] : undefined;
    if (!kind) throw new BadText(`${words(place)}: ${shown(type ?? thing)} is no geometry of GeoJSON`);
    const items = listed(thing.coordinates, place, "coordinates");
    const several = type.startsWith("Multi") ? items : items.length ? [items] : [];
    several.forEach((item, at) => this.part({ ...place, part: `${kind} ${at + 1}` }, kind, item, role));
  }

  part(/** @type {Place} */ place, /** @type {"polygon" | "line" | "point"} */ kind, item, role) {
    const ringed = (/** @type {number} */ ring) => ({ ...place, ring });
    const read = {
      polygon: () => listed(item, place).map((ring, at) => this.path(ringed(at + 1), "polygon", ring, role)),
      line: () => [this.path(place, "line", item, role)],
      point: () => [[this.point(place, 0, item)]],
    };
    this.parts.push({ place, kind, role, paths: read[kind]() });
  }

  /** The points of a ring or line; a ring does not repeat its first one at its end. What is drawn may be short. */
  path(/** @type {Place} */ place, /** @type {"polygon" | "line"} */ kind, path, /** @type {string | null} */ role) {
    const points = listed(path, place).map((point, at) => this.point(place, at + 1, point));
    const [first, last] = [points[0], points[points.length - 1]];
    const isRing = kind === "polygon" && points.length > 1 && first.length === last.length;
    if (isRing && first.every((number, at) => areEqual(number, last[at]))) points.pop();
    if (points.length < LEAST[kind] && !role) {
      const what = kind === "polygon" ? "a ring takes at least three" : "a line takes at least two";
      throw new BadText(`${words(place)}: ${points.length} points: ${what}`);
    }
    return points;
  }

  /** A point of two finite numbers, or more. */
  point(/** @type {Place} */ place, /** @type {number} */ number, point) {
    const where = () => (number ? `${words(place)}, point ${number}` : words(place));
    if (!Array.isArray(point) || point.length < 2 || !point.every(isNumber)) {
      throw new BadText(`${where()}: ${shown(point)} is no point of two finite numbers`);
    }
    if (point.length > 2) this.note("points have members beyond x and y, which are left out", where());
    for (const value of [point[0], point[1]]) {
      const digits = digitsOf(value);
      if (digits > this.digits) this.digits = digits;
    }
    return point;
  }
}

// ---- whole numbers

/** A part's paths by whole points. */
function wholePaths(/** @type {Part} */ { place, kind, paths }, /** @type {number} */ digits) {
  const whole = (/** @type {import("./decimal.js").Decimal} */ number, where) => {
    const isFar = Math.abs(floatOf(number)) * 10 ** digits > 2 * LIMIT;
    const found = isFar ? Infinity : wholeOf(number, digits);
    if (Math.abs(found) <= LIMIT) return found;
    throw new BadText(`${where()}: ${shown(number)} is out of range: with ${digits} digits at most ${LIMIT} units`);
  };
  return paths.map((path, ring) =>
    path.map(([x, y], at) => {
      const where = () => `${words(kind === "polygon" ? { ...place, ring: ring + 1 } : place)}, point ${at + 1}`;
      return /** @type {import("./drawing.js").Point} */ ([whole(x, where), whole(y, where)]);
    }),
  );
}

/** What was noted, in a sentence each. */
const noted = (/** @type {Reader} */ { notes }) =>
  [...notes].map(([text, { count, first }]) => `${count.toLocaleString("en")} ${text} (first: ${first}).`);

/** How many digits behind the point are read, at least some, and what is said where a file has more. */
function digitsFor(/** @type {Reader} */ reader, /** @type {any} */ kept, /** @type {number} */ least) {
  if (kept !== undefined || reader.digits < least) return { digits: Math.max(kept ?? 0, least), said: [] };
  if (reader.digits <= MOST_DIGITS) return { digits: reader.digits, said: [] };
  return { digits: MOST_DIGITS, said: [`Coordinates are rounded to ${MOST_DIGITS} digits behind the point.`] };
}

/**
 * What a text of GeoJSON holds: its polygons, its lines and points, the number of digits behind the point, at least
 * some, what the page left in it of its question, and what is to be said. A fault in it is a `BadText`.
 */
export function readGeojson(/** @type {string} */ text, least = 0) {
  const value = parsed(text);
  const kept = keptIn(value?.polyover);
  const reader = new Reader();
  const features = value?.type === "FeatureCollection" ? listed(value.features, null, "features") : [value];
  features.forEach((each, at) => reader.feature({ feature: at + 1, geometries: [], part: "", ring: 0 }, each));
  const { digits, said } = digitsFor(reader, kept?.digits, least);
  /** @type {Polygon[]} */
  const polygons = [];
  const others = { line: /** @type {Path[]} */ ([]), point: /** @type {Path[]} */ ([]) };
  for (const part of reader.parts) {
    const paths = wholePaths(part, digits);
    if (part.kind === "polygon") {
      const kind = part.role === "clip" ? "clip" : "subject";
      polygons.push({ kind, isDrawn: part.role !== null, place: part.place, rings: paths });
    } else for (const path of paths) if (path.length) others[part.kind].push(path);
  }
  return { polygons, others, digits, kept, said: [...noted(reader), ...said] };
}

/** The value of a text, in whose objects each member comes once. */
function parsed(/** @type {string} */ text) {
  const value = valueOf(text);
  const twice = twiceIn(text);
  if (twice !== undefined) throw new BadText(`the member ${shown(twice)} comes twice in one object`);
  return value;
}

/** The value of a text. */
function valueOf(/** @type {string} */ text) {
  try {
    return jsonOf(text);
  } catch (fault) {
    throw fault instanceof SyntaxError ? new BadText(`no JSON: ${fault.message}`) : fault;
  }
}

/** What the page left of its question in a drawing that it saved: digits, the command, the solver. */
function keptIn(/** @type {any} */ member) {
  if (member === undefined) return null;
  if (typeof member !== "object" || member === null) throw new BadText(`polyover: ${shown(member)} is no question`);
  const digits = isNumber(member.digits) ? floatOf(member.digits) : NaN;
  if (!Number.isInteger(digits) || digits < 0 || digits > 15) {
    throw new BadText(`polyover: digits: ${shown(member.digits)} is no number of digits from 0 to 15`);
  }
  if (typeof member.run !== "string") throw new BadText(`polyover: run: ${shown(member.run)} is no command`);
  return { digits, run: member.run, solver: member.solver, fill: member.fill };
}
