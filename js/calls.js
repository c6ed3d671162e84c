/** The calls: contours, paths and points in, shapes, paths, edges, relations and locations out. */

import { Library } from "./abi.js";
import { edgesIn, linesIn, linksIn, locationsIn, shapesIn, tracedIn, vectorsIn } from "./answers.js";
import { Arrangement } from "./arrangement.js";
import { BadInput } from "./errors.js";
import { misfit, sideOf } from "./cells.js";
import { isGeometry, partsOf } from "./geojson.js";
import { EXACT, alike, askedOf, chosen, chosenAsGiven, chosenOfOthers, chosenOfSteps, grouped } from "./given.js";
import { listed, pointsOf, relationAt, stepped } from "./given.js";
import { FILLS, LIMIT, RELATIONS, RULES, SOLVERS } from "./names.js";
import { Prepared } from "./prepared.js";
import { shown } from "./shown.js";

const LOOK = ["clockwise", "keep", "touching", "minimumArea", "solver"];
const OVERLAY = ["rule", "fill", ...LOOK, "answer"];
const VECTORS = OVERLAY.filter((name) => name !== "touching");
const SIMPLIFY = ["fill", ...LOOK, "answer"];
const CLIP = ["fill", "invert", "boundary", "solver", "answer"];
const FILLED = ["fill", "solver", "answer"];
const SLICE = ["fill", "clockwise", "minimumArea", "solver", "answer"];
const DIFFERENCE = RULES.indexOf("difference");
const [NONZERO, EVENODD, NEGATIVE] = ["nonzero", "evenodd", "negative"].map((name) => FILLS.indexOf(name));
const SNAPPED = SOLVERS.indexOf("snapped");
const PLAIN = { clockwise: false, keep: false, touching: false, minimumArea: 0n, solver: SNAPPED };

/**
 * The calls, on coordinates that are whole numbers; `scaled` gives the same ones on floats.
 *
 * A group of contours or lines is a list of lists of points `[x, y]`, numbers or BigInts, a `Flat`, or GeoJSON. A
 * geometry of GeoJSON means the region that its polygons cover, under each fill rule. An answer has the form of the
 * first group, unless the option `answer` names one: "lists", "arrays" or "geojson".
 */
export class Polyover {
  #library;
  #grid;

  constructor(instance, grid) {
    this.#library = instance instanceof Library ? instance : new Library(instance);
    this.#grid = grid;
  }

  /**
   * The same calls on floats, which are taken as whole numbers: each less the origin's, times the scale, and rounded.
   * So a coordinate is taken at most half a unit, `1 / (2 * scale)`, from where it is.
   */
  scaled(scale, origin = [0, 0]) {
    if (typeof scale !== "number" || !(scale > 0) || !Number.isFinite(scale)) {
      throw new BadInput(`the scale ${shown(scale)} is no finite number above 0`);
    }
    if (!Array.isArray(origin) || origin.length !== 2 || !origin.every(Number.isFinite)) {
      throw new BadInput(`the origin ${shown(origin)} is no point of two finite numbers`);
    }
    return new Polyover(this.#library, { startX: origin[0], startY: origin[1], scale });
  }

  /** Whether the library is made of the proved module: "proved" or "unproved"; "unknown" where it does not tell. */
  built() {
    return this.#library.built();
  }

  /** The shapes round the region where the rules hold of two groups of contours. */
  overlay(subject, clip = [], options = {}) {
    const { rule, fill, answer, ...look } = chosen(options, OVERLAY, this.#grid);
    return this.#filled({ subject, clip }, { fill, solver: look.solver }, answer, (asked, form) =>
      shapesIn(this.#library.overlay(asked, rule, fill, look), form),
    );
  }

  /**
   * The same shapes, and a triple for each shape in a hole of another one: the other shape, the place of the hole among
   * all contours, and the shape, counted from 0.
   */
  hierarchy(subject, clip = [], options = {}) {
    const { rule, fill, answer, ...look } = chosen(options, OVERLAY, this.#grid);
    return this.#filled({ subject, clip }, { fill, solver: look.solver }, answer, (asked, form) => {
      const found = this.#library.hierarchy(asked, rule, fill, look);
      return { shapes: shapesIn(found, form), links: linksIn(found.links, form) };
    });
  }

  /**
   * The shapes round the same region by their steps, each with the sum of the bits of its filled sides. Contours may
   * touch themselves in points, and a point stays where the sides change.
   */
  vectors(subject, clip = [], options = {}) {
    const { rule, fill, answer, ...look } = chosenOfOthers(options, VECTORS, this.#grid);
    return this.#filled({ subject, clip }, { fill, solver: look.solver }, answer, (asked, form) =>
      vectorsIn(this.#library.vectors(asked, rule, fill, look), form),
    );
  }

  /** The shapes round what the contours fill; one simple contour stays as it is given, or is reversed. */
  simplify(subject, options = {}) {
    const { fill, answer, ...look } = chosen(options, SIMPLIFY, this.#grid);
    return this.#filled({ subject }, { fill, solver: look.solver }, answer, (asked, form) =>
      shapesIn(this.#library.simplify(asked, fill, look), form),
    );
  }

  /**
   * Which relations hold of the contours as they are given, nothing rounded: an object from the seven names to truths.
   * With another solver than "exact" they are those of an arrangement, told at the finest scale in the range.
   */
  relate(subject, clip, options = {}) {
    const bits = this.#related(subject, clip, options, (asked, fill) => this.#library.relate(asked, fill), (...asked) =>
      this.#library.relateArranged(...asked),
    );
    return Object.fromEntries(RELATIONS.map((name, at) => [name, ((bits >> at) & 1) === 1]));
  }

  /** Whether the relation with the name holds, as `relate` tells it, in less time. */
  relateOne(relation, subject, clip, options = {}) {
    const at = relationAt(relation);
    return this.#related(
      subject,
      clip,
      options,
      (asked, fill) => this.#library.relateOne(asked, at, fill),
      (asked, ...how) => this.#library.relateOneArranged(asked, at, ...how),
    );
  }

  /** The parts of open paths inside the shape; with `invert` those outside, with `boundary` those along it too. */
  clip(shape, lines, options = {}) {
    const { fill, answer, ...how } = chosen(options, CLIP);
    return this.#filled({ shape, lines }, { fill, solver: how.solver, isJoined: true }, answer, (asked, form) =>
      linesIn(this.#library.clip(asked, fill, how), form),
    );
  }

  /** The shapes into which open paths cut a shape; with `clockwise` outlines run so, and small ones may be left out. */
  slice(shape, lines, options = {}) {
    const { fill, answer, ...look } = chosen(options, SLICE, this.#grid);
    return this.#filled({ shape, lines }, { fill, solver: look.solver, isJoined: true }, answer, (asked, form) =>
      shapesIn(this.#library.slice(asked, fill, look), form),
    );
  }

  /** The shapes into which the cells of a grid cut a shape, each in one cell. A node of the grid is at the origin. */
  tiles(shape, width, height, options = {}) {
    const { fill, solver, answer } = chosen(options, FILLED);
    const sides = [sideOf("width", width, this.#grid), sideOf("height", height, this.#grid)];
    return this.#filled({ shape }, { fill, solver, isJoined: true }, answer, (asked, form) =>
      shapesIn(this.#library.tiles(asked, fill, solver, sides, misfit(width, height)), form),
    );
  }

  /**
   * Where each point lies: "inside", "boundary" or "outside". Contours are joined by exclusive or; a geometry is the
   * region that its polygons cover.
   */
  locate(shape, points, options = {}) {
    const { answer } = chosenOfOthers(options, ["answer"]);
    const [contours, queries] = [this.#contours("shape", shape), pointsOf(points)];
    return this.#asked([contours, queries], answer ?? queries.form, (asked, form) => {
      const found = contours.isRegion ? this.#inRegion(asked) : this.#library.locate(asked);
      return locationsIn(found, form);
    });
  }

  /**
   * The shape that contours fill as they are given, nothing rounded, made ready to be asked again and again where
   * points lie: a `Prepared`. With another solver than "exact" it is that of their arrangement.
   */
  prepare(shape, options = {}) {
    const { fill, solver } = chosenAsGiven(options);
    const isExact = solver === EXACT;
    const rule = isExact && isGeometry(shape) ? NONZERO : fill;
    return this.#filled({ shape }, { fill: rule, solver: isExact ? SNAPPED : solver }, "lists", (asked) => {
      const whole = { ...asked, groups: alike(asked.groups, Float64Array, asked.grid) };
      const found = isExact ? this.#library.prepareExact(whole, rule) : this.#library.prepare(whole, fill, solver);
      return new Prepared(this.#library, found, this.#grid);
    });
  }

  /**
   * Two groups of contours, whose edges are split where they meet once, to be asked for any overlay of them: an
   * `Arrangement`.
   */
  arrangement(subject, clip = [], options = {}) {
    const { fill, solver } = chosen(options, ["fill", "solver"]);
    return this.#filled({ subject, clip }, { fill, solver }, undefined, (asked, form) => {
      const { kind, grid } = asked;
      return new Arrangement(this.#library, this.#library.arrange(asked, fill, solver), { kind, grid, form, solver });
    });
  }

  /** The edges of the arrangement, in order: two points, and the sum of the bits of the filled sides. */
  edges(subject, clip = [], options = {}) {
    const { fill, solver, answer } = chosenOfOthers(options, FILLED);
    return this.#filled({ subject, clip }, { fill, solver, isJoined: true }, answer, (asked, form) =>
      edgesIn(this.#library.edges(asked, fill, solver), form),
    );
  }

  /**
   * The edges of the arrangement, all or by a rule, each with the steps of lists or arrays on which it lies; of open
   * paths where `closed` is false.
   */
  trace(subject, clip = [], options = {}) {
    const { rule, fill, closed, solver, answer } = chosenOfSteps(options);
    return this.#asked([stepped("subject", subject), stepped("clip", clip)], answer, (asked, form) =>
      tracedIn(this.#library.trace(asked, rule, fill, solver, closed), form),
    );
  }

  /** Whether `locate` takes the contours: whether two steps of one share points only where they are ends of both. */
  isResolved(shape) {
    return this.#asked([this.#contours("shape", shape)], "lists", (asked) => this.#library.isResolved(asked));
  }

  /**
   * What is told of the contours as they are given, or of an arrangement: of coordinates times the greatest power of
   * two in the range.
   */
  #related(subject, clip, options, toldExactly, toldOfArrangement) {
    const { fill, solver } = chosenAsGiven(options);
    const isExact = solver === EXACT;
    // (the regions of two geometries are the same under each rule: no polygons need be joined)
    const rule = isExact && [subject, clip].every(isGeometry) ? NONZERO : fill;
    return this.#filled({ subject, clip }, { fill: rule, solver: isExact ? SNAPPED : solver }, "lists", (asked) => {
      if (isExact) {
        return toldExactly(asked, rule);
      }
      const whole = { ...asked, groups: alike(asked.groups, Float64Array, asked.grid) };
      const extent = this.#library.extent(whole);
      const power = extent === 0n || extent > LIMIT ? 0 : (LIMIT / extent).toString(2).length - 1;
      return toldOfArrangement(whole, fill, solver, power);
    });
  }

  // ---- what is given

  /** What an answer is of groups. */
  #asked(groups, form, answered) {
    return askedOf(groups, this.#grid, form, answered);
  }

  /**
   * What an answer is of groups, each given under its name. Geometries are contours that the fill rule fills just where
   * polygons cover; where `isJoined` says so, no edge of them lies within.
   */
  #filled(given, how, form, answered) {
    const groups = Object.entries(given).map(([name, thing]) => {
      const group = name === "lines" ? this.#lines(thing) : this.#contours(name, thing, how.solver);
      return group.isRegion ? this.#region(group, how) : group;
    });
    return this.#asked(groups, form, answered);
  }

  #contours(name, thing, solver = SNAPPED) {
    return isGeometry(thing) ? this.#covered(name, partsOf("polygons", thing, name), solver) : grouped(name, thing);
  }

  #lines(thing) {
    if (!isGeometry(thing)) {
      return grouped("lines", thing);
    }
    const lines = partsOf("lines", thing, "lines").map(({ part }) => part);
    return { ...listed("lines", lines), form: "geojson" };
  }

  /** Where points lie in the region that the contours of a geometry wind round. */
  #inRegion(asked) {
    const groups = alike(asked.groups, Float64Array, asked.grid);
    return this.#library.regionLocate({ ...asked, groups }, NONZERO);
  }

  /** The contours of a geometry for a fill rule. (By even-odd none would be where two polygons are.) */
  #region(group, { fill, solver, isJoined }) {
    const found = group.count > 1 && (isJoined || fill === EVENODD) ? this.#joined(group, solver) : group;
    return fill === NEGATIVE ? { ...found, numbers: reversed(found) } : found;
  }

  /** A geometry by contours that wind once round the region that its polygons cover. */
  #joined(group, solver) {
    const asked = { groups: [group], kind: BigInt64Array, grid: this.#grid };
    const { coordinates, contourEnds } = this.#library.simplify(asked, NONZERO, { ...PLAIN, solver });
    return { ...group, numbers: coordinates, ends: contourEnds };
  }

  /** The contours of polygons, as whole numbers: outlines run counter-clockwise and holes clockwise. */
  #covered(name, polygons, solver) {
    const found = polygons.map(({ place, part }) => this.#coveredBy(place, part, { ...PLAIN, solver }));
    return { name, form: "geojson", isRegion: true, count: polygons.length, ...inOne(found) };
  }

  /** The contours of a polygon: they wind once round what its outline winds round, and none of its holes does. */
  #coveredBy(place, [outline, ...holes], look) {
    const around = this.#wound(place, outline, look);
    const wound = holes.map((hole, at) => this.#wound(`${place}, ring ${at + 2}`, hole, look));
    const within = wound.filter(({ coordinates }) => coordinates.length > 0);
    if (within.length === 0) {
      return around;
    }
    const groups = [inOne([around]), inOne(within)];
    return this.#library.overlay({ groups, kind: BigInt64Array, grid: this.#grid }, DIFFERENCE, NONZERO, look);
  }

  /** The contours that wind once round what a ring winds round. (Rings that run against each other may overlap.) */
  #wound(place, ring, look) {
    return this.#asked([listed(place, [ring])], "arrays", ({ groups: [group], grid }) => {
      const numbers = this.#library.withoutRepeats(group, grid);
      const groups = [{ ...group, numbers, ends: Uint32Array.of(numbers.length / 2) }];
      return this.#library.simplify({ groups, kind: BigInt64Array }, NONZERO, look);
    });
  }
}

/** The coordinates of contours that run the other way. */
function reversed({ numbers, ends }) {
  const found = new BigInt64Array(numbers.length);
  let start = 0;
  for (const end of ends) {
    for (let at = start; at < end; at++) {
      const other = start + end - 1 - at;
      found[2 * at] = numbers[2 * other];
      found[2 * at + 1] = numbers[2 * other + 1];
    }
    start = end;
  }
  return found;
}

/** Contours in several arrays as those of one group. */
function inOne(found) {
  const numbers = new BigInt64Array(found.reduce((sum, { coordinates }) => sum + coordinates.length, 0));
  const ends = [];
  let count = 0;
  for (const { coordinates, contourEnds } of found) {
    numbers.set(coordinates, count);
    for (const end of contourEnds) {
      ends.push(count / 2 + end);
    }
    count += coordinates.length;
  }
  return { numbers, ends: Uint32Array.from(ends) };
}
