/** What is given to a call: groups of contours, paths or points, and options. */

import { areaOf } from "./area.js";
import { BadInput } from "./errors.js";
import { Flat, checkEnds, checkHeld, isNumbers } from "./flat.js";
import { isGeometry, partsOf } from "./geojson.js";
import { Misplaced } from "./memory.js";
import { FILLS, LIMIT, LIMIT_32, RELATIONS, RULES, SOLVERS } from "./names.js";
import { checkNames, truth } from "./options.js";
import { shown } from "./shown.js";
import { ALL_EDGES } from "./traced.js";

// ---- options

/** The value of an option that is one of some names, as the number of its place. */
function placeIn(names, what) {
  return (value) => {
    const at = names.indexOf(value);
    if (at < 0) {
      throw new BadInput(`unknown ${what} ${shown(value)}: one of ${names.join(", ")}`);
    }
    return at;
  };
}

const ANSWERS = ["lists", "arrays", "geojson"];

/** The value of an option that is one of some forms of answers, or not given. */
function formIn(forms) {
  return (value) => (value === undefined ? value : forms[placeIn(forms, "answer")(value)]);
}

const OPTIONS = {
  rule: ["union", placeIn(RULES, "rule")],
  fill: ["nonzero", placeIn(FILLS, "fill rule")],
  solver: ["snapped", placeIn(SOLVERS, "solver")],
  touching: [false, truth("touching")],
  clockwise: [false, truth("clockwise")],
  keep: [false, truth("keep")],
  minimumArea: [0, areaOf],
  invert: [false, truth("invert")],
  boundary: [false, truth("boundary")],
  answer: [undefined, formIn(ANSWERS)],
};
/** The options of calls whose answers are no shapes or paths, which GeoJSON has. */
const OF_OTHERS = { ...OPTIONS, answer: [undefined, formIn(["lists", "arrays"])] };

/** The number of the solver "exact", which relations and prepared shapes have: it makes no arrangement. */
export const EXACT = SOLVERS.length;
const AS_GIVEN = { ...OPTIONS, solver: ["exact", placeIn([...SOLVERS, "exact"], "solver")] };

const RULE_OF_EDGES = (value) => (value === undefined ? ALL_EDGES : placeIn(RULES, "rule")(value));
const OF_STEPS = { ...OF_OTHERS, rule: [undefined, RULE_OF_EDGES], closed: [true, truth("closed")] };

/** The options of a call, each of which has one of these names, with the defaults of those not given. */
export function chosen(options, names, grid, table = OPTIONS) {
  checkNames(options, names);
  const values = names.map((name) => [name, options[name] === undefined ? table[name][0] : options[name]]);
  return Object.fromEntries(values.map(([name, value]) => [name, table[name][1](value, grid)]));
}

/** The options of a call whose answer is no shapes or paths, but edges, steps or words of points. */
export function chosenOfOthers(options, names, grid) {
  return chosen(options, names, grid, OF_OTHERS);
}

/** The options of a call that tells of contours as they are given, if no other solver is asked for. */
export function chosenAsGiven(options) {
  return chosen(options, ["fill", "solver"], undefined, AS_GIVEN);
}

/** The options of a call that tells of given steps: all edges where no rule is asked for. */
export function chosenOfSteps(options) {
  return chosen(options, ["rule", "fill", "closed", "solver", "answer"], undefined, OF_STEPS);
}

/** The place of a relation, by its name. */
export const relationAt = placeIn(RELATIONS, "relation");

// ---- groups

/** The kind of the paths in a group. */
function kindOf(name) {
  return name === "lines" ? "line" : "contour";
}

/** The numbers of lists of points: floats, or BigInts where any of them is one. */
function listedNumbers(name, paths, count) {
  let numbers = new Float64Array(2 * count);
  let at = 0;
  for (let number = 0; number < paths.length; number++) {
    const path = paths[number];
    for (let place = 0; place < path.length; place++, at += 2) {
      const point = path[place];
      if (!Array.isArray(point) || point.length !== 2) {
        const where = `${pathPlace(name, number)}, point ${place + 1}`;
        throw new BadInput(`${where}: ${shown(point)} is no point of two numbers`);
      }
      const [x, y] = point;
      if (typeof x === "number" && typeof y === "number" && numbers instanceof Float64Array) {
        numbers[at] = x;
        numbers[at + 1] = y;
        continue;
      }
      for (const each of point) {
        if (typeof each !== "number" && typeof each !== "bigint") {
          throw new BadInput(`${pathPlace(name, number)}, point ${place + 1}: ${shown(each)} is no number`);
        }
      }
      numbers = asBigInts(numbers, at, name);
      numbers[at] = bigOf(x, name, at);
      numbers[at + 1] = bigOf(y, name, at + 1);
    }
  }
  return numbers;
}

/** The first numbers as BigInts. */
function asBigInts(numbers, count, name) {
  if (numbers instanceof BigInt64Array) {
    return numbers;
  }
  const found = new BigInt64Array(numbers.length);
  for (let at = 0; at < count; at++) {
    found[at] = bigOf(numbers[at], name, at);
  }
  return found;
}

/** A number as a BigInt in the range. */
function bigOf(value, name, at) {
  if (typeof value === "number" && !Number.isSafeInteger(value)) {
    throw new Misplaced(name, at, value);
  }
  const found = BigInt(value);
  if (found > LIMIT || found < -LIMIT) {
    throw new Misplaced(name, at, value);
  }
  return found;
}

/** Where a path stands in a group; the points that are located are one group by themselves. */
function pathPlace(name, number) {
  return name === "points" ? name : `${name}: ${kindOf(name)} ${number + 1}`;
}

// (iterators that were gone over, and give nothing more)
const used = new WeakSet();

/** The items of a thing that can be gone over; an iterator that was gone over before is refused. */
function itemsOf(name, things, what) {
  if (typeof things !== "object" || things === null || typeof things[Symbol.iterator] !== "function") {
    throw new BadInput(`${name}: ${shown(things)} in the place of a list of ${what}`);
  }
  if (used.has(things)) {
    throw new BadInput(`${name}: an iterator that was gone over before in the place of a list of ${what}`);
  }
  if (things[Symbol.iterator]() === things) {
    used.add(things);
  }
  // (a list without some of its items has them then: undefined)
  return [...things];
}

/** Lists of points as a group. */
export function listed(name, paths) {
  const all = itemsOf(name, paths, `${kindOf(name)}s`);
  const ends = new Uint32Array(all.length);
  let count = 0;
  all.forEach((path, number) => {
    if (!Array.isArray(path)) {
      throw new BadInput(`${pathPlace(name, number)}: ${shown(path)} in the place of a list of points`);
    }
    count += path.length;
    ends[number] = count;
  });
  try {
    return { name, form: "lists", numbers: listedNumbers(name, all, count), ends };
  } catch (fault) {
    // (numbers beside a BigInt are asked as BigInts)
    throw fault instanceof Misplaced ? placed(fault, [{ name, numbers: new BigInt64Array(0), ends }]) : fault;
  }
}

/** Contours or paths whose steps are told of by their numbers: a geometry has none that stay as they are. */
export function stepped(name, paths) {
  if (isGeometry(paths)) {
    throw new BadInput(`${name}: a geometry in the place of a list of contours: a trace names steps of lists`);
  }
  return grouped(name, paths);
}

/** Contours or paths as a group: lists of points, or `Flat`. */
export function grouped(name, paths) {
  if (paths instanceof Flat) {
    checkHeld(name, paths.coordinates);
    checkHeld(`${name}: ends`, paths.ends);
    return { name, form: "arrays", numbers: paths.coordinates, ends: paths.ends };
  }
  return listed(name, paths);
}

/** Points as a group: a list of them, a typed array of x and y in turn, or GeoJSON. */
export function pointsOf(points) {
  if (isGeometry(points)) {
    return pointsOf(partsOf("points", points, "points").map(({ part }) => part));
  }
  if (isNumbers(points)) {
    checkHeld("points", points);
    if (points.length % 2 !== 0) {
      throw new BadInput(`points: ${points.length} is an odd count of coordinates`);
    }
    return { name: "points", form: "arrays", numbers: points, ends: new Uint32Array([points.length / 2]) };
  }
  return listed("points", [itemsOf("points", points, "points")]);
}

// ---- the kind of coordinates

/**
 * The kind of coordinates in which groups are asked and answered: that of the groups that have any. Those of GeoJSON
 * were floats, and are whole numbers where `isRegion` says that they wind round a geometry.
 */
function kindOfNumbers(groups, grid) {
  if (grid) {
    return Float64Array;
  }
  const filled = groups.filter((group) => group.numbers.length > 0);
  const asked = filled.length > 0 ? filled : groups;
  const kinds = asked.map((group) => (group.isRegion ? Float64Array : group.numbers.constructor));
  if (kinds.every((kind) => kind === Int32Array)) {
    return Int32Array;
  }
  return kinds.includes(BigInt64Array) ? BigInt64Array : Float64Array;
}

/** Groups whose coordinates are all of 32 bits where that is the kind, and else floats and BigInts alone. */
export function alike(groups, kind, grid) {
  return groups.map((group) => {
    const { numbers } = group;
    if (kind === Int32Array) {
      return numbers.length === 0 ? { ...group, numbers: new Int32Array(0) } : group;
    }
    const isTurned = numbers instanceof Int32Array || (grid && !group.isRegion && numbers instanceof BigInt64Array);
    return isTurned ? { ...group, numbers: floatsOf(group) } : group;
  });
}

/** The numbers of a group as floats, which must be these. */
function floatsOf({ name, numbers }) {
  const found = Float64Array.from(numbers, Number);
  const isOther = (value, at) => typeof value === "bigint" && value !== BigInt(found[at]);
  const at = numbers.findIndex(isOther);
  if (at >= 0) {
    throw new Misplaced(name, at, numbers[at]);
  }
  return found;
}

/** What an answer is of groups, in a form, or in that of the first; a fault of a number names its place. */
export function askedOf(groups, grid, form, answered) {
  const kind = kindOfNumbers(groups, grid);
  try {
    return answered({ groups: alike(groups, kind, grid), kind, grid }, form ?? groups[0].form);
  } catch (fault) {
    const found = fault instanceof Misplaced ? fault : fault instanceof BadInput ? outOfRange(groups) : undefined;
    if (fault instanceof BadInput && !found) {
      // (arrays may have changed since they were made a `Flat`)
      groups.forEach(({ name, ends, numbers }) => checkEnds(`${name}: ends`, ends, numbers.length / 2, "points"));
    }
    throw found ? placed(found, groups, grid) : fault;
  }
}

/** Names the place of the first number of groups that is out of range; gives none where all are in it. */
function outOfRange(groups) {
  for (const { name, numbers } of groups) {
    const limit = numbers instanceof Int32Array ? LIMIT_32 : numbers instanceof BigInt64Array ? LIMIT : undefined;
    const at = limit === undefined ? -1 : numbers.findIndex((value) => value > limit || value < -limit);
    if (at >= 0) {
      return new Misplaced(name, at, numbers[at]);
    }
  }
  return undefined;
}

/** Where a number of a group stands, in words: its path and point, from 1. */
function placed(fault, groups, grid) {
  const { ends, numbers, name } = groups.find((group) => group.name === fault.group);
  const point = Math.floor(fault.at / 2);
  const path = ends.findIndex((end) => end > point);
  const start = path > 0 ? ends[path - 1] : 0;
  const where = `${pathPlace(name, path)}, point ${point - start + 1}`;
  return new BadInput(`${where}: ${wrongOf(fault.value, numbers, grid)}`);
}

/** In what a coordinate is wrong. */
function wrongOf(value, numbers, grid) {
  if (typeof value === "number" && !Number.isFinite(value)) {
    return `${value} is no finite number`;
  }
  if (grid && typeof value === "bigint" && value >= -LIMIT && value <= LIMIT) {
    return `${value} is no float, which scaled() takes`;
  }
  if (grid) {
    return `${value} at this scale is out of range: at most ${LIMIT} from 0`;
  }
  if (typeof value === "number" && !Number.isInteger(value)) {
    const isBeside = numbers instanceof BigInt64Array;
    return `${value} is no whole number: ${isBeside ? "beside a BigInt all are" : "scaled() takes floats"}`;
  }
  if (numbers instanceof Int32Array) {
    return `${value} is out of range: at most ${LIMIT_32} from 0 in an Int32Array`;
  }
  if (typeof value === "number") {
    return `${value} is out of range: a number is at most ${Number.MAX_SAFE_INTEGER} from 0, a BigInt ${LIMIT}`;
  }
  return `${value} is out of range: at most ${LIMIT} from 0`;
}
