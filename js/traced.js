/**
 * Edges with the given steps on which they lie, as the library takes and gives them (`polyover_edge_list` and
 * `polyover_traced` of include/polyover.h).
 */

import { checkEnds } from "./flat.js";
import { Row, SIZE, check, suffixed } from "./held.js";

/** The number that stands for all edges in the place of a rule. */
export const ALL_EDGES = 7;
/** How many numbers tell of a source: its group, path and step, whether it was cut, and whether it runs back. */
export const SOURCE = 5;
const PLACE = 3;
// the sizes of structs, in bytes: a source is the number of a given edge, and two bytes behind it
const TRACED = 8 * SIZE;
const SOURCE_SIZE = 2 * SIZE;

/** The steps of paths: of each its group, path and number there, and the points at its ends in the group, from 0. */
function* stepsOf(groups, isClosed) {
  for (const [side, { ends }] of groups.entries()) {
    let start = 0;
    for (const [path, end] of ends.entries()) {
      for (let at = start; at < (isClosed ? end : end - 1); at++) {
        yield [side, path, at - start, at, at + 1 < end ? at + 1 : start];
      }
      start = end;
    }
  }
}

/** How many steps paths have at most: one for each point. */
function mostSteps(groups) {
  return groups.reduce((sum, { numbers }) => sum + numbers.length / 2, 0);
}

/** The steps of groups as the struct of given edges, where it is, and their places: group, path and number of each. */
function edgeList(library, held, { groups, kind, grid }, isClosed) {
  const whole = kind === Int32Array ? Int32Array : BigInt64Array;
  const rows = groups.map((group) => {
    checkEnds(`${group.name}: ends`, group.ends, group.numbers.length / 2, "points");
    return library.numbers(held, group, grid);
  });
  const most = mostSteps(groups);
  const [edges, sides] = [new Row(held, whole, 4 * most), new Row(held, Uint8Array, most)];
  const struct = new Row(held, BigUint64Array, 4);
  const given = rows.map(({ at, count }) => new whole(library.memory.buffer, at, count));
  const [points, sideOf, places] = [edges.view(), sides.view(), new Uint32Array(PLACE * most)];
  let count = 0;
  for (const [side, path, number, from, to] of stepsOf(groups, isClosed)) {
    points.set(given[side].subarray(2 * from, 2 * from + 2), 4 * count);
    points.set(given[side].subarray(2 * to, 2 * to + 2), 4 * count + 2);
    sideOf[count] = side;
    places.set([side, path, number], PLACE * count);
    count += 1;
  }
  struct.view().set([edges.at, 4 * count, sides.at, count].map(BigInt));
  return { at: BigInt(struct.at), places };
}

/** The sources in memory, by five numbers each. */
function sourcesAt(memory, at, count, places) {
  // (no number of an edge is above 2^32: it is its lower half)
  const bytes = new Uint8Array(memory.buffer, at, SOURCE_SIZE * count);
  const halves = new Uint32Array(memory.buffer, at, (SOURCE_SIZE / 4) * count);
  const found = new Uint32Array(SOURCE * count);
  for (let source = 0; source < count; source++) {
    const step = PLACE * halves[(SOURCE_SIZE / 4) * source];
    const behind = SOURCE_SIZE * source + SIZE;
    found.set([...places.subarray(step, step + PLACE), bytes[behind], bytes[behind + 1]], SOURCE * source);
  }
  return found;
}

/** The arrays of traced edges in memory. */
function arraysAt(library, at, places, { kind, grid }) {
  const { memory } = library;
  const words = Array.from(new BigUint64Array(memory.buffer, at, TRACED / SIZE), Number);
  // (the pointer of an array without items is none)
  const arrays = [0, 2, 4, 6].map((word) => [words[word + 1] === 0 ? 0 : words[word], words[word + 1]]);
  const [coordinates, fills, ends, sources] = arrays;
  return {
    fills: new Uint8Array(memory.buffer, ...fills).slice(),
    sourceEnds: library.sizes(...ends),
    sources: sourcesAt(memory, ...sources, places),
    coordinates: library.coordinates(...coordinates, kind, grid),
  };
}

/**
 * The edges of the arrangement of the steps of two groups, each with the steps on which it lies, in arrays: coordinates
 * of both ends and the sum of the filled sides of each, how many sources there are up to the last of each, and these.
 * The choices are a rule, or ALL_EDGES, a fill rule and a solver.
 */
export function tracedOf(library, held, asked, choices, isClosed) {
  const edges = edgeList(library, held, asked, isClosed);
  const at = held.take(TRACED);
  check(library.calls[suffixed("polyover_trace", asked.kind)](...choices, edges.at, BigInt(at)));
  try {
    return arraysAt(library, at, edges.places, asked);
  } finally {
    library.calls[suffixed("polyover_traced_free", asked.kind)](BigInt(at));
  }
}
