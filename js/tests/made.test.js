/**
 * Made inputs: each answer is that of the library for C, number for number, in lists and in arrays of each kind.
 * POLYOVER_MADE says how many there are, 200 if it is not set.
 */

import assert from "node:assert/strict";
import { execFileSync } from "node:child_process";
import { existsSync } from "node:fs";
import { fileURLToPath } from "node:url";
import test from "node:test";
import { Flat, FlatShapes, LOCATIONS } from "../polyover.js";
import { polyover } from "./there.js";

const COUNT = process.env.POLYOVER_MADE ?? "200";
const LIBRARY = process.env.POLYOVER_LIBRARY ?? fileURLToPath(new URL("../../out/libpolyover.so", import.meta.url));
const SKIPPED = existsSync(LIBRARY) ? false : "no library for C (make -C c)";
const NAMES = { is_resolved: "isResolved", minimum_area: "minimumArea" };
const RELATIONS = { interiors_intersect: "interiorsIntersect", point_intersects: "pointIntersects" };
const OF_POINTS = ["locate", "prepare"];
const NUMBER = /^-?\d+$/;

function* made() {
  const script = fileURLToPath(new URL("./made.py", import.meta.url));
  const text = execFileSync("python3", [script, COUNT], { encoding: "utf8", maxBuffer: 2 ** 30 });
  for (const line of text.trim().split("\n")) {
    yield JSON.parse(line, (_, value) => (typeof value === "string" && NUMBER.test(value) ? BigInt(value) : value));
  }
}

/** Options by the names of JavaScript. */
function optionsOf({ ogc, ...others }) {
  const options = Object.fromEntries(Object.entries(others).map(([name, value]) => [NAMES[name] ?? name, value]));
  return ogc === undefined ? options : { ...options, touching: !ogc };
}

/** What Python answers as JavaScript does. */
function expected({ call, answer }) {
  if (call === "hierarchy") {
    const [shapes, links] = answer;
    return { shapes, links: links.map((link) => link.map(Number)) };
  }
  if (call === "relate") {
    return Object.fromEntries(Object.entries(answer).map(([name, holds]) => [RELATIONS[name] ?? name, holds]));
  }
  if (call === "trace") {
    return answer.map(([a, b, sides, sources]) => [a, b, Number(sides), sources.map(sourceOf)]);
  }
  if (call === "vectors") {
    return answer.map((shape) => shape.map((contour) => contour.map(edgeOf)));
  }
  return call === "edges" ? answer.map(edgeOf) : answer;
}

function edgeOf([a, b, sides]) {
  return [a, b, Number(sides)];
}

function sourceOf([side, path, step, cut, reversed]) {
  return { side, path: Number(path), step: Number(step), cut, reversed };
}

/** Paths in arrays of a kind. */
function flat(paths, kind) {
  const number = kind === BigInt64Array ? BigInt : Number;
  let count = 0;
  return new Flat(kind.from(paths.flat(2), number), paths.map((path) => (count += path.length)));
}

/** An answer in arrays as lists of numbers or BigInts. */
function listed(answer, number) {
  if (answer instanceof FlatShapes || answer instanceof Flat) {
    return turned([...answer], number);
  }
  if (answer instanceof Uint8Array) {
    return Array.from(answer, (at) => LOCATIONS[at]);
  }
  if (answer?.shapes && answer.fills) {
    let at = 0;
    const steps = (contour) => contour.map((from, place) => [from, contour[(place + 1) % contour.length]]);
    const filled = (contour) => steps(contour).map((step) => [...step, answer.fills[at++]]);
    return listed(answer.shapes, number).map((shape) => shape.map(filled));
  }
  if (answer?.shapes) {
    return { shapes: listed(answer.shapes, number), links: inRows(answer.links, 3) };
  }
  if (answer?.fills) {
    const points = turned(inRows(answer.coordinates, 2), number);
    const edges = Array.from(answer.fills, (sum, at) => [points[2 * at], points[2 * at + 1], sum]);
    return answer.sources ? withSources(edges, answer) : edges;
  }
  return answer;
}

/** Traced edges of arrays, each with its sources. */
function withSources(edges, { sources, sourceEnds }) {
  const all = inRows(sources, 5).map(([side, path, step, cut, back]) =>
    sourceOf([["subject", "clip"][side], path, step, cut === 1, back === 1]),
  );
  return edges.map((edge, at) => [...edge, all.slice(at === 0 ? 0 : sourceEnds[at - 1], sourceEnds[at])]);
}

/** The items of an array, so many a row. */
function inRows(items, count) {
  return Array.from({ length: items.length / count }, (_, at) => [...items.slice(count * at, count * (at + 1))]);
}

function turned(value, number) {
  return Array.isArray(value) ? value.map((each) => turned(each, number)) : number(value);
}

function answerOf(call, given, options) {
  if (call === "prepare") {
    return polyover.prepare(given[0], options).locate(given[1]);
  }
  return call === "isResolved" ? polyover.isResolved(...given) : polyover[call](...given, options);
}

test("made inputs have the answers of the library for C", { skip: SKIPPED }, () => {
  let count = 0;
  for (const line of made()) {
    const [call, options] = [NAMES[line.call] ?? line.call, optionsOf(line.options)];
    const kinds = line.isBig ? [BigInt64Array] : [BigInt64Array, Float64Array, ...(line.is32 ? [Int32Array] : [])];
    const number = line.isBig ? BigInt : Number;
    const asked = [() => answerOf(call, line.given, options)];
    for (const kind of kinds) {
      const given = line.given.map((paths, at) =>
        OF_POINTS.includes(call) && at === 1 ? flat([paths], kind).coordinates : flat(paths, kind),
      );
      asked.push(() => listed(answerOf(call, given, options), number));
    }
    const told = () => JSON.stringify(line, (_, value) => (typeof value === "bigint" ? String(value) : value));
    asked.forEach((answer, form) => {
      if (line.fault) {
        assert.throws(answer, { name: line.fault }, told());
      } else {
        assert.deepEqual(answer(), expected(line), `${form} ${told()}`);
      }
    });
    count++;
  }
  assert.equal(count, Number(COUNT));
});
