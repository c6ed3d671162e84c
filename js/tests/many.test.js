/**
 * Many edges: the answer is that of the library for C, and the processor times of both are told, the less of two calls.
 * POLYOVER_EDGES says how many edges there are, 100,000 if it is not set.
 */

import assert from "node:assert/strict";
import { execFileSync } from "node:child_process";
import { existsSync, mkdtempSync, readFileSync, rmSync, writeFileSync } from "node:fs";
import { tmpdir } from "node:os";
import { join } from "node:path";
import { fileURLToPath } from "node:url";
import test from "node:test";
import { Flat } from "../polyover.js";
import { polyover } from "./there.js";

const EDGES = Number(process.env.POLYOVER_EDGES ?? "100000");
const LIBRARY = process.env.POLYOVER_LIBRARY ?? fileURLToPath(new URL("../../out/libpolyover.so", import.meta.url));
const SKIPPED = existsSync(LIBRARY) ? false : "no library for C (make -C c)";
const RULE = "xor";

/** Whole numbers below a bound, the same ones each time. */
function numbers(seed) {
  let state = seed;
  return (bound) => {
    state = (Math.imul(state, 1664525) + 1013904223) >>> 0;
    return Math.floor((state / 2 ** 32) * bound);
  };
}

/** Squares that each meet some others. */
function squares(count, seed, kind) {
  const next = numbers(seed);
  const size = Math.round(Math.sqrt(count) * 1000);
  const turn = kind === BigInt64Array ? BigInt : Number;
  const coordinates = new kind(8 * count);
  for (let at = 0; at < coordinates.length; at += 8) {
    const [x, y, width, height] = [next(size), next(size), 1 + next(1500), 1 + next(1500)];
    coordinates.set([x, y, x + width, y, x + width, y + height, x, y + height].map(turn), at);
  }
  return new Flat(coordinates, Uint32Array.from({ length: count }, (_, at) => 4 * at + 4));
}

/** What the library for C answers: milliseconds, coordinates, contour ends and shape ends. */
function byLibrary(subject, clip) {
  const folder = mkdtempSync(join(tmpdir(), "polyover-"));
  try {
    const file = join(folder, "numbers");
    const head = new BigInt64Array([BigInt(subject.length), BigInt(clip.length)]);
    const parts = [head, subject.coordinates, clip.coordinates];
    writeFileSync(file, Buffer.concat(parts.map(({ buffer }) => Buffer.from(buffer))));
    execFileSync("python3", [fileURLToPath(new URL("./many.py", import.meta.url)), file, RULE]);
    const { buffer, byteOffset, byteLength } = readFileSync(file);
    const answer = new BigInt64Array(buffer.slice(byteOffset, byteOffset + byteLength));
    const [took, ...counts] = Array.from(answer.subarray(0, 4), Number);
    let start = 4;
    return [took, ...counts.map((count) => answer.subarray(start, (start += count)))];
  } finally {
    rmSync(folder, { recursive: true });
  }
}

/** The answer of a call, and its milliseconds of processors: the less of two calls. */
function timed(call) {
  const both = [0, 1].map(() => {
    const begun = process.cpuUsage();
    const answer = call();
    const { user, system } = process.cpuUsage(begun);
    return [answer, Math.round((user + system) / 1000)];
  });
  return both[both[0][1] < both[1][1] ? 0 : 1];
}

test("many edges have the answer of the library for C", { skip: SKIPPED }, (context) => {
  const count = Math.round(EDGES / 8);
  const [took, coordinates, ends, shapeEnds] = byLibrary(
    squares(count, 1, BigInt64Array),
    squares(count, 2, BigInt64Array),
  );
  context.diagnostic(`${8 * count} edges: ${took} ms by the library for C`);
  for (const kind of [BigInt64Array, Float64Array, Int32Array]) {
    const [subject, clip] = [squares(count, 1, kind), squares(count, 2, kind)];
    const [found, milliseconds] = timed(() => polyover.overlay(subject, clip, { rule: RULE }));
    context.diagnostic(`${kind.name}: ${milliseconds} ms`);
    assert.equal(found.length, shapeEnds.length);
    const turn = kind === BigInt64Array ? (it) => it : (it) => kind.from(it, Number);
    assert.ok(isSame(found.contours.coordinates, turn(coordinates)), kind.name);
    assert.ok(isSame(found.contours.ends, Uint32Array.from(ends, Number)), kind.name);
    assert.ok(isSame(found.shapeEnds, Uint32Array.from(shapeEnds, Number)), kind.name);
  }
});

function isSame(found, expected) {
  return found.length === expected.length && found.every((value, at) => value === expected[at]);
}
