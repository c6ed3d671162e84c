/**
 * Made geometries: each call answers as Python's `Scaled` does, number for number. POLYOVER_MADE says how many there
 * are, 200 if it is not set.
 */

import assert from "node:assert/strict";
import { execFileSync } from "node:child_process";
import { existsSync } from "node:fs";
import { fileURLToPath } from "node:url";
import test from "node:test";
import { polyover } from "./there.js";

const COUNT = process.env.POLYOVER_MADE ?? "200";
const LIBRARY = process.env.POLYOVER_LIBRARY ?? fileURLToPath(new URL("../../out/libpolyover.so", import.meta.url));
const SKIPPED = existsSync(LIBRARY) ? false : "no library for C (make -C c)";

/** What the calls of JavaScript answer of a line. */
function answersTo({ subject, clip, line, points, scale, rule, fill, solver, minimumArea }) {
  const scaled = polyover.scaled(scale);
  const split = { fill, solver };
  const lists = { ...split, answer: "lists" };
  const prepared = scaled.prepare(subject, split);
  return {
    overlay: scaled.overlay(subject, clip, { ...lists, rule, minimumArea }),
    hierarchy: scaled.hierarchy(subject, clip, { ...lists, rule, minimumArea }),
    simplify: scaled.simplify(subject, { ...lists, minimumArea }),
    relate: Object.values(scaled.relate(subject, clip, { fill, solver: "snapped" })),
    clip: scaled.clip(subject, [line], lists),
    slice: scaled.slice(subject, [line], lists),
    edges: scaled.edges(subject, clip, lists),
    locate: scaled.locate(subject, points),
    prepare: prepared.locate(points),
  };
}

test("made geometries", { skip: SKIPPED }, () => {
  const script = fileURLToPath(new URL("./geometries.py", import.meta.url));
  const text = execFileSync("python3", [script, COUNT], { encoding: "utf8", maxBuffer: 2 ** 30 });
  const lines = text.trim().split("\n");
  assert.equal(lines.length, Number(COUNT));
  for (const line of lines) {
    const { answers, ...given } = JSON.parse(line);
    assert.deepEqual(answersTo(given), answers, JSON.stringify(given));
  }
});
