/** The defaults are those of the table in README.md, and each makes another answer than another value of the option. */

import assert from "node:assert/strict";
import { readFileSync } from "node:fs";
import test from "node:test";
import { polyover } from "./there.js";

const README = new URL("../../README.md", import.meta.url);
const NEEDLES = [[[2, 0], [0, 66], [2, -66]], [[1, 0], [0, 67], [-1, 0]]];
const NESTED = [[[0, 0], [9, 0], [9, 9], [0, 9]], [[3, 3], [6, 3], [6, 6], [3, 6]]];
// a hole that touches the left side of its outline
const TOUCHED = [[[0, 0], [6, 0], [6, 6], [0, 6]], [[0, 3], [2, 4], [2, 2]]];
const SMALL = [[[0, 0], [1, 0], [0, 1]]];
/** For each option contours, and a value that is not its default. */
const ASKED = {
  solver: [NEEDLES, "rounds"],
  touching: [TOUCHED, true],
  minimumArea: [SMALL, 1],
  fill: [NESTED, "evenodd"],
};

/** The cells of a column of the table of defaults. */
function column(name) {
  const lines = readFileSync(README, "utf8").split("\n");
  const begin = lines.findIndex((line) => line.startsWith("| | Rattle |"));
  const rows = lines.slice(begin, lines.indexOf("", begin)).map((line) => line.split("|").map((cell) => cell.trim()));
  return rows.slice(2).map((row) => row[rows[0].indexOf(name)]);
}

/** What is answered, or the name of the error. */
function answered(contours, options) {
  try {
    return polyover.overlay(contours, [], { rule: "subject", ...options });
  } catch (fault) {
    return fault.name;
  }
}

test("defaults are those of README", () => {
  const found = column("JavaScript").map((cell) => /(\w+)`?: (.*?)`?\)?$/.exec(cell).slice(1, 3));
  const defaults = Object.fromEntries(found.map(([name, value]) => [name, JSON.parse(value)]));
  assert.deepEqual(Object.keys(defaults).sort(), Object.keys(ASKED).sort());
  for (const [name, [contours, other]] of Object.entries(ASKED)) {
    const plain = answered(contours, {});
    assert.deepEqual(answered(contours, { [name]: defaults[name] }), plain, name);
    assert.notDeepEqual(answered(contours, { [name]: other }), plain, name);
  }
});
