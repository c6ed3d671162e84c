// What the page reads (docs/play), as far as it takes no browser.

import assert from "node:assert/strict";
import { test } from "node:test";

import { drawingOfHash } from "../../docs/play/link.js";
import { mended } from "../../docs/play/mended.js";
import { twiceIn } from "../../docs/play/once.js";
import { readGeojson } from "../../docs/play/reading.js";
import { BadText } from "../../docs/play/text.js";
import { Flat } from "../polyover.js";
import { doubleArea, polyover } from "./there.js";

const RING = "[[[0, 0], [4, 0], [4, 4], [0, 0]]]";

test("a member that comes twice in one object is found", () => {
  for (const [text, name] of [
    ['{"a": 1, "b": 2, "a": 1}', "a"],
    ['{"a": {"b": {}, "c": [{"d": 1, "d": 2}]}}', "d"],
    ['{"a": [], "b": {"a": 1}, "\\u0061": 2}', "a"],
    ['{"" :1,\n"" :2}', ""],
    ['{"x\\"": 1, "x\\"": 2}', 'x"'],
    ['[{"a": 1}, {"a": 1, "c": {}, "a": {"a": 2}}]', "a"],
  ]) {
    JSON.parse(text);
    assert.equal(twiceIn(text), name);
  }
});

test("members that come once in each object are none", () => {
  for (const text of [
    '{"a": {"a": {"a": 1}}, "b": [{"a": 1}, {"a": 2}], "A": 3}',
    '{"a": "a", "b": "{", "c": "}\\"a\\": 1", "d": "a"}',
    '["a", "a", ":", "a:", {"a": ["a", "a"]}]',
    '"a"',
    "3",
    `{"type": "Polygon", "coordinates": ${RING}}`,
  ]) {
    JSON.parse(text);
    assert.equal(twiceIn(text), undefined);
  }
});

test("the page refuses GeoJSON whose members come twice, by their names", () => {
  const polygon = `"type": "Polygon", "coordinates": ${RING}`;
  assert.equal(readGeojson(`{${polygon}}`).polygons.length, 1);
  for (const [text, name] of [
    [`{${polygon}, "coordinates": []}`, "coordinates"],
    [`{"type": "Feature", "properties": {"role": "clip", "role": "subject"}, "geometry": {${polygon}}}`, "role"],
    [`{"type": "FeatureCollection", "features": [], "features": [{${polygon}}]}`, "features"],
  ]) {
    const said = `the member "${name}" comes twice in one object`;
    assert.throws(() => readGeojson(text), (fault) => fault instanceof BadText && fault.message === said);
  }
});

test("the page refuses links whose question comes twice", () => {
  const [figures, run] = ["subject=0+0+4+0+4+4&subject=1+1+2+1+2+2", "run=overlay+Union+NonZero"];
  assert.equal(drawingOfHash(`#${figures}&${run}&solver=rounds&digits=2`).figures.subject.length, 2);
  for (const [hash, name] of [
    [`${figures}&${run}&run=overlay+Xor+NonZero`, "run"],
    [`${figures}&${run}&solver=rounds&solver=snapped`, "solver"],
    [`digits=1&${figures}&${run}&digits=2`, "digits"],
    [`point=1+1&run=locate&fill=nonzero&fill=positive`, "fill"],
  ]) {
    const said = `${name} comes twice`;
    assert.throws(() => drawingOfHash(`#${hash}`), (fault) => fault instanceof BadText && fault.message === said);
  }
});

test("the page names a question in a file that is none", () => {
  const file = (run) => `{"type": "FeatureCollection", "polyover": {"digits": 2${run}}, "features": []}`;
  assert.equal(readGeojson(file(', "run": "overlay Union NonZero"')).digits, 2);
  for (const [run, shown] of [["", "nothing"], [', "run": 3', "3"], [', "run": ["relate"]', '["relate"]']]) {
    const said = `polyover: run: ${shown} is no command`;
    assert.throws(() => readGeojson(file(run)), (fault) => fault instanceof BadText && fault.message === said);
  }
});

test("the page names what stands in the place of a file's question, or of its digits", () => {
  const file = (member) => `{"type": "FeatureCollection", "polyover": ${member}, "features": []}`;
  for (const [member, said] of [
    ["null", "polyover: null is no question"],
    ["7", "polyover: 7 is no question"],
    ['{"run": "relate"}', "polyover: digits: nothing is no number of digits from 0 to 15"],
    ['{"digits": "2", "run": "relate"}', 'polyover: digits: "2" is no number of digits from 0 to 15'],
    ['{"digits": 16, "run": "relate"}', "polyover: digits: 16 is no number of digits from 0 to 15"],
    ['{"digits": -1, "run": "relate"}', "polyover: digits: -1 is no number of digits from 0 to 15"],
    ['{"digits": 0.5, "run": "relate"}', "polyover: digits: 0.5 is no number of digits from 0 to 15"],
  ]) {
    assert.throws(() => readGeojson(file(member)), (fault) => fault instanceof BadText && fault.message === said);
  }
});

test("the page mends a polygon whose hole sticks out by less than half a unit", () => {
  // (the point (2, 1) is 1/5 above the edge to (5, 2), which then runs through it: 1/2 more is covered)
  const outline = [[0, 0], [0, -4], [5, -4], [5, 2]];
  const [within, out] = [[[2, 0], [3, -2], [1, -2]], [[2, 1], [3, -2], [1, -2]]];
  const rings = [outline, within, outline, out, outline];
  const flat = new Flat(Float64Array.from(rings.flat(2)), [4, 7, 11, 14, 18]);
  const [[number, contours], ...others] = mended(polyover, flat, [2, 4, 5]);
  assert.deepEqual([number, others], [1, []]);
  assert.equal(contours.reduce((sum, contour) => sum + doubleArea(contour), 0) / 2, 25.5 - 3);
});
