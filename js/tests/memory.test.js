/**
 * Memory: each request of each call is refused in turn, by a module that is made for it (`make -C js` leaves it in
 * out/js); after each refusal the calls answer as before, and all that a call took it has given back.
 */

import assert from "node:assert/strict";
import { existsSync, readFileSync } from "node:fs";
import test from "node:test";
import { OutOfMemory, Polyover } from "../polyover.js";
import { rows } from "./there.js";

const { SQUARE, OTHER, FRAME, BAR, NESTED, HALL, WALLS } = rows;
const REFUSING = new URL("../../out/js/refusing.wasm", import.meta.url);
const SKIPPED = existsSync(REFUSING) ? false : "no module that refuses (make -C js)";
const ALL = 2n ** 64n - 1n;
const MOST = 2000;

const CALLS = {
  overlay: (it) => it.overlay(FRAME, BAR, { fill: "evenodd" }),
  hierarchy: (it) => it.hierarchy(NESTED, [], { rule: "subject", fill: "evenodd" }),
  simplify: (it) => it.simplify([SQUARE, OTHER]),
  relate: (it) => it.relate([SQUARE], [OTHER]),
  relateArranged: (it) => it.relate([SQUARE], [OTHER], { solver: "snapped" }),
  relateOne: (it) => it.relateOne("touches", [SQUARE], [OTHER]),
  relateOneArranged: (it) => it.relateOne("touches", [SQUARE], [OTHER], { solver: "snapped" }),
  clip: (it) => it.clip(HALL, WALLS),
  slice: (it) => it.slice(HALL, WALLS, { fill: "evenodd" }),
  tiles: (it) => it.tiles([SQUARE, OTHER], 1, 3),
  edges: (it) => it.edges([SQUARE], [OTHER]),
  trace: (it) => it.trace([SQUARE], [OTHER], { rule: "xor" }),
  vectors: (it) => it.vectors([SQUARE], [OTHER], { rule: "xor" }),
  isResolved: (it) => it.isResolved([SQUARE, OTHER]),
  locate: (it) => it.locate([SQUARE], [[2, 2], [4, 1], [9, 9]]),
  prepare: (it) => {
    const prepared = it.prepare(FRAME, { fill: "evenodd" });
    try {
      return [prepared.locate([[1, 0], [9, 9]]), prepared.contains([[2, 2]])];
    } finally {
      prepared.free();
    }
  },
  arrangement: (it) => {
    const both = it.arrangement(FRAME, BAR, { fill: "evenodd" });
    try {
      return [both.overlay(), both.hierarchy({ rule: "xor" }), both.edges()];
    } finally {
      both.free();
    }
  },
  sliceSo: (it) => it.slice(HALL, WALLS, { fill: "evenodd", clockwise: true, minimumArea: 1 }),
  scaled: (it) => it.scaled(100).overlay([SQUARE], [OTHER]),
};

async function refusing() {
  const { instance } = await WebAssembly.instantiate(readFileSync(REFUSING), {});
  return { exports: instance.exports, polyover: new Polyover(instance) };
}

for (const [name, call] of Object.entries(CALLS)) {
  test(`each request of ${name} is refused`, { skip: SKIPPED }, async () => {
    const { exports, polyover } = await refusing();
    const expected = call(polyover);
    let refused = 0;
    for (; refused < MOST; refused++) {
      exports.refuse_after(BigInt(refused));
      let answer;
      try {
        answer = call(polyover);
      } catch (fault) {
        assert.ok(fault instanceof OutOfMemory, String(fault));
        exports.refuse_after(ALL);
        assert.deepEqual(call(polyover), expected);
        continue;
      }
      assert.deepEqual(answer, expected);
      break;
    }
    assert.ok(refused > 3 && refused < MOST, `${refused} requests`);
    exports.refuse_after(ALL);
    const pages = exports.memory.buffer.byteLength;
    for (let times = 0; times < 200; times++) {
      assert.deepEqual(call(polyover), expected);
    }
    assert.equal(exports.memory.buffer.byteLength, pages);
  });
}

test("more than the engine grants is refused", { skip: SKIPPED }, async () => {
  const { exports } = await refusing();
  for (const size of [2n ** 33n, 2n ** 46n, 2n ** 47n, 2n ** 63n, 2n ** 64n - 1n, 5n * 2n ** 30n]) {
    assert.equal(exports.malloc(size), 0n);
  }
  const at = exports.malloc(1n);
  assert.equal(at % 16n, 0n);
  exports.free(at);
  exports.free(0n);
});

test("a call of more than there is", { skip: SKIPPED }, async () => {
  const { exports, polyover } = await refusing();
  const taken = [];
  for (let size = 2n ** 31n; size > 1000n; size /= 2n) {
    for (let at = exports.malloc(size); at !== 0n; at = exports.malloc(size)) {
      taken.push(at);
    }
  }
  assert.throws(() => polyover.overlay(FRAME, BAR), OutOfMemory);
  taken.forEach((at) => exports.free(at));
  assert.equal(polyover.overlay([SQUARE]).length, 1);
});
