/** The calls in a worker: their answers, and calls that wait when it ends, fails or answers late. */

import assert from "node:assert/strict";
import test from "node:test";
import { Worker } from "node:worker_threads";
import { BadInput, FlatShapes, LibraryMissing, NotResolved, PolyoverError, WorkerEnded } from "../polyover.js";
import { RemotePolyover, load } from "../polyover.js";
import { ofNode } from "../remote.js";
import { flat, polyover, rows } from "./there.js";

const { SQUARE, OTHER, NESTED } = rows;
const CROSSED = [[0, 0], [4, 4], [4, 0], [0, 4]];
// (an answer that never comes is a fault, and does not keep the tests waiting)
const AT_MOST = { timeout: 120_000 };

/** A test that ends the worker, whatever comes of it. */
function workerTest(name, run) {
  test(name, AT_MOST, async () => {
    const remote = await load({ worker: true });
    try {
      await run(remote);
    } finally {
      remote.end();
    }
  });
}

/** A worker that answers when it is told to: after its end too, as Node hands over answers on their way. */
class FakeWorker {
  sent = [];
  ends = 0;

  postMessage(message) {
    this.sent.push(message);
  }

  terminate() {
    this.ends++;
  }

  /** Answers the first message that it has not answered yet. */
  answer(told) {
    const { number } = this.sent.shift();
    this.onmessage({ data: { number, ...told } });
  }
}

/** A worker that is told when to answer, and the calls in it, once it is loaded. */
async function slow() {
  const worker = new FakeWorker();
  const loaded = RemotePolyover.over(null, worker);
  worker.answer({});
  return [worker, await loaded];
}

workerTest("calls in a worker answer as others do", async (remote) => {
  const found = await Promise.all([
    remote.overlay([SQUARE], [OTHER], { rule: "xor" }),
    remote.relate([SQUARE], [OTHER]),
    remote.scaled(10).simplify([[[0, 0], [0.5, 0], [0.5, 0.5]]]),
    remote.isResolved([SQUARE]),
  ]);
  assert.deepEqual(found[0], polyover.overlay([SQUARE], [OTHER], { rule: "xor" }));
  assert.equal(found[1].interiorsIntersect, true);
  assert.deepEqual(found[2], [[[[0, 0], [0.5, 0], [0.5, 0.5]]]]);
  assert.equal(found[3], true);
});

workerTest("arrays go to a worker and come back", async (remote) => {
  for (const kind of [BigInt64Array, Int32Array, Float64Array]) {
    const given = flat(kind);
    const shapes = await remote.overlay(given, flat(kind, OTHER));
    assert.ok(shapes instanceof FlatShapes && shapes.contours.coordinates instanceof kind);
    assert.deepEqual([...shapes], [...polyover.overlay(given, flat(kind, OTHER))]);
    // (the given arrays are here still)
    assert.equal(given.coordinates.length, 8);
    assert.deepEqual(await remote.edges(given), polyover.edges(given));
    assert.deepEqual(await remote.tiles([SQUARE], 3, 3), polyover.tiles([SQUARE], 3, 3));
    const points = kind.from([2, 2, 9, 9], kind === BigInt64Array ? BigInt : Number);
    assert.deepEqual(await remote.locate([SQUARE], points), polyover.locate([SQUARE], points));
  }
  const options = { rule: "subject", fill: "evenodd" };
  const { shapes, links } = await remote.hierarchy(NESTED, [], { ...options, answer: "arrays" });
  assert.deepEqual([...shapes], polyover.hierarchy(NESTED, [], options).shapes);
  assert.deepEqual(links, new Uint32Array([0, 1, 1]));
  assert.equal((await remote.overlay([SQUARE], [], { answer: "geojson" })).type, "MultiPolygon");
});

workerTest("faults in a worker have their class", async (remote) => {
  await assert.rejects(remote.overlay(3), (fault) => fault instanceof BadInput && fault.name === "BadInput");
  await assert.rejects(remote.scaled(0).overlay([]), BadInput);
  await assert.rejects(remote.overlay(() => 0), BadInput);
  const located = remote.locate([CROSSED], [[1, 1]]);
  await assert.rejects(located, (fault) => fault instanceof NotResolved && fault.contour === 1);
  assert.equal((await remote.overlay([SQUARE])).length, 1);
});

workerTest("calls that wait when a worker is ended are rejected, and so are later ones", async (remote) => {
  const waiting = Promise.allSettled([remote.overlay([SQUARE]), remote.isResolved([SQUARE])]);
  remote.end();
  for (const { status, reason } of await waiting) {
    assert.equal(status, "rejected");
    assert.ok(reason instanceof WorkerEnded);
  }
  await assert.rejects(remote.overlay([SQUARE]), WorkerEnded);
  remote.end();
});

test("an answer that comes after the end is passed over", AT_MOST, async () => {
  const [worker, remote] = await slow();
  const waiting = Promise.allSettled([remote.isResolved([SQUARE]), remote.overlay(3)]);
  remote.end();
  worker.answer({ answer: true });
  worker.answer({ fault: { name: "BadInput", message: "3" } });
  worker.onerror(new Error("terminated"));
  assert.deepEqual((await waiting).map(({ reason }) => reason?.name), ["WorkerEnded", "WorkerEnded"]);
});

test("answers of a slow worker settle the calls that they are of", AT_MOST, async () => {
  const [worker, remote] = await slow();
  const waiting = Promise.allSettled([remote.isResolved([SQUARE]), remote.overlay(3)]);
  worker.sent.reverse();
  worker.answer({ fault: { name: "BadInput", message: "3 is no list" } });
  worker.answer({ answer: true });
  const [resolved, refused] = await waiting;
  assert.equal(resolved.value, true);
  assert.ok(refused.reason instanceof BadInput && refused.reason.message === "3 is no list");
});

test("calls that wait when a worker fails are rejected", AT_MOST, async () => {
  const [worker, remote] = await slow();
  const waiting = Promise.allSettled([remote.isResolved([SQUARE])]);
  worker.onerror(new Error("out of memory"));
  const [{ reason }] = await waiting;
  assert.ok(reason instanceof PolyoverError && reason.message.includes("out of memory"));
  await assert.rejects(remote.isResolved([SQUARE]), WorkerEnded);
  assert.equal(worker.ends, 1);
});

workerTest("whether the module is proved is told in a worker too", async (remote) => {
  assert.equal(await remote.built(), polyover.built());
});

test("calls that wait when a worker of Node exits are rejected", AT_MOST, async () => {
  const code = `
    const { parentPort } = require("node:worker_threads");
    let count = 0;
    parentPort.on("message", ({ number }) => (count++ ? process.exit(3) : parentPort.postMessage({ number })));
  `;
  const remote = await RemotePolyover.over(null, ofNode(new Worker(code, { eval: true })));
  const [{ reason }] = await Promise.allSettled([remote.isResolved([SQUARE])]);
  assert.ok(reason instanceof PolyoverError && reason.message.includes("it ended by itself, with status 3"));
  await assert.rejects(remote.isResolved([SQUARE]), WorkerEnded);
});

test("a worker that cannot load the module is ended", AT_MOST, async () => {
  const worker = new FakeWorker();
  const loaded = RemotePolyover.over(null, worker);
  worker.answer({ fault: { name: "RangeError", message: "out of memory" } });
  await assert.rejects(loaded, PolyoverError);
  assert.equal(worker.ends, 1);
  const empty = new WebAssembly.Module(new Uint8Array([0, 97, 115, 109, 1, 0, 0, 0]));
  for (const isInWorker of [false, true]) {
    await assert.rejects(load({ wasm: empty, worker: isInWorker }), LibraryMissing);
  }
});
