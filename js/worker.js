/** The worker: it holds an instance of the module, and answers one message after another. */

import { Arrangement, FREED as FREED_ARRANGEMENT } from "./arrangement.js";
import { Polyover } from "./calls.js";
import { BadInput } from "./errors.js";
import { buffersIn, packed, unpacked } from "./packing.js";
import { FREED, Prepared } from "./prepared.js";

let polyover;
// (prepared shapes and arrangements by their numbers)
const all = new Map();
let count = 0;

async function answerTo({ module, name, grid, kept, given }) {
  if (module) {
    polyover = new Polyover(await WebAssembly.instantiate(module, {}));
    return undefined;
  }
  if (kept !== undefined) {
    return ofKept(kept, name, given);
  }
  const calls = grid ? polyover.scaled(...grid) : polyover;
  const answer = calls[name](...given.map(unpacked));
  if (answer instanceof Prepared || answer instanceof Arrangement) {
    all.set(count, answer);
    return { kept: count++ };
  }
  return packed(answer);
}

/** What a call of something that is kept answers. */
function ofKept(kept, name, given) {
  const it = all.get(kept);
  if (it === undefined) {
    throw new BadInput(name in Arrangement.prototype ? FREED_ARRANGEMENT : FREED);
  }
  if (name === "free") {
    all.delete(kept);
  }
  return packed(it[name](...given));
}

async function answered(message, post) {
  const { number } = message;
  try {
    const answer = await answerTo(message);
    // (arrays are handed over without a copy)
    post({ number, answer }, buffersIn(answer));
  } catch (fault) {
    post({ number, fault: { name: fault.name, message: fault.message, contour: fault.contour } }, []);
  }
}

if (typeof self !== "undefined" && typeof self.postMessage === "function") {
  self.onmessage = ({ data }) => answered(data, (...answer) => self.postMessage(...answer));
} else {
  // (no await at the top: browsers have modules as workers longer than that; Node keeps messages for the port)
  import("node:worker_threads").then(({ parentPort }) =>
    parentPort.on("message", (data) => answered(data, (...answer) => parentPort.postMessage(...answer))),
  );
}
