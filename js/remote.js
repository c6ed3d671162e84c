/** The calls in a worker, which answer promises. */

import { BadInput, ERRORS, PolyoverError, WorkerEnded } from "./errors.js";
import { packed, unpacked } from "./packing.js";

// (bundlers for browsers leave a name in a variable alone)
const THREADS = "node:worker_threads";
const OF_PREPARED = ["locate", "contains"];
const OF_ARRANGEMENT = ["overlay", "hierarchy", "edges"];
const CALLS = [
  ...["overlay", "hierarchy", "vectors", "simplify", "relate", "relateOne", "clip", "slice", "tiles", "locate"],
  ...["edges", "trace", "isResolved", "built"],
];

/** A worker of Node with a browser's ways. */
export function ofNode(worker) {
  worker.on("message", (data) => worker.onmessage?.({ data }));
  worker.on("error", (fault) => worker.onerror?.(fault));
  worker.on("exit", (status) => worker.onerror?.(new Error(`it ended by itself, with status ${status}`)));
  return worker;
}

/** A worker of the browser, or one of Node. (Bundlers take the address where it stands like this.) */
async function newWorker() {
  if (typeof Worker !== "undefined") {
    return new Worker(new URL("./worker.js", import.meta.url), { type: "module" });
  }
  const { Worker: NodeWorker } = await import(/* webpackIgnore: true */ /* @vite-ignore */ THREADS);
  return ofNode(new NodeWorker(new URL("./worker.js", import.meta.url)));
}

/** A worker, and the calls that it has not answered yet. While there are none it does not keep Node running. */
class Channel {
  #worker;
  #waiting = new Map();
  #number = 0;
  #ended = false;

  constructor(worker) {
    this.#worker = worker;
    worker.onmessage = ({ data }) => this.#answered(data);
    // (a browser that finds no worker at the address says no more than that)
    worker.onerror = ({ message = "it is not there" }) => this.end(new PolyoverError(`the worker failed: ${message}`));
  }

  ask(message) {
    if (this.#ended) {
      return Promise.reject(new WorkerEnded());
    }
    const number = this.#number++;
    return new Promise((resolve, reject) => {
      try {
        this.#worker.postMessage({ number, ...message });
      } catch (fault) {
        throw new BadInput(`what was given cannot be sent to a worker: ${fault.message}`);
      }
      this.#waiting.set(number, { resolve, reject });
      this.#worker.ref?.();
    });
  }

  /** Settles the promise of one call. An answer that arrives after `end` has none left: `end` rejected it. */
  #answered({ number, answer, fault }) {
    if (this.#ended) {
      return;
    }
    const { resolve, reject } = this.#waiting.get(number);
    this.#waiting.delete(number);
    if (this.#waiting.size === 0) {
      this.#worker.unref?.();
    }
    if (fault) {
      const kind = ERRORS[fault.name] ?? PolyoverError;
      const error = kind === ERRORS.NotResolved ? new kind(fault.contour) : new kind(fault.message);
      reject(error);
    } else {
      resolve(unpacked(answer));
    }
  }

  end(reason = new WorkerEnded()) {
    // (a worker that was ended tells that it has)
    if (this.#ended) {
      return;
    }
    this.#ended = true;
    this.#worker.terminate();
    for (const { reject } of this.#waiting.values()) {
      reject(reason);
    }
    this.#waiting.clear();
  }
}

/** The calls of `Polyover`, each of which answers a promise. They run in a worker, one after another. */
export class RemotePolyover {
  #channel;
  #grid;

  constructor(channel, grid) {
    this.#channel = channel;
    this.#grid = grid;
  }

  /** The calls over a module of WebAssembly, in a worker that is made for it if none is given. */
  static async over(module, worker) {
    const channel = new Channel(worker ?? (await newWorker()));
    try {
      await channel.ask({ module });
    } catch (fault) {
      channel.end();
      throw fault;
    }
    return new RemotePolyover(channel);
  }

  /** The same calls on floats, in the same worker; see `Polyover.scaled`. */
  scaled(scale, origin = [0, 0]) {
    return new RemotePolyover(this.#channel, [scale, origin]);
  }

  /** Ends the worker, and with it a call that runs: the promises that wait are rejected with WorkerEnded. */
  end() {
    this.#channel.end();
  }

  /** What a call of that name answers. */
  call(name, given) {
    return this.#channel.ask({ name, grid: this.#grid, given: given.map(packed) });
  }

  /** A prepared shape in the worker. */
  async prepare(...given) {
    const { kept } = await this.call("prepare", given);
    return new RemotePrepared(this.#channel, kept);
  }

  /** An arrangement in the worker. */
  async arrangement(...given) {
    const { kept } = await this.call("arrangement", given);
    return new RemoteArrangement(this.#channel, kept);
  }
}

/** Has the worker give back the memory of what it keeps; one that has ended needs no more. */
function freed({ channel, kept }) {
  channel.ask({ name: "free", kept, given: [] }).catch(() => {});
}

const forgotten = new FinalizationRegistry(freed);

/** What a worker keeps to be asked again and again; each of its calls answers a promise. */
class RemoteKept {
  #channel;
  #kept;

  constructor(channel, kept) {
    this.#channel = channel;
    this.#kept = kept;
    forgotten.register(this, { channel, kept }, this);
  }

  /** What a call of that name answers. */
  call(name, given) {
    return this.#channel.ask({ name, kept: this.#kept, given: given.map(packed) });
  }

  /** Gives its memory back: it is not to be asked any more. */
  free() {
    if (forgotten.unregister(this)) {
      freed({ channel: this.#channel, kept: this.#kept });
    }
  }
}

/** A prepared shape in a worker; `RemotePolyover.prepare` makes it. */
export class RemotePrepared extends RemoteKept {}

/** An arrangement in a worker; `RemotePolyover.arrangement` makes it. */
export class RemoteArrangement extends RemoteKept {}

/** Gives a class methods that ask the worker. */
function remote(kind, names) {
  for (const name of names) {
    Object.defineProperty(kind.prototype, name, {
      value(...given) {
        return this.call(name, given);
      },
      writable: true,
      configurable: true,
    });
  }
}

remote(RemotePolyover, CALLS);
remote(RemotePrepared, OF_PREPARED);
remote(RemoteArrangement, OF_ARRANGEMENT);
