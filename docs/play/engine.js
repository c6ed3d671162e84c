/**
 * The library in a worker, asked for one answer at a time. The latest drawing wins: one that comes while the worker is
 * at work waits, and takes the place of the one that waits already.
 */

import { COMMANDS, otherSolver } from "./commands.js";
import { edgesIn, groupsIn, nodesOf, pathsIn } from "./answers.js";
import { KINDS } from "./drawing.js";

/** After this many milliseconds an answer that nobody waits for is ended with its worker. */
const PATIENCE = 1500;

/**
 * What a page in one file holds in the place of the files beside it: the address of the worker, and the library.
 *
 * @type {{worker: string, library: string} | undefined}
 */
const held = /** @type {any} */ (globalThis).POLYOVER_HELD;

/** The bytes of a text in base64. */
const bytesOf = (/** @type {string} */ text) => Uint8Array.from(atob(text), (letter) => letter.charCodeAt(0));

/** Paths in arrays. */
export function flat(/** @type {number[][][]} */ paths) {
  const ends = new Uint32Array(paths.length);
  let count = 0;
  paths.forEach((path, at) => {
    count += path.length;
    ends[at] = count;
  });
  const coordinates = new Float64Array(2 * count);
  let next = 0;
  for (const path of paths) {
    for (const [x, y] of path) {
      coordinates[next] = x;
      coordinates[next + 1] = y;
      next += 2;
    }
  }
  return { coordinates, ends };
}

/**
 * What is asked for beside the answer to a drawing: the edges of its arrangement, the answer by the other solver, what
 * subject and clip fill, and the time of a warm call.
 *
 * @typedef {{isArranged?: boolean, isCompared?: boolean, isFilled?: boolean, isTimed?: boolean}} Wants
 */

/** What the worker is told of a drawing. */
function messageOf(/** @type {import("./state.js").Drawing} */ drawing, /** @type {Wants} */ wants) {
  const { takes } = COMMANDS[drawing.asked.command];
  const figures = Object.fromEntries(
    KINDS.map((kind) => [kind, flat(takes.includes(kind) ? drawing.figures[kind] : [])]),
  );
  return { figures, asked: drawing.asked, ...wants };
}

/** An answer of the worker as the page shows it. */
function answerOf({ other, regions, ...told }, /** @type {import("./state.js").Drawing} */ drawing) {
  /** @type {any} */
  const answer = { kind: told.kind, time: told.time, drawing };
  if (regions) {
    const found = regions.map(([kind, { coordinates, ends }]) => [kind, pathsIn(coordinates, ends)]);
    answer.regions = Object.fromEntries(found);
  }
  if (other) answer.other = answerOf(other, { ...drawing, asked: otherSolver(drawing.asked) });
  if (told.kind === "shapes") {
    answer.shapes = groupsIn(pathsIn(told.coordinates, told.ends), told.shapeEnds);
    if (told.links) answer.links = told.links;
  } else if (told.kind === "paths") answer.paths = pathsIn(told.coordinates, told.ends);
  else if (told.kind === "edges") answer.edges = edgesIn(told.coordinates, told.fills);
  else Object.assign(answer, told);
  if (told.arrangement) {
    answer.arrangement = edgesIn(told.arrangement.coordinates, told.arrangement.fills);
    const pieces = told.pieces.flatMap((each) => pathsIn(each.coordinates, each.ends));
    answer.nodes = nodesOf(answer.arrangement, pieces);
  }
  return answer;
}

const MISSING = "The library is not beside this page: docs/play/README.md says how it is opened.";
const ENDED = "The worker ended by itself before it answered. The next question goes to a new one.";
const CANCELLED = "The question was cancelled. The next one goes to a new worker.";
/**
 * Faults after which a worker is not asked again: it could not load the library, a call stopped in its midst, or its
 * memory, which never becomes smaller, is all taken.
 */
const BROKEN = ["LibraryMissing", "RuntimeError", "RangeError", "OutOfMemory", "PolyoverError"];

/** A name for the lock of a worker. */
const lockName = () => `polyover ${Date.now()} ${Math.random()}`;

/**
 * Starts a worker, which loads the library. `take` is called with each message of it. `end` is called once it has ended
 * by itself, with what is said then: where the browser has locks the worker holds one as long as it lives.
 */
export function startWorker(/** @type {(data: any) => void} */ take, /** @type {(said: string) => void} */ end) {
  const address = held?.worker ?? new URL("./worker.js", import.meta.url);
  const worker = new Worker(address, { type: "module" });
  const lock = lockName();
  let isLoaded = false;
  const ended = () => end(isLoaded ? ENDED : MISSING);
  worker.onmessage = ({ data }) => {
    isLoaded ||= data.kind === "ready";
    if (data === "held") navigator.locks.request(lock, ended);
    else take(data);
  };
  worker.onerror = (event) => {
    event.preventDefault();
    ended();
  };
  worker.onmessageerror = ended;
  worker.postMessage({ library: held ? bytesOf(held.library) : null, lock });
  return worker;
}

export class Engine {
  /** Has `take` called with each answer, and `load` with how the library was built, once it is loaded. */
  constructor(
    /** @type {(answer: import("./answers.js").Answer) => void} */ take,
    /** @type {(built: string) => void} */ load = () => {},
  ) {
    this.take = take;
    this.load = load;
    /** @type {[import("./state.js").Drawing, Wants] | null} */
    this.asked = null;
    /** @type {[import("./state.js").Drawing, Wants] | null} */
    this.next = null;
    /** @type {Worker | null} */
    this.worker = null;
    this.began = 0;
    this.timer = 0;
    /** It is called when an answer begins to be waited for, and when it no longer is. */
    this.watch = () => {};
    this.start();
  }

  /** Whether an answer is still to come. */
  get isBusy() {
    return this.asked !== null;
  }

  /** Starts a worker. (What one says that was ended is passed over.) */
  start() {
    this.isReady = false;
    const worker = startWorker(
      (data) => {
        if (worker !== this.worker) return;
        if (data.kind === "ready") this.begin(data.built);
        else this.receive(data);
      },
      (said) => worker === this.worker && this.end(said),
    );
    this.worker = worker;
  }

  /** Drops a worker that has ended by itself, and says so in the place of an answer. */
  end(/** @type {string} */ said) {
    this.drop();
    this.receive({ kind: "fault", name: "WorkerEnded", message: said, time: 0 });
  }

  /** Ends the answer that is on its way, and says so in its place. */
  cancel() {
    this.next = null;
    if (!this.asked) return;
    this.drop();
    this.receive({ kind: "fault", name: "Cancelled", message: CANCELLED, time: 0 });
  }

  /** Drops the worker: the next question gets a new one. */
  drop() {
    this.worker?.terminate();
    this.worker = null;
  }

  /** Counts the time of an answer from now on: the library is loaded. */
  begin(/** @type {string} */ built) {
    this.isReady = true;
    this.load(built);
    this.began = performance.now();
    this.wait();
  }

  /** Asks for the answer to a drawing. */
  ask(/** @type {import("./state.js").Drawing} */ drawing, /** @type {Wants} */ wants = {}) {
    this.next = [drawing, wants];
    if (this.asked) this.wait();
    else this.send();
  }

  /** Ends the answer that is on its way, once it took too long, if another one is waited for. */
  wait() {
    if (!this.isReady || !this.asked || !this.next || this.timer) return;
    const left = Math.max(0, PATIENCE - (performance.now() - this.began));
    this.timer = window.setTimeout(() => this.restart(), left);
  }

  /** Ends the answer that is on its way. */
  restart() {
    window.clearTimeout(this.timer);
    this.timer = 0;
    if (!this.asked || !this.next) return;
    this.drop();
    this.send();
  }

  /** Sends what is asked next. */
  send() {
    window.clearTimeout(this.timer);
    this.timer = 0;
    this.asked = this.next;
    this.next = null;
    this.watch();
    if (!this.asked) return;
    this.began = performance.now();
    if (!this.worker) this.start();
    this.worker?.postMessage(messageOf(...this.asked));
  }

  /** Takes an answer of the worker. */
  receive(told) {
    const asked = this.asked;
    if (told.kind === "fault" && BROKEN.includes(told.name)) this.drop();
    this.send();
    if (asked) this.take(answerOf(told, asked[0]));
  }
}
