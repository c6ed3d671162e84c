/**
 * The worker of the page: it holds the library (docs/JAVASCRIPT.md), and answers what `engine.js` asks, in arrays.
 */

import { Flat, load } from "./engine/polyover.js";
import { isOption, otherSolver } from "./commands.js";
import { mended } from "./mended.js";

/** The names of the relations, as the page and the program have them. */
const snake = (/** @type {string} */ name) => name.replace(/[A-Z]/g, (letter) => `_${letter.toLowerCase()}`);

/** The options of a call, by its name. */
function optionsOf(asked) {
  const look = {
    touching: !asked.valid,
    clockwise: asked.clockwise,
    keep: asked.keep,
    minimumArea: BigInt(asked.minimumArea),
  };
  const filled = { fill: asked.fill, ...(isOption(asked, "solver") ? { solver: asked.solver } : {}) };
  return {
    overlay: { ...filled, ...look, rule: asked.rule },
    hierarchy: { ...filled, ...look, rule: asked.rule },
    simplify: { ...filled, ...look },
    clip: { ...filled, invert: asked.invert, boundary: asked.boundary },
    tiles: { ...filled, width: asked.width, height: asked.height },
  }[asked.command] ?? filled;
}

const paths = ({ coordinates, ends }) => ({ coordinates, ends });
const shapes = (found) => ({ kind: "shapes", ...paths(found.contours), shapeEnds: found.shapeEnds });

/** The links of an answer, three numbers each. */
const triples = (links) => Array.from({ length: links.length / 3 }, (_, at) => [...links.slice(3 * at, 3 * at + 3)]);

/** Where points lie: in contours that are joined by exclusive or, or in what another rule fills, which is prepared. */
function located(library, subject, points, fill) {
  if (fill === "evenodd") return library.locate(subject, points, { answer: "lists" });
  const prepared = library.prepare(subject, { fill });
  try {
    return prepared.locate(points, { answer: "lists" });
  } finally {
    prepared.free();
  }
}

/** What the library answers to each command. */
const ANSWERED = {
  overlay: (library, { subject, clip }, options) => shapes(library.overlay(subject, clip, options)),
  hierarchy: (library, { subject, clip }, options) => {
    const found = library.hierarchy(subject, clip, options);
    return { ...shapes(found.shapes), links: triples(found.links) };
  },
  simplify: (library, { subject }, options) => shapes(library.simplify(subject, options)),
  relate: (library, { subject, clip }, options) => {
    const found = Object.entries(library.relate(subject, clip, options));
    return { kind: "relations", relations: Object.fromEntries(found.map(([name, holds]) => [snake(name), holds])) };
  },
  clip: (library, { subject, line }, options) => ({ kind: "paths", ...paths(library.clip(subject, line, options)) }),
  slice: (library, { subject, line }, options) => shapes(library.slice(subject, line, options)),
  tiles: (library, { subject }, { width, height, ...how }) => shapes(library.tiles(subject, width, height, how)),
  locate: (library, { subject, point }, { fill }) => ({
    kind: "locations",
    locations: located(library, subject, point.coordinates, fill),
  }),
  edges: (library, { subject, clip }, options) => ({ kind: "edges", ...library.edges(subject, clip, options) }),
};

/** The edges of the arrangement that a command has, and the pieces of lines beside them. */
function arranged(library, { subject, clip, line }, { fill, solver }) {
  const options = { fill, solver, answer: "arrays" };
  const pieces = line.length
    ? [false, true].map((invert) => library.clip(subject, line, { ...options, invert, boundary: true }))
    : [];
  return { arrangement: library.edges(subject, clip, options), pieces: pieces.map(paths) };
}

/** Calls that take fewer milliseconds than the first are timed again, as many as fill them. */
const [SHORT, MOST_CALLS] = [4, 400];
/** For as many milliseconds the first call that is timed is made before: engines compile what is called often anew. */
const WARMING = 60;
let isWarm = false;

/** Makes a call again and again, before the first that is timed. */
function warm(/** @type {() => any} */ call) {
  if (isWarm) return;
  isWarm = true;
  const end = performance.now() + WARMING;
  while (performance.now() < end) call();
}

/** The milliseconds of a call that was called before: of several where it is short. */
function warmTime(/** @type {() => any} */ call) {
  const began = performance.now();
  let [count, now] = [0, began];
  while (now - began < SHORT && count < MOST_CALLS) {
    call();
    count += 1;
    now = performance.now();
  }
  return (now - began) / count;
}

/** The answer to what a message asks for. */
function answered(library, { figures, asked, isArranged, isFilled, isTimed }) {
  /** @type {any} */
  const flat = Object.fromEntries(
    Object.entries(figures).map(([kind, { coordinates, ends }]) => [kind, new Flat(coordinates, ends)]),
  );
  const options = { ...optionsOf(asked), ...(asked.command === "relate" ? {} : { answer: "arrays" }) };
  const call = () => ANSWERED[asked.command](library, flat, options);
  if (isTimed) warm(call);
  const began = performance.now();
  const answer = call();
  const first = performance.now() - began;
  const time = isTimed && first < SHORT ? warmTime(call) : first;
  const regions = isFilled ? { regions: regionsOf(library, flat, asked.fill) } : {};
  return { ...answer, time, ...regions, ...(isArranged ? arranged(library, flat, asked) : {}) };
}

/** What polygons cover, as far as their rings do not wind once round it. */
function mendedOf(library, { coordinates, ends, polygonEnds }) {
  return { kind: "mended", found: mended(library, new Flat(coordinates, ends), polygonEnds) };
}

/** What subject and clip fill: contours of shapes, by their kinds. Snap rounding tells it of each input. */
function regionsOf(library, figures, /** @type {string} */ fill) {
  const options = { rule: "subject", fill, answer: "arrays" };
  return ["subject", "clip"].map((kind) => [kind, paths(library.overlay(figures[kind], [], options).contours)]);
}

/** The answers by all overlay rules and fill rules that are named. */
function galleryOf(library, { gallery, subject, clip }) {
  const [one, other] = [subject, clip].map(({ coordinates, ends }) => new Flat(coordinates, ends));
  const found = gallery.map((names) => paths(library.overlay(one, other, { ...names, answer: "arrays" }).contours));
  return { kind: "gallery", found };
}

/** What was answered, or how it was refused. */
function answerOrFault(library, message) {
  try {
    if (message.gallery) return galleryOf(library, message);
    return message.mend ? mendedOf(library, message.mend) : answered(library, message);
  } catch (fault) {
    return { kind: "fault", name: fault.name, message: fault.message, time: 0 };
  }
}

/** What was answered by the solver that is asked, and by the other one where both are. */
function answersOf(library, message) {
  const answer = answerOrFault(library, message);
  if (!message.isCompared) return answer;
  return { ...answer, other: answerOrFault(library, { ...message, asked: otherSolver(message.asked) }) };
}

/** @type {Promise<any> | null} */
let library = null;

/** Holds a lock as long as this worker lives, so that the page is told when it has ended, however that was. */
function hold(/** @type {string} */ name) {
  const held = () => (self.postMessage("held"), new Promise(() => {}));
  navigator.locks?.request(name, held).catch(() => {});
}

self.onmessage = async ({ data }) => {
  if ("library" in data) {
    hold(data.lock);
    library = data.library ? load({ wasm: data.library }) : load();
    library.then((calls) => self.postMessage({ kind: "ready", built: calls.built() })).catch(() => {});
    return;
  }
  try {
    self.postMessage(answersOf(await library, data));
  } catch (fault) {
    self.postMessage({ kind: "fault", name: fault.name, message: fault.message, time: 0 });
  }
};
