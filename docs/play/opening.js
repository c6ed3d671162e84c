/**
 * A file of GeoJSON as a drawing. Contours of polygons wind once round what these cover: outlines counterclockwise and
 * holes clockwise, so that Nonzero fills just what any of them covers. Features with a role stay as they run.
 *
 * @typedef {{name: string, text: string}} Given  a file
 */

import { DEFAULTS } from "./commands.js";
import { noFigures } from "./drawing.js";
import { flat, startWorker } from "./engine.js";
import { askedOf } from "./link.js";
import { runsClockwise } from "./measure.js";
import { readGeojson, words } from "./reading.js";
import { BadText } from "./text.js";

/** A ring that runs counterclockwise, or clockwise. */
const turned = (/** @type {import("./drawing.js").Path} */ ring, /** @type {boolean} */ isHole) =>
  runsClockwise(ring) === isHole ? ring : ring.slice().reverse();

/**
 * What polygons cover, as far as their rings do not wind once round it: contours by the polygons' numbers. A worker of
 * its own tells it.
 *
 * @returns {Promise<Map<number, import("./drawing.js").Path[]>>}
 */
function mendedOf(/** @type {import("./reading.js").Polygon[]} */ polygons) {
  let end = 0;
  const polygonEnds = polygons.map(({ rings }) => (end += rings.length));
  const mend = { ...flat(polygons.flatMap(({ rings }) => rings)), polygonEnds };
  return new Promise((resolve, reject) => {
    const worker = startWorker((data) => {
      if (data.kind === "ready") return;
      worker.terminate();
      if (data.kind === "mended") resolve(new Map(data.found));
      else reject(new BadText(data.message));
    }, (said) => reject(new BadText(said)));
    worker.postMessage({ mend });
  });
}

/** What was mended of a file, in a sentence, or nothing. */
function saidOf(/** @type {import("./reading.js").Polygon[]} */ polygons, /** @type {number[]} */ mended) {
  if (!mended.length) return [];
  const [first] = mended;
  const several = `${mended.length} polygons meet themselves or have`;
  const count = mended.length === 1 ? "1 polygon meets itself or has" : several;
  const where = words(polygons[first].place);
  return [`${count} holes that overlap or lie outside: drawn by what they cover (first: ${where}).`];
}

/** What a file holds; a fault names it. */
function read(/** @type {Given} */ { name, text }, least = 0) {
  try {
    return { name, ...readGeojson(text, least) };
  } catch (fault) {
    throw fault instanceof BadText ? new BadText(`${name}: ${fault.message}`) : fault;
  }
}

/** What files hold, each with as many digits behind the point as the others; polygons of the second are the clip. */
function readTogether(/** @type {Given[]} */ files) {
  const digits = Math.max(...files.map((file) => read(file).digits));
  return files.map((file, at) => {
    const found = read(file, digits);
    if (at > 0) found.polygons.forEach((each) => (each.kind = each.isDrawn ? each.kind : "clip"));
    return found;
  });
}

/**
 * The drawing of a file of GeoJSON, or of two, the second the clip, and what is to be said of each. A question that the
 * page left in a file is asked again; else the one before with the fill rule Nonzero. A fault in a file is a `BadText`.
 */
export async function openedGeojson(/** @type {Given[]} */ files, /** @type {import("./commands.js").Asked} */ asked) {
  const found = files.length > 1 ? readTogether(files) : [read(files[0])];
  const [{ digits, kept }] = found;
  const polygons = found.flatMap((each) => each.polygons);
  const [line, point] = [found.flatMap(({ others }) => others.line), found.flatMap(({ others }) => others.point)];
  const figures = { ...noFigures(), line, point };
  const given = polygons.filter(({ isDrawn }) => !isDrawn);
  for (const each of given) each.rings = each.rings.map((ring, at) => turned(ring, at > 0));
  const mended = given.length ? await mendedOf(given) : new Map();
  given.forEach((each, at) => (each.rings = mended.get(at) ?? each.rings));
  for (const { kind, rings } of polygons) for (const ring of rings) if (ring.length) figures[kind].push(ring);
  const question = kept ? { ...DEFAULTS, ...askedOf(kept) } : { ...asked, fill: "nonzero" };
  const said = found.flatMap((file) => {
    const own = new Set(file.polygons);
    const numbers = [...mended.keys()].filter((number) => own.has(given[number]));
    const sentences = [...file.said, ...saidOf(given, numbers)];
    return sentences.length ? [`${file.name}: ${sentences.join(" ")}`] : [];
  });
  return { drawing: { figures, asked: question, digits }, said };
}
