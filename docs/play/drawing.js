/**
 * What is drawn: paths of whole points, by kind. Each edit gives new figures and leaves the old ones as they were.
 *
 * @typedef {[number, number]} Point
 * @typedef {Point[]} Path
 * @typedef {"subject" | "clip" | "line" | "point"} Kind
 * @typedef {Record<Kind, Path[]>} Figures
 * @typedef {{kind: Kind, path: number, at: number}} Place  a point: the path it is in, and its number there
 */

/** The kinds of paths. A path of the kind "point" has one point. */
export const KINDS = /** @type {Kind[]} */ (["subject", "clip", "line", "point"]);

/** The greatest coordinate: beyond it numbers of JavaScript are not exact. */
export const LIMIT = Number.MAX_SAFE_INTEGER;

/** The number of points up to which the answer follows each move. */
export const LIVE_POINTS = 20000;

/** @returns {Figures} figures without a path */
export const noFigures = () => ({ subject: [], clip: [], line: [], point: [] });

/** Whether paths of a kind are closed by the edge from the last point to the first one. */
export const isClosed = (/** @type {Kind} */ kind) => kind === "subject" || kind === "clip";

/** The number of points in all paths. */
export function pointCount(/** @type {Figures} */ figures) {
  return KINDS.reduce((sum, kind) => sum + figures[kind].reduce((count, path) => count + path.length, 0), 0);
}

/** Whether the answer follows each move: where there are not too many points. */
export const isLive = (/** @type {Figures} */ figures) => pointCount(figures) <= LIVE_POINTS;

/** A number as a whole coordinate in the range. */
export const whole = (/** @type {number} */ value) => Math.max(-LIMIT, Math.min(LIMIT, Math.round(value))) + 0;

/** @returns {Point} the nearest point whose coordinates are multiples of the step */
export function snapped(/** @type {number} */ x, /** @type {number} */ y, step = 1) {
  return [whole(Math.round(x / step) * step), whole(Math.round(y / step) * step)];
}

/** The point at a place, or undefined. */
export const pointAt = (/** @type {Figures} */ figures, /** @type {Place} */ place) =>
  figures[place.kind][place.path]?.[place.at];

/** Figures with one path exchanged; a path without points is dropped. */
function withPath(/** @type {Figures} */ figures, /** @type {Kind} */ kind, /** @type {number} */ at, path) {
  const paths = figures[kind].slice();
  paths.splice(at, 1, ...(path.length ? [path] : []));
  return { ...figures, [kind]: paths };
}

/** Figures in which the point at a place stands elsewhere. */
export function movePoint(/** @type {Figures} */ figures, /** @type {Place} */ place, /** @type {Point} */ point) {
  const path = figures[place.kind][place.path].slice();
  path[place.at] = point;
  return withPath(figures, place.kind, place.path, path);
}

/** Figures in which a path is moved by a distance. */
export function movePath(/** @type {Figures} */ figures, /** @type {Place} */ place, /** @type {Point} */ by) {
  const path = figures[place.kind][place.path].map(([x, y]) => [whole(x + by[0]), whole(y + by[1])]);
  return withPath(figures, place.kind, place.path, path);
}

/** Figures with a new point before the one at a place. */
export function addPoint(/** @type {Figures} */ figures, /** @type {Place} */ place, /** @type {Point} */ point) {
  const path = figures[place.kind][place.path].slice();
  path.splice(place.at, 0, point);
  return withPath(figures, place.kind, place.path, path);
}

/** Figures without the point at a place, and without its path where that was its last point. */
export function deletePoint(/** @type {Figures} */ figures, /** @type {Place} */ place) {
  const path = figures[place.kind][place.path].slice();
  path.splice(place.at, 1);
  return withPath(figures, place.kind, place.path, path);
}

/** Figures without a path. */
export const deletePath = (/** @type {Figures} */ figures, /** @type {Place} */ place) =>
  withPath(figures, place.kind, place.path, []);

/** Figures with one more path, the last of its kind. */
export const addPath = (/** @type {Figures} */ figures, /** @type {Kind} */ kind, /** @type {Path} */ path) =>
  ({ ...figures, [kind]: [...figures[kind], path] });

/** Figures whose coordinates are times a factor, and rounded. */
export function scaleFigures(/** @type {Figures} */ figures, /** @type {number} */ factor) {
  const scaled = (/** @type {Path} */ path) => path.map(([x, y]) => [whole(x * factor), whole(y * factor)]);
  return /** @type {Figures} */ (Object.fromEntries(KINDS.map((kind) => [kind, figures[kind].map(scaled)])));
}

/**
 * The box of some paths: its least x and y, and its greatest x and y; null where there is no point.
 *
 * @returns {[number, number, number, number] | null}
 */
export function boxOf(/** @type {Iterable<Path>} */ paths) {
  let [left, low, right, high] = [Infinity, Infinity, -Infinity, -Infinity];
  for (const path of paths) {
    for (const [x, y] of path) {
      left = Math.min(left, x);
      low = Math.min(low, y);
      right = Math.max(right, x);
      high = Math.max(high, y);
    }
  }
  return left <= right ? [left, low, right, high] : null;
}

/** All paths, of each kind. */
export const allPaths = (/** @type {Figures} */ figures) => KINDS.flatMap((kind) => figures[kind]);

/** The steps of the paths of some kinds, closed for contours: each two points. */
export function stepsOf(/** @type {Figures} */ figures, /** @type {Kind[]} */ kinds) {
  return kinds.flatMap((kind) =>
    figures[kind].flatMap((path) =>
      path.slice(isClosed(kind) ? 0 : 1).map((point, at) => {
        const before = isClosed(kind) ? path[at ? at - 1 : path.length - 1] : path[at];
        return [before, point];
      }),
    ),
  );
}
