/**
 * Polygons of files whose contours do not wind once round what they cover: those with a ring that meets itself, or with
 * holes that overlap or reach outside. In the worker, by the library.
 */

/** Up to so many points all pairs are compared. */
const FEW = 12;

/** Whether no point comes twice in a ring. */
function visitsOnce(/** @type {number[][]} */ ring) {
  if (ring.length > FEW) return new Set(ring.map((point) => point.join(" "))).size === ring.length;
  return ring.every(([x, y], at) => !ring.some(([u, v], other) => other > at && u === x && v === y));
}

/** Whether rings, in their directions, wind once round what a polygon of them covers, and else not at all. */
function windsOnce(library, /** @type {number[][][]} */ rings, /** @type {boolean} */ areResolved) {
  if (!rings.every(visitsOnce) || !(areResolved || library.isResolved(rings))) return false;
  if (rings.length === 1) return true;
  // (exactly: what they fill so has a point in common with itself, if any)
  return !library.relate(rings, rings, { fill: "negative" }).intersects;
}

/**
 * The contours of what each of some polygons covers whose rings do not wind once round it: pairs of its number and its
 * contours. The rings of all polygons come in a `Flat`; outlines run counterclockwise, and holes clockwise.
 *
 * @returns {[number, number[][][]][]}
 */
export function mended(library, /** @type {any} */ all, /** @type {ArrayLike<number>} */ polygonEnds) {
  const areResolved = library.isResolved(all);
  const found = [];
  for (let number = 0, ring = 0; number < polygonEnds.length; number += 1) {
    const rings = [];
    for (; ring < polygonEnds[number]; ring += 1) rings.push(all.path(ring));
    if (windsOnce(library, rings, areResolved)) continue;
    const polygon = { type: "Polygon", coordinates: rings };
    const shapes = library.overlay(polygon, [], { rule: "subject", answer: "lists" });
    found.push(/** @type {[number, number[][][]]} */ ([number, shapes.flat()]));
  }
  return found;
}
