/** The finest scale in the range: at it Python, JavaScript and the page tell relations of the arrangement. */

import { KINDS } from "../drawing.js";

/** The greatest coordinate of 64 bits that the library takes. */
const LIMIT = 2n ** 62n - 1n;

/** Figures whose coordinates are times the greatest power of two that keeps them in the range. */
export function finestOf(/** @type {import("../drawing.js").Figures} */ figures) {
  let most = 0;
  for (const kind of KINDS) {
    for (const path of figures[kind]) {
      for (const [x, y] of path) most = Math.max(most, Math.abs(x), Math.abs(y));
    }
  }
  const power = most ? BigInt((LIMIT / BigInt(most)).toString(2).length - 1) : 0n;
  const finer = (/** @type {number} */ value) => BigInt(value) << power;
  const paths = (/** @type {number[][][]} */ given) => given.map((path) => path.map(([x, y]) => [finer(x), finer(y)]));
  return /** @type {any} */ (Object.fromEntries(KINDS.map((kind) => [kind, paths(figures[kind])])));
}
