/** The names of rules, fill rules and others, each of which stands for its place in its list, and limits of numbers. */

export const RULES = ["subject", "clip", "intersect", "union", "difference", "inverse_difference", "xor"];
export const FILLS = ["evenodd", "nonzero", "positive", "negative"];
export const SOLVERS = ["snapped", "rounds"];
export const LOCATIONS = ["outside", "inside", "boundary"];
/** How the library was built, by the number that it tells. */
export const BUILDS = ["unproved", "proved"];
export const RELATIONS = [
  "intersects",
  "interiorsIntersect",
  "touches",
  "pointIntersects",
  "within",
  "disjoint",
  "covers",
];
/** The greatest coordinate, in 64 bits and in 32. */
export const LIMIT = 2n ** 62n - 1n;
export const LIMIT_32 = 2 ** 30 - 1;
