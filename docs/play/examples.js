/** Drawings to begin with: each is a text of the program, and what else it asks for. */

import { EDGES, FIRST, starsOf } from "./stars.js";
import { figureLines } from "./text.js";

/** A tower of squares, one in another. */
const squares = (/** @type {number} */ count) =>
  Array.from({ length: count }, (_, at) => {
    const [near, far] = [2 * at, 4 * count - 1 - 2 * at];
    return `subject ${near} ${near} ${far} ${near} ${far} ${far} ${near} ${far}`;
  }).join("\n");

const needles = "subject 2 0 0 66 2 -66\nsubject 1 0 0 67 -1 0\nrun overlay Union NonZero ogc";

const touching = "subject 0 0 6 0 6 6 0 6\nsubject 0 3 2 4 2 2\nrun overlay Subject EvenOdd";

/**
 * @typedef {object} Example
 * @property {string} name
 * @property {string} label
 * @property {string} text  of the program
 * @property {"snapped" | "rounds"} [solver]
 * @property {any} [looks]
 * @property {boolean} [turns]  whether it turns by itself
 * @property {string} says
 * @property {string} tries  what to try first
 */

/** @type {Example[]} */
export const EXAMPLES = [
  {
    name: "stars",
    label: "Two stars that turn",
    text: `${figureLines(starsOf(EDGES[FIRST])).join("\n")}\nrun overlay Intersect NonZero ogc`,
    turns: true,
    says: "Where both stars are, asked anew for each frame.",
    tries: "choose Exclusive or, or more edges; then drag a point.",
  },
  {
    name: "picture",
    label: "Two shapes, their union",
    text: "subject 1 0 4 0 4 5 1 5\nsubject 2 1 2 4 3 4 3 1\nclip 0 2 5 2 5 3 0 3\nrun overlay Union EvenOdd ogc",
    looks: { nodes: true },
    says: "One shape with two holes. Dots are the nodes of the arrangement, where edges meet or end.",
    tries: "drag the bar up until it leaves the holes.",
  },
  {
    name: "touching",
    label: "A hole that touches, one contour",
    text: touching,
    says: "Without valid polygons one contour visits the point (0, 3) twice and takes the hole in.",
    tries: "check Valid polygons.",
  },
  {
    name: "valid",
    label: "A hole that touches, valid polygons",
    text: `${touching} ogc`,
    says: "With valid polygons the hole is a contour of its own.",
    tries: "uncheck Valid polygons: outline and hole become one contour.",
  },
  {
    name: "refused",
    label: "Needles that rounds refuse",
    text: needles,
    solver: "rounds",
    says: "Edges cross so flatly that each round moves their crossing on by one unit: 64 rounds do not settle it.",
    tries: "press Ask the snapped solver in the answer.",
  },
  {
    name: "needles",
    label: "Needles that snapping answers",
    text: needles,
    solver: "snapped",
    says: "Snap rounding splits the same needles in one pass.",
    tries: "choose the solver Rounds, which refuses them.",
  },
  {
    name: "floor",
    label: "A floor plan, sliced along walls",
    text: [
      "subject 0 0 12 0 12 8 0 8",
      "subject 5 3 5 5 7 5 7 3",
      "line 4 0 4 8",
      "line 8 0 8 8",
      "line 0 4 4 4",
      "line 8 5 12 5",
      "line 10 0 10 2",
      "run slice EvenOdd",
    ].join("\n"),
    says: "Five rooms; the wall that ends within a room cuts nothing.",
    tries: "drag the free end of the wall at (10, 2) up to the wall above it.",
  },
  {
    name: "tiles",
    label: "Tiles: a lake cut along a grid",
    text: [
      "subject 13 9 71 -9 128 11 182 52 169 113 107 141 52 128 -2 83",
      "subject 58 52 83 93 121 78 108 41",
      "run tiles EvenOdd 40 40",
    ].join("\n"),
    says: "The cells of a grid cut the lake, with its island, into shapes of one cell each.",
    tries: "choose other sides of a cell; or drag the lake, while its island stays.",
  },
  {
    name: "hierarchy",
    label: "A hierarchy of five squares",
    text: `${squares(5)}\nrun hierarchy Subject EvenOdd ogc`,
    says: "Three shapes: each but the first lies in a hole of the one before it.",
    tries: "point at the shapes in the list, one by one.",
  },
  {
    name: "snapping",
    label: "Edges, before and after snapping",
    text: "subject 0 0 12 7 3 9\nclip 1 6 13 3 6 0 5 11\nrun edges NonZero",
    looks: { snapping: "both", nodes: true },
    says: "Where edges cross in points that are not whole, they are bent to whole points nearby.",
    tries: "choose × 2 a few times: the bends become smaller beside the shapes.",
  },
  {
    name: "clip",
    label: "Paths through a meadow",
    text: [
      "subject 0 0 10 1 13 6 9 11 2 9",
      "subject 5 4 5 7 8 7 8 4",
      "line -2 2 4 3 6 9 14 10",
      "line 3 -2 7 5 6 12",
      "line 13 -1 1 11",
      "run clip NonZero",
    ].join("\n"),
    says: "The parts of the lines inside the meadow.",
    tries: "check Outside, not inside.",
  },
  {
    name: "locate",
    label: "Where points lie",
    text: [
      "subject 0 0 10 0 10 8 5 4 0 8",
      "subject 3 1 3 3 7 3 7 1",
      "point 1 1",
      "point 5 2",
      "point 5 6",
      "point 5 4",
      "point 10 3",
      "point 3 2",
      "point 8 5",
      "point 12 4",
      "run locate",
    ].join("\n"),
    says: "Contours are joined by exclusive or; a point on an edge is on the boundary.",
    tries: "drag a point over an edge.",
  },
  {
    name: "relate",
    label: "How two shapes lie to each other",
    text: "subject 0 0 8 0 8 8 0 8\nclip 8 2 13 2 13 6 8 6\nrun relate NonZero",
    says: "A square and a box that share a part of an edge: they touch.",
    tries: "drag the clip into the subject: it touches, then the interiors intersect, then the subject covers it.",
  },
  {
    name: "winding",
    label: "A pentagram, simplified",
    text: "subject 50 100 21 10 98 65 2 65 79 10\nrun simplify NonZero ogc",
    says: "Edges cross, and the windings of the middle are 2: the fill rule tells whether it is filled.",
    tries: "choose another fill rule: even-odd leaves the middle out, and negative all of it.",
  },
];
