/**
 * What the page shows, and who is told when it changes.
 *
 * @typedef {import("./drawing.js").Figures} Figures
 * @typedef {import("./drawing.js").Kind} Kind
 * @typedef {import("./drawing.js").Place} Place
 * @typedef {import("./commands.js").Asked} Asked
 * @typedef {{figures: Figures, asked: Asked, digits: number}} Drawing
 * @typedef {"edit" | "draw" | "delete"} Tool
 *
 * @typedef {object} Looks  what is shown beside the drawing
 * @property {boolean} beside  the answer stands beside the input, not over it
 * @property {boolean} nodes
 * @property {boolean} sides
 * @property {boolean} lens
 * @property {boolean} solvers  the answers of both solvers stand side by side
 * @property {"after" | "before" | "both"} snapping
 * @property {number} step  the step of the grid to which points snap
 */

import { DEFAULTS } from "./commands.js";
import { noFigures } from "./drawing.js";
import { History } from "./history.js";

export class State {
  constructor() {
    /** @type {History<Drawing>} */
    this.history = new History({ figures: noFigures(), asked: { ...DEFAULTS }, digits: 0 });
    /** @type {Tool} */
    this.tool = "edit";
    /** @type {Kind} */
    this.kind = "subject";
    /** @type {Place | null} */
    this.selected = null;
    /** @type {import("./drawing.js").Point | null} the point at which the keyboard draws */
    this.cursor = null;
    /** @type {number | null} the piece of the answer that is looked at */
    this.piece = null;
    /** @type {Looks} */
    this.looks = { beside: false, nodes: false, sides: false, lens: false, solvers: false, snapping: "after", step: 1 };
    /** @type {import("./answers.js").Answer | null} */
    this.answer = null;
    /** Whether the stars turn by themselves. */
    this.isTurning = false;
    /** @type {Map<string, Set<() => void>>} */
    this.listeners = new Map();
  }

  /** @returns {Drawing} */
  get drawing() {
    return this.history.present;
  }

  get figures() {
    return this.drawing.figures;
  }

  get asked() {
    return this.drawing.asked;
  }

  /** Has `listener` called after each change of what has a name: `drawing`, `turned`, `answer`, `looks` or `hand`. */
  on(/** @type {string} */ names, /** @type {() => void} */ listener) {
    for (const name of names.split(" ")) {
      if (!this.listeners.has(name)) this.listeners.set(name, new Set());
      this.listeners.get(name)?.add(listener);
    }
  }

  /** Tells that something changed. */
  tell(/** @type {string} */ name) {
    this.listeners.get(name)?.forEach((listener) => listener());
  }

  /** Makes a step of the drawing that can be undone. */
  step(/** @type {Partial<Drawing>} */ change) {
    this.history.step({ ...this.drawing, ...change });
    this.tell("drawing");
  }

  /** Changes the figures within a step, as while a point is dragged. */
  slide(/** @type {Figures} */ figures) {
    this.history.slide({ ...this.drawing, figures });
    this.tell("drawing");
  }

  /** Changes the figures without a step, as while the stars turn by themselves. */
  turn(/** @type {Figures} */ figures) {
    this.history.present = { ...this.drawing, figures };
    this.tell("turned");
  }

  /** Ends what `slide` began. */
  settle() {
    this.history.settle();
    this.tell("drawing");
  }

  /** Changes what is asked for. */
  ask(/** @type {Partial<Asked>} */ change) {
    this.step({ asked: { ...this.asked, ...change } });
  }

  /** Changes what is shown. */
  look(/** @type {Partial<Looks>} */ change) {
    Object.assign(this.looks, change);
    this.tell("looks");
  }

  /** Takes a tool, or a kind of path, into the hand. */
  take(/** @type {Partial<{tool: Tool, kind: Kind, selected: Place | null, cursor: any}>} */ change) {
    Object.assign(this, change);
    this.tell("hand");
  }

  /** Looks at a piece of the answer, or at none. */
  point(/** @type {number | null} */ piece) {
    if (piece === this.piece) return;
    this.piece = piece;
    this.tell("piece");
  }

  /** Undoes the last step, or makes one again. */
  travel(/** @type {"undo" | "redo"} */ way) {
    if (!this.history[way]()) return;
    this.take({ selected: null });
    this.tell("drawing");
  }
}
