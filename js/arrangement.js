/** Two groups of contours that are arranged once, and asked for any overlay. */

import { edgesIn, linksIn, shapesIn } from "./answers.js";
import { BadInput } from "./errors.js";
import { chosen, chosenOfOthers } from "./given.js";

export const FREED = "the arrangement was freed";
const LOOK = ["rule", "clockwise", "keep", "touching", "minimumArea", "answer"];

// (what is held of an arrangement must not refer to it: it would stay for ever)
const forgotten = new FinalizationRegistry((held) => held.free());

/** A graph in the memory of the module, which is given back once. */
class Held {
  constructor(library, at, kind) {
    Object.assign(this, { library, at, kind });
  }

  free() {
    if (this.at !== 0) {
      this.library.freeGraph(this.at, this.kind);
      this.at = 0;
    }
  }
}

/**
 * Two groups of contours, whose edges are split where they meet once, to be asked for any overlay of them;
 * `Polyover.arrangement` makes it. Each answer is that of the call with its name, in the form of the first group unless
 * the option `answer` names one. Its memory is given back by `free`, or else some time after nothing refers to it any
 * longer.
 */
export class Arrangement {
  #held;
  #how;

  constructor(library, at, how) {
    this.#held = new Held(library, at, how.kind);
    this.#how = how;
    forgotten.register(this, this.#held, this);
  }

  /** The shapes round the region where the rules hold. */
  overlay(options = {}) {
    const { rule, answer, look } = this.#look(options);
    return shapesIn(this.#graph().graphOverlay(this.#held.at, this.#how, rule, look), answer);
  }

  /** The same shapes, and a triple for each shape in a hole of another one, as the call `hierarchy` gives. */
  hierarchy(options = {}) {
    const { rule, answer, look } = this.#look(options);
    const found = this.#graph().graphHierarchy(this.#held.at, this.#how, rule, look);
    return { shapes: shapesIn(found, answer), links: linksIn(found.links, answer) };
  }

  /**
   * The edges in order: two points, and the sum of the bits of the filled sides. No polygons of a geometry are joined
   * for them.
   */
  edges(options = {}) {
    const { answer } = chosenOfOthers(options, ["answer"]);
    return edgesIn(this.#graph().graphEdges(this.#held.at, this.#how), answer ?? this.#how.form);
  }

  /** Gives its memory back: it is not to be asked any more. */
  free() {
    forgotten.unregister(this);
    this.#held.free();
  }

  /** The library that holds the graph. */
  #graph() {
    if (this.#held.at === 0) {
      throw new BadInput(FREED);
    }
    return this.#held.library;
  }

  #look(options) {
    const { rule, answer, ...look } = chosen(options, LOOK, this.#how.grid);
    return { rule, answer: answer ?? this.#how.form, look: { ...look, solver: this.#how.solver } };
  }
}
