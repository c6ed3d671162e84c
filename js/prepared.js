/** Shapes that are asked again and again where points lie. */

import { locationsIn } from "./answers.js";
import { BadInput } from "./errors.js";
import { alike, askedOf, chosenOfOthers, pointsOf } from "./given.js";
import { LOCATIONS } from "./names.js";

export const FREED = "the prepared shape was freed";
const INSIDE = LOCATIONS.indexOf("inside");

// (what is held of a shape must not refer to it: it would stay for ever)
const forgotten = new FinalizationRegistry((held) => held.free());

/** A prepared shape in the memory of the module, which is given back once. */
class Held {
  constructor(library, shape) {
    Object.assign(this, { library, shape });
  }

  free() {
    if (this.shape) {
      this.library.freePrepared(this.shape);
      this.shape = undefined;
    }
  }
}

/**
 * A shape that is asked again and again where points lie; `Polyover.prepare` makes it. Its memory is given back by
 * `free`, or else some time after nothing refers to it any longer.
 */
export class Prepared {
  #held;
  #grid;

  constructor(library, shape, grid) {
    this.#held = new Held(library, shape);
    this.#grid = grid;
    forgotten.register(this, this.#held, this);
  }

  /** Where each point lies: "inside", "boundary" or "outside". */
  locate(points, options = {}) {
    return this.#located(points, options, locationsIn);
  }

  /** Whether each point lies inside; on the boundary it does not. In arrays 1 is true. */
  contains(points, options = {}) {
    return this.#located(points, options, (found, form) => {
      const truths = found.map((at) => Number(at === INSIDE));
      return form === "arrays" ? truths : Array.from(truths, Boolean);
    });
  }

  /** Gives its memory back: it is not to be asked any more. */
  free() {
    forgotten.unregister(this);
    this.#held.free();
  }

  #located(points, options, answered) {
    const { answer } = chosenOfOthers(options, ["answer"]);
    const held = this.#held;
    if (!held.shape) {
      throw new BadInput(FREED);
    }
    const queries = pointsOf(points);
    return askedOf([queries], this.#grid, answer ?? queries.form, (asked, form) => {
      const groups = alike(asked.groups, Float64Array, asked.grid);
      return answered(held.library.preparedLocate(held.shape, { ...asked, groups }), form);
    });
  }
}
