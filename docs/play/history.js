/**
 * What was there before, to go back to, and what was undone, to go on to.
 *
 * @template T
 */
export class History {
  /** The number of steps that can be undone. */
  static MOST = 500;

  /** @param {T} present */
  constructor(present) {
    this.present = present;
    /** @type {T[]} */
    this.past = [];
    /** @type {T[]} */
    this.future = [];
    /** @type {T | null} */
    this.before = null;
  }

  /** Makes a step to what is there next. */
  step(/** @type {T} */ next) {
    this.past.push(this.before ?? this.present);
    this.past.splice(0, this.past.length - History.MOST);
    this.before = null;
    this.future = [];
    this.present = next;
  }

  /** Goes on within a step, as while a point is dragged; `settle` ends it. */
  slide(/** @type {T} */ next) {
    this.before ??= this.present;
    this.present = next;
  }

  /** Ends a step that went on by `slide`. */
  settle() {
    if (this.before !== null && this.before !== this.present) this.step(this.present);
    this.before = null;
  }

  /** Goes back by a step. Returns whether there was one. */
  undo() {
    return this.#go("past", "future");
  }

  /** Makes the step again that was undone last. Returns whether there was one. */
  redo() {
    return this.#go("future", "past");
  }

  /** Takes the last state of a list, and puts the present one on another list. */
  #go(/** @type {"past" | "future"} */ from, /** @type {"past" | "future"} */ to) {
    this.settle();
    const next = this[from].pop();
    if (next === undefined) return false;
    this[to].push(this.present);
    this.present = next;
    return true;
  }
}
