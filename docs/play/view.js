/** Where points lie on the board: y runs upwards, and a unit is as wide as high. */

/** The least and the most pixels that a unit takes. */
const LEAST = 1e-13;
const MOST = 400;

export class View {
  constructor() {
    /** Pixels that a unit takes. */
    this.scale = 40;
    /** The point in the middle of a pane. */
    this.x = 0;
    this.y = 0;
    /** The size of the board in pixels, and whether the answer stands beside the input. */
    this.width = 300;
    this.height = 300;
    this.isSplit = false;
    /** Whether it shows a box whole, as `fit` left it. */
    this.isFit = false;
  }

  /** How wide a pane is: the board, or half of it. */
  get paneWidth() {
    return this.isSplit ? Math.floor(this.width / 2) : this.width;
  }

  /** Where a point lies in a pane, in pixels from its left upper corner. */
  toPixels(/** @type {number} */ x, /** @type {number} */ y) {
    return [(x - this.x) * this.scale + this.paneWidth / 2, this.height / 2 - (y - this.y) * this.scale];
  }

  /** The point at some pixels of the board, in the pane they lie in. */
  toPoint(/** @type {number} */ left, /** @type {number} */ top) {
    const inPane = this.paneOf(left) ? left - this.paneWidth : left;
    return [(inPane - this.paneWidth / 2) / this.scale + this.x, (this.height / 2 - top) / this.scale + this.y];
  }

  /** The number of the pane at some pixels: 1 for that of the answer, where it stands beside. */
  paneOf(/** @type {number} */ left) {
    return this.isSplit && left >= this.paneWidth ? 1 : 0;
  }

  /** Moves what is seen by some pixels. */
  pan(/** @type {number} */ left, /** @type {number} */ top) {
    this.isFit = false;
    this.x -= left / this.scale;
    this.y += top / this.scale;
  }

  /** Makes what is seen larger by a factor; the point at some pixels stays there. */
  zoom(/** @type {number} */ factor, left = this.paneWidth / 2, top = this.height / 2) {
    this.isFit = false;
    const [x, y] = this.toPoint(left, top);
    this.scale = Math.max(LEAST, Math.min(MOST, this.scale * factor));
    const [u, v] = this.toPoint(left, top);
    this.x += x - u;
    this.y += y - v;
  }

  /** Shows a box whole, with a margin, which is less in a small pane; some pixels at the bottom stay free of it. */
  fit(/** @type {[number, number, number, number] | null} */ box, below = 0) {
    const [left, low, right, high] = box ?? [-5, -5, 5, 5];
    const margin = Math.min(44, this.paneWidth / 9);
    // (the buttons stand beside it)
    const wide = Math.max(this.paneWidth - 3 * margin, 40);
    const tall = Math.max(this.height - below - 2 * margin, 40);
    const scale = Math.min(wide / (right - left || 1), tall / (high - low || 1));
    this.scale = Math.max(LEAST, Math.min(MOST / 4, scale));
    this.x = (left + right) / 2;
    this.y = (low + high) / 2 - below / 2 / this.scale;
    this.isFit = true;
  }
}

/** The distance of the grid's lines, 1, 2 or 5 times a power of ten, that takes at least some pixels. */
export function gridStep(/** @type {number} */ scale, /** @type {number} */ least) {
  const power = 10 ** Math.floor(Math.log10(least / scale));
  const step = [1, 2, 5, 10].map((times) => times * power).find((each) => each * scale >= least) ?? 10 * power;
  return Math.max(1, step);
}

/** The multiples of a step from one number to another. */
export function multiples(/** @type {number} */ from, /** @type {number} */ to, /** @type {number} */ step) {
  const first = Math.ceil(from / step);
  const count = Math.max(0, Math.min(2000, Math.floor(to / step) - first + 1));
  return Array.from({ length: count }, (_, at) => (first + at) * step + 0);
}
