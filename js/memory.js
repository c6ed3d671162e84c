/** What calls are given, and what they answer, as structs in the memory of the module (include/polyover.h). */

import { BadInput, LibraryMissing, OutOfMemory } from "./errors.js";
import { Held, Row, SIZE, check, suffixed } from "./held.js";

/** The arrays of a result, each an address and a count; a link has three sizes. */
const ARRAYS = ["coordinates", "contourEnds", "shapeEnds", "links", "fills"];
const LINK = 3;
// the sizes of structs, in bytes
const CONTOURS = 4 * SIZE;
const OPTIONS = 32;
const CLIP_OPTIONS = 12;
const SLICE_OPTIONS = 24;
const RESULT = 2 * SIZE * ARRAYS.length;
const MOST_64 = 2n ** 64n - 1n;

/** A number of a group that is none, or out of range: which group it is of, where it stands there, and itself. */
export class Misplaced extends BadInput {
  constructor(group, at, value) {
    super(`${group}: number ${at + 1}, ${value}, is no whole number in the range`);
    Object.assign(this, { group, at, value });
  }
}

/** Whether two points are equal, each by the place of the first of its four halves. */
function isSame(halves, one, other) {
  for (let half = 0; half < 4; half++) {
    if (halves[one + half] !== halves[other + half]) {
      return false;
    }
  }
  return true;
}

/**
 * The module as an instance, and its memory. Groups of paths are `{name, numbers, ends}`, of one kind: all are
 * Int32Array, or each a BigInt64Array or a Float64Array of whole numbers, or of floats that `grid` makes whole,
 * `{startX, startY, scale}`. Coordinates are answered as the kind that `kind` names.
 */
export class Memory {
  constructor({ exports }) {
    if (typeof exports.polyover_free !== "function") {
      throw new LibraryMissing("it is another module");
    }
    this.calls = exports;
    this.memory = exports.memory;
  }

  /** What some work gives, which holds memory as long as it runs. */
  hold(work) {
    const held = new Held(this);
    try {
      return work(held);
    } finally {
      held.giveAll();
    }
  }

  // ---- what is given

  /** The numbers of a group in memory, as whole numbers. */
  numbers(held, { name, numbers }, grid) {
    const row = new Row(held, numbers.constructor, numbers.length);
    row.view().set(numbers);
    if (numbers instanceof Float64Array) {
      const good = grid
        ? this.calls.whole_of_floats(...row.arguments, grid.startX, grid.startY, grid.scale)
        : this.calls.whole_of_safe(...row.arguments);
      if (good !== BigInt(row.count)) {
        throw new Misplaced(name, Number(good), numbers[Number(good)]);
      }
    }
    return row;
  }

  /** The whole numbers of one contour of floats, without points that are equal to the one before them. */
  withoutRepeats(group, grid) {
    return this.hold((held) => {
      const { at, count } = this.numbers(held, group, grid);
      const numbers = new BigInt64Array(this.memory.buffer, at, count);
      // (by halves, which takes no BigInts)
      const halves = new Int32Array(this.memory.buffer, at, 2 * count);
      let [kept, before] = [0, count - 2];
      for (let point = 0; point < count; point += 2) {
        if (!isSame(halves, 2 * point, 2 * before)) {
          numbers.copyWithin(kept, point, point + 2);
          kept += 2;
        }
        before = point;
      }
      return numbers.slice(0, kept > 0 ? kept : Math.min(count, 2));
    });
  }

  /** The address of the struct of a group, whose coordinates are times 2 to the power. */
  contours(held, group, grid, power = 0) {
    const numbers = this.numbers(held, group, grid);
    if (power > 0) {
      this.calls.raise(...numbers.arguments, power);
    }
    const ends = new Row(held, BigUint64Array, group.ends.length);
    const struct = new Row(held, BigUint64Array, CONTOURS / SIZE);
    // (sizes by their halves, which takes no BigInts)
    const halves = new Uint32Array(this.memory.buffer, ends.at, 2 * ends.count);
    for (let number = 0; number < ends.count; number++) {
      halves[2 * number] = group.ends[number];
      halves[2 * number + 1] = 0;
    }
    struct.view().set([...numbers.arguments, ...ends.arguments]);
    return BigInt(struct.at);
  }

  /** The address of the options of an overlay. */
  options(held, look, kind) {
    const at = held.take(OPTIONS);
    const struct = new DataView(this.memory.buffer, at, OPTIONS);
    const words = [look.clockwise, look.keep, look.touching, look.solver];
    words.forEach((word, number) => struct.setUint32(4 * number, Number(word), true));
    this.area(struct, 16, look.minimumArea, kind);
    return BigInt(at);
  }

  /** The address of the options of slices. */
  sliceOptions(held, { clockwise, minimumArea, solver }, kind) {
    const at = held.take(SLICE_OPTIONS);
    const struct = new DataView(this.memory.buffer, at, SLICE_OPTIONS);
    struct.setUint32(0, Number(clockwise), true);
    struct.setUint32(4, solver, true);
    this.area(struct, 8, minimumArea, kind);
    return BigInt(at);
  }

  /** Writes a smallest area, of one number or of two, to a struct. */
  area(struct, at, area, kind) {
    if (kind === Int32Array) {
      struct.setBigUint64(at, area < MOST_64 ? area : MOST_64, true);
    } else {
      struct.setBigUint64(at, area >> 64n, true);
      struct.setBigUint64(at + SIZE, area & MOST_64, true);
    }
  }

  /** The address of the options of a clip. */
  clipOptions(held, { invert, boundary, solver }) {
    const at = held.take(CLIP_OPTIONS);
    new Uint32Array(this.memory.buffer, at, CLIP_OPTIONS / 4).set([Number(invert), Number(boundary), solver]);
    return BigInt(at);
  }

  // ---- answers

  /** The arrays of a result: coordinates of the kind that is asked for, ends and links of 32 bits. */
  arrays(at, { kind, grid }) {
    const words = [...new BigUint64Array(this.memory.buffer, at, RESULT / SIZE)];
    const found = ARRAYS.map((name, number) => [name, Number(words[2 * number]), Number(words[2 * number + 1])]);
    return Object.fromEntries(
      found.map(([name, pointer, count]) => {
        // (the pointer of an array without items is none)
        const place = count === 0 ? 0 : pointer;
        if (name === "coordinates") {
          return [name, this.coordinates(place, count, kind, grid)];
        }
        if (name === "fills") {
          return [name, new Uint8Array(this.memory.buffer, place, count).slice()];
        }
        return [name, this.sizes(place, name === "links" ? LINK * count : count)];
      }),
    );
  }

  /** So many coordinates of an answer. */
  coordinates(at, count, kind, grid) {
    if (kind === Float64Array) {
      const { startX, startY, scale } = grid ?? { startX: 0, startY: 0, scale: 1 };
      this.calls.floats_of_whole(BigInt(at), BigInt(count), startX, startY, scale);
    }
    return new kind(this.memory.buffer, at, count).slice();
  }

  /** So many sizes, none of which is above 2^32. */
  sizes(at, count) {
    const halves = new Uint32Array(this.memory.buffer, at, 2 * count);
    const found = new Uint32Array(count);
    for (let number = 0; number < count; number++) {
      found[number] = halves[2 * number];
    }
    return found;
  }

  /** The arrays that a call answers whose arguments before its groups, and behind them, are given. */
  answer(name, asked, before, behind = [], words = undefined) {
    return this.hold((held) => {
      const given = before(held);
      const groups = asked.groups.map((group) => this.contours(held, group, asked.grid));
      return this.result(held, name, [...given, ...groups, ...behind], asked, words);
    });
  }

  /** The arrays of the result that a call leaves in the place behind these arguments. */
  result(held, name, given, form, words = undefined) {
    const at = held.take(RESULT);
    check(this.calls[suffixed(name, form.kind)](...given, BigInt(at)), words);
    try {
      return this.arrays(at, form);
    } finally {
      this.calls[suffixed("polyover_free", form.kind)](BigInt(at));
    }
  }

  /** The address of a struct that a call fills, and that stays until it is freed; the call's arguments are given. */
  kept(bytes, name, given) {
    const at = this.calls.malloc(BigInt(bytes));
    if (at === 0n) {
      throw new OutOfMemory();
    }
    try {
      check(this.calls[name](...given, at));
    } catch (fault) {
      this.calls.free(at);
      throw fault;
    }
    return at;
  }
}
