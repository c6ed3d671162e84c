/** Memory of the module that is held while a call runs, and how calls end. */

import { BadInput, NotSettled, OutOfMemory, PolyoverError, TooManyEdges } from "./errors.js";

/** How many bytes a size has, or an address. */
export const SIZE = 8;
/** How calls end, by their numbers. */
export const STATUSES = [
  "OK",
  "MEMORY",
  "BAD_ENDS",
  "OUT_OF_RANGE",
  "NOT_RESOLVED",
  "BAD_RULE",
  "BAD_FILL",
  "BAD_OPTION",
  "NOT_SETTLED",
  "TOO_MANY_EDGES",
  "TOO_SMALL",
];
const FAULTS = { MEMORY: OutOfMemory, NOT_SETTLED: NotSettled, TOO_MANY_EDGES: TooManyEdges };

/** Raises what a status stands for, if it is not OK; with the words, if there are any, for a bad option. */
export function check(status, words) {
  const name = STATUSES[status];
  if (name === "OK") {
    return;
  }
  if (name === "BAD_OPTION" && words !== undefined) {
    throw new BadInput(words);
  }
  if (name in FAULTS) {
    throw new FAULTS[name]();
  }
  const fault = name === undefined || name === "TOO_SMALL" ? PolyoverError : BadInput;
  throw new fault(`the library answers ${name ?? `the status ${status}`}`);
}

/** The name of a call at a width. */
export function suffixed(name, kind) {
  return kind === Int32Array ? `${name}_32` : name;
}

/** Memory of the module that is held while a call runs. */
export class Held {
  constructor(library) {
    this.library = library;
    this.taken = [];
  }

  /** The address of a block of `bytes` bytes; 0 for none. */
  take(bytes) {
    if (bytes === 0) {
      return 0;
    }
    const at = this.library.calls.malloc(BigInt(bytes));
    if (at === 0n) {
      throw new OutOfMemory();
    }
    this.taken.push(at);
    return Number(at);
  }

  /** Gives all of it back. */
  giveAll() {
    for (const at of this.taken) {
      this.library.calls.free(at);
    }
  }
}

/** An array of the module: where it is, and how many items it has. */
export class Row {
  constructor(held, kind, count) {
    this.kind = kind;
    this.count = count;
    this.at = held.take(count * kind.BYTES_PER_ELEMENT);
    this.memory = held.library.memory;
  }

  /** Its items, where they are; only until the module takes memory again. */
  view() {
    return new this.kind(this.memory.buffer, this.at, this.count);
  }

  /** As two arguments of a call. */
  get arguments() {
    return [BigInt(this.at), BigInt(this.count)];
  }
}
