/** Why a call does not answer: classes with the names that Python's have. */

/** A call does not answer; each of the others is one. */
export class PolyoverError extends Error {}

/** Memory was refused. */
export class OutOfMemory extends PolyoverError {
  constructor(message = "memory was refused") {
    super(message);
  }
}

/** After 64 rounds of splitting edges still meet in points that are no ends; it comes of the solver "rounds" alone. */
export class NotSettled extends PolyoverError {
  constructor(message = "after 64 rounds of splitting edges still meet in points that are no ends") {
    super(message);
  }
}

/** The edges, as given or in a round of splitting, count 2^31 or more. */
export class TooManyEdges extends PolyoverError {
  constructor(message = "the edges, as given or in a round of splitting, count 2^31 or more") {
    super(message);
  }
}

/** A contour of a shape in which points are located meets itself; `contour` is its number, from 1. */
export class NotResolved extends PolyoverError {
  constructor(contour) {
    super(`contour ${contour} is not resolved: two of its steps share a point that is no end of both`);
    this.contour = contour;
  }
}

/** What was given cannot be asked: a coordinate that is no whole number or out of range, an unknown rule. */
export class BadInput extends PolyoverError {}

/** The WebAssembly module is not there, or cannot be loaded. */
export class LibraryMissing extends PolyoverError {}

/** The worker was ended before it answered. */
export class WorkerEnded extends PolyoverError {
  constructor(message = "the worker was ended") {
    super(message);
  }
}

export const ERRORS = {
  PolyoverError,
  OutOfMemory,
  NotSettled,
  TooManyEdges,
  NotResolved,
  BadInput,
  LibraryMissing,
  WorkerEnded,
};

// (a name that stays where a bundler shortens those of classes)
for (const [name, kind] of Object.entries(ERRORS)) {
  Object.defineProperty(kind.prototype, "name", { value: name, configurable: true, writable: true });
}
