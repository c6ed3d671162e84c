/** What is given and answered, as messages between a page and its worker carry it. */

import { Flat, FlatShapes } from "./flat.js";

const PACKED = { flat: "Flat", shapes: "FlatShapes" };

/** A value in which `Flat` and `FlatShapes` are plain objects, as far as calls take and answer them. */
export function packed(value) {
  if (value instanceof Flat) {
    return { packed: PACKED.flat, parts: [value.coordinates, value.ends] };
  }
  if (value instanceof FlatShapes) {
    return { packed: PACKED.shapes, parts: [value.contours.coordinates, value.contours.ends, value.shapeEnds] };
  }
  return value?.shapes instanceof FlatShapes ? { ...value, shapes: packed(value.shapes) } : value;
}

/** The value that was packed. */
export function unpacked(value) {
  if (value?.packed === PACKED.flat) {
    return new Flat(...value.parts);
  }
  if (value?.packed === PACKED.shapes) {
    const [coordinates, ends, shapeEnds] = value.parts;
    return new FlatShapes(new Flat(coordinates, ends), shapeEnds);
  }
  return value?.shapes?.packed ? { ...value, shapes: unpacked(value.shapes) } : value;
}

/** The buffers of the arrays in a packed value. */
export function buffersIn(value) {
  if (ArrayBuffer.isView(value)) {
    return [value.buffer];
  }
  // (lists hold numbers, and no arrays)
  const isParted = typeof value === "object" && value !== null && !Array.isArray(value);
  return isParted ? (value.parts ?? Object.values(value)).flatMap(buffersIn) : [];
}
