/** Values in messages. */

/** The most letters of a value in a message. */
const MOST = 60;

/** A value in a message, not too long. */
export function shown(value) {
  let text;
  try {
    text = textOf(value);
  } catch {
    text = String(value);
  }
  return text.length > MOST ? `${text.slice(0, MOST - 3)}..` : text;
}

/** A value as a program has it. */
function textOf(value) {
  if (typeof value === "bigint") {
    return `${value}n`;
  }
  if (typeof value === "number") {
    return String(value);
  }
  if (Array.isArray(value)) {
    // (more items than letters are not seen)
    return `[${Array.from(value.slice(0, MOST), textOf)}]`;
  }
  return JSON.stringify(value, withNames) ?? String(value);
}

/** A member of an object as JSON can have it: a number that is not finite, and a BigInt, by its text. */
function withNames(_, value) {
  const isNone = typeof value === "bigint" || (typeof value === "number" && !Number.isFinite(value));
  return isNone ? String(value) : value;
}
