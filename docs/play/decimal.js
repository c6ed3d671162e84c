/**
 * Numbers of files as decimals: whole coordinates over a power of ten, which no float rounds on their way out and in.
 * JSON that is read here has numbers as floats where all are so short that these tell them; else by their texts, each
 * behind a mark.
 *
 * @typedef {number | string} Decimal
 */

/** What stands before the text of a number. (No text of a file begins with it: `jsonOf` sees to that.) */
const MARK = "\0";
/** More letters of a number than floats always tell. */
const LONG = /[0-9][-+.0-9eE]{15}/;
const TOKEN = /"[^"\\]*(?:\\.[^"\\]*)*"|-?[0-9][-+.0-9eE]*/g;
const NUMBER = /^(-?)([0-9]+)(?:\.([0-9]+))?(?:[eE]([-+]?[0-9]+))?$/;
/** Whole numbers and powers of ten up to here are exact, and so is their product. */
const EXACT = 15;

/** The value of a text of JSON, with each number as a `Decimal`. A fault in it is a `SyntaxError`. */
export function jsonOf(/** @type {string} */ text) {
  // (faults tell places of the text as it is)
  const value = JSON.parse(text);
  if (!LONG.test(text)) return value;
  const marked = text.replace(TOKEN, (token) => {
    if (token[0] !== '"') return `"\\u0000${token}"`;
    return token.startsWith('"\\u0000') ? `" ${token.slice(1)}` : token;
  });
  return JSON.parse(marked);
}

/** Whether a value of `jsonOf` is a finite number. */
export const isNumber = (/** @type {any} */ value) =>
  Number.isFinite(value) || (typeof value === "string" && value[0] === MARK && Number.isFinite(floatOf(value)));

/** A value of `jsonOf` as it is in JSON, not too long. */
export function shown(/** @type {any} */ value) {
  const named = (_, /** @type {any} */ each) => (Math.abs(each) === Infinity ? MARK + each : each);
  const text = (JSON.stringify(value, named) ?? "nothing").replace(/"\\u0000([^"]*)"/g, "$1");
  return text.length > 60 ? `${text.slice(0, 57)}..` : text;
}

/** A number as a float. */
export const floatOf = (/** @type {Decimal} */ number) =>
  typeof number === "number" ? number : Number(number.slice(1));

/** A number as digits without a zero at their end, with their sign, times a power of ten. */
function exact(/** @type {Decimal} */ number) {
  const text = typeof number === "number" ? String(number) : number.slice(1);
  const [, sign, before, behind = "", power = "0"] = /** @type {string[]} */ (NUMBER.exec(text));
  const all = (before + behind).replace(/^0+/, "");
  const digits = all.replace(/0+$/, "");
  if (!digits) return { digits: "0", power: 0 };
  return { digits: sign + digits, power: Number(power) - behind.length + all.length - digits.length };
}

/** Whether two numbers are equal. */
export function areEqual(/** @type {Decimal} */ number, /** @type {Decimal} */ other) {
  if (number === other) return true;
  if (typeof number === "number" || floatOf(number) !== floatOf(other)) return false;
  const [one, two] = [exact(number), exact(other)];
  return one.digits === two.digits && one.power === two.power;
}

/** How many digits behind the point a number has. */
export function digitsOf(/** @type {Decimal} */ number) {
  return Number.isInteger(number) ? 0 : Math.max(0, -exact(number).power);
}

/** A number times a power of ten, as the nearest whole number, of two equally near ones the even one. */
export function wholeOf(/** @type {Decimal} */ number, /** @type {number} */ digits) {
  // (a product of whole numbers is exact in the range of the page)
  if (Number.isInteger(number)) return Number(number) * 10 ** digits + 0;
  const { digits: found, power } = exact(number);
  const left = power + digits;
  if (left < 0) return rounded(floatOf(number), 10n ** BigInt(digits));
  return found.length + left <= EXACT ? Number(found) * 10 ** left : Number(`${found}e${left}`);
}

/** A float times a whole number, as the nearest whole number, of two equally near ones the even one. */
function rounded(/** @type {number} */ value, /** @type {bigint} */ times) {
  let [top, bottom] = [Math.abs(value), 1n];
  while (!Number.isInteger(top)) [top, bottom] = [2 * top, 2n * bottom];
  const twice = 2n * BigInt(top) * times + bottom;
  const nearest = twice / (2n * bottom);
  const isHalf = twice % (2n * bottom) === 0n;
  return Number(isHalf && nearest % 2n ? nearest - 1n : nearest) * (value < 0 ? -1 : 1) + 0;
}

/** A whole number over a power of ten, as JSON has it. */
export function decimalOf(/** @type {number} */ whole, /** @type {number} */ digits) {
  const text = String(Math.abs(whole)).padStart(digits + 1, "0");
  const [before, behind] = [text.slice(0, text.length - digits), text.slice(text.length - digits).replace(/0+$/, "")];
  return `${whole < 0 ? "-" : ""}${before}${behind && "."}${behind}`;
}
