/** Members of JSON that come twice in one object: readers take the last of them, so another question is answered. */

/** A text, with the colon behind a name, or a brace; numbers, lists and other words stand between these. */
const TOKEN = /("[^"\\]*(?:\\.[^"\\]*)*")(\s*:)?|[{}]/g;

/** The first member of a text of JSON that comes twice in one object; none where each comes once. */
export function twiceIn(/** @type {string} */ text) {
  /** The names in each object that is open: @type {Set<string>[]} */
  const open = [];
  for (const [token, quoted, colon] of text.matchAll(TOKEN)) {
    if (token === "{") open.push(new Set());
    else if (token === "}") open.pop();
    else if (colon) {
      // (one name may be written in several ways)
      const name = quoted.includes("\\") ? JSON.parse(quoted) : quoted.slice(1, -1);
      const names = open[open.length - 1];
      if (names.has(name)) return name;
      names.add(name);
    }
  }
  return undefined;
}
