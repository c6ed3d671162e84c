/** Files that are opened and saved. */

/** Leaves a text as a file that the browser saves. */
export function save(/** @type {string} */ name, /** @type {string} */ text, type = "text/plain") {
  const address = URL.createObjectURL(new Blob([text], { type }));
  const link = document.createElement("a");
  link.href = address;
  link.download = name;
  link.click();
  setTimeout(() => URL.revokeObjectURL(address), 10000);
}

/** Whether a file is GeoJSON: by its name, or else by its first letter. */
export const isGeojson = (/** @type {string} */ name, /** @type {string} */ text) =>
  /\.(geo)?json$/i.test(name) || text.trimStart().startsWith("{");

/** Puts a text where it can be pasted. Returns whether that was allowed. */
export async function copy(/** @type {string} */ text) {
  try {
    await navigator.clipboard.writeText(text);
    return true;
  } catch {
    return copyBySelection(text);
  }
}

/** The same where the page may not write there: by a selection. */
function copyBySelection(/** @type {string} */ text) {
  const field = document.createElement("textarea");
  field.value = text;
  field.className = "offscreen";
  document.body.append(field);
  field.select();
  const isDone = document.execCommand("copy");
  field.remove();
  return isDone;
}
