/** The line that says what the page is, and the box with the guarantee and its limits. */

import { byId } from "./page.js";

/** What may be said of answers, by how the library was built. */
const SAID = {
  proved: "Each answer is proved for every input: the functions behind it keep their contracts, whatever you draw.",
  unproved: "This copy was built without its proof; one built with it guarantees each answer.",
};

/** Says whether answers are proved. A library that does not tell is not said to be. */
export function tellBuilt(/** @type {string} */ built) {
  byId("built").textContent = SAID[built] ?? "";
  byId("built").dataset.built = built;
}

/** Joins the links of the line to the box. */
export function beginPromise() {
  const box = /** @type {HTMLDialogElement} */ (byId("promise"));
  const open = (/** @type {string} */ id) => {
    box.showModal();
    byId(id).scrollIntoView({ block: "start" });
  };
  byId("promise-open").addEventListener("click", () => open("promise-title"));
  byId("limits-open").addEventListener("click", () => open("limits"));
}
