/** Parts of the page. */

import { inkOf } from "./palette.js";

/** The element with an id, which is there. */
export const byId = (/** @type {string} */ id) => /** @type {HTMLElement} */ (document.getElementById(id));

/** A new element, with its attributes and what is in it; `mark` is the name of the colour of its sign. */
export function element(/** @type {string} */ name, attributes = {}, /** @type {(Node | string)[]} */ ...inside) {
  const made = document.createElement(name);
  for (const [key, value] of Object.entries(attributes)) {
    if (key.startsWith("on")) made.addEventListener(key.slice(2), value);
    else if (key === "mark") {
      made.style.setProperty("--mark", `var(--${value})`);
      made.style.setProperty("--ink", `var(--${inkOf(String(value))})`);
    }
    else if (value !== false && value !== null) made.setAttribute(key, String(value));
  }
  made.append(...inside);
  return made;
}

/** Fills a field with its choices: pairs of a value and what is read. */
export function fillSelect(/** @type {Element} */ select, /** @type {string[][]} */ choices) {
  select.replaceChildren(...choices.map(([value, label]) => element("option", { value }, label)));
}
