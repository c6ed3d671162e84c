/** The button that checks an answer at random points, and what was found. */

import { Check, isChecked } from "./check.js";
import { byId } from "./page.js";

/** The number of points that are tried at once, and the milliseconds after which the page may do something else. */
const [SOME, BREATH] = [100, 12];

/** Joins the button to the state. */
export function beginCheck(/** @type {import("./state.js").State} */ state) {
  const [button, told] = [/** @type {HTMLButtonElement} */ (byId("check")), byId("checked")];
  /** @type {import("./answers.js").Answer | null} the answer that is checked */
  let checked = null;

  const go = (/** @type {Check} */ check) => {
    if (state.answer !== checked) return;
    const began = performance.now();
    while (!check.isDone && performance.now() - began < BREATH) check.run(SOME);
    told.textContent = check.isDone ? check.said : `${check.checked.toLocaleString("en")} points ..`;
    told.dataset.found = !check.isDone || !check.checked ? "" : check.wrong ? "other" : "same";
    if (!check.isDone) setTimeout(() => go(check));
  };
  button.addEventListener("click", () => {
    checked = state.answer;
    if (checked && isChecked(checked)) go(new Check(checked));
  });
  state.on("answer", () => {
    byId("check-row").hidden = !isChecked(state.answer);
    if (state.answer !== checked) told.textContent = "";
  });
}
