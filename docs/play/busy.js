/** The sign that an answer is on its way, with a button that cancels it; it comes where that takes a while. */

import { byId } from "./page.js";

/** Answers that take fewer milliseconds have no sign. */
const SOON = 250;

/** Joins the sign to the engine. */
export function beginBusy(/** @type {import("./engine.js").Engine} */ engine) {
  let timer = 0;
  const hide = () => {
    window.clearTimeout(timer);
    timer = 0;
    byId("busy").hidden = true;
  };
  engine.watch = () => {
    if (!engine.isBusy) hide();
    else timer ||= window.setTimeout(() => (byId("busy").hidden = false), SOON);
  };
  engine.watch();
  byId("busy-cancel").addEventListener("click", () => engine.cancel());
}
