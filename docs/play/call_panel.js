/** The call that gives the answer, in a language that is chosen. */

import { LANGUAGES, callOf, noteOf } from "./calls/all.js";
import { copy } from "./files.js";
import { byId, element } from "./page.js";

/** Joins the panel of the call to the state. */
export function beginCalls(/** @type {import("./state.js").State} */ state) {
  let chosen = LANGUAGES[0].name;
  const tabs = LANGUAGES.map(({ name, label }) =>
    element("button", { type: "button", role: "tab", "data-language": name, onclick: () => choose(name) }, label),
  );
  byId("languages").replaceChildren(...tabs);
  let timer = 0;

  const show = () => {
    timer = 0;
    byId("call").textContent = callOf(chosen, state.drawing);
    byId("call-note").textContent = noteOf(chosen, state.asked);
  };
  const choose = (/** @type {string} */ name) => {
    chosen = name;
    for (const tab of tabs) {
      const isChosen = tab.dataset.language === name;
      tab.setAttribute("aria-selected", String(isChosen));
      tab.tabIndex = isChosen ? 0 : -1;
    }
    show();
  };
  byId("languages").addEventListener("keydown", (event) => {
    const by = { ArrowRight: 1, ArrowLeft: -1 }[event.key];
    if (!by) return;
    const at = tabs.findIndex((tab) => tab.dataset.language === chosen);
    const next = tabs[(at + by + tabs.length) % tabs.length];
    choose(String(next.dataset.language));
    next.focus();
  });
  byId("copy").addEventListener("click", async () => {
    const isDone = await copy(byId("call").textContent ?? "");
    byId("copy").textContent = isDone ? "Copied" : "Not allowed";
    setTimeout(() => (byId("copy").textContent = "Copy"), 1500);
  });
  state.on("drawing turned", () => {
    timer ||= window.setTimeout(show, 120);
  });
  choose(chosen);
}
