/** The controls: tools, what is asked for and what is shown. */

import { COMMANDS, FILLS, OF, RULES, isOption, saysOf } from "./commands.js";
import { noFigures, scaleFigures } from "./drawing.js";
import { byId, fillSelect } from "./page.js";

const CHECKS = ["valid", "clockwise", "keep", "invert", "boundary"];
const PICKS = ["command", "rule", "of", "fill", "solver"];
/** Fields of whole numbers, and the least of each. */
const NUMBERS = { minimumArea: 0, width: 1, height: 1 };
const LOOKS = ["beside", "solvers", "nodes", "sides", "lens"];

/** Joins the controls of the page to the state. */
export function beginControls(/** @type {import("./state.js").State} */ state, board, keys) {
  const form = /** @type {HTMLFormElement} */ (byId("ask"));
  const field = (/** @type {string} */ name) => /** @type {HTMLInputElement} */ (form.elements.namedItem(name));
  const names = Object.keys(COMMANDS);
  fillSelect(field("command"), names.map((name) => [name, name[0].toUpperCase() + name.slice(1)]));
  for (const [name, table] of Object.entries({ rule: RULES, of: OF, fill: FILLS })) {
    fillSelect(field(name), Object.entries(table).map(([value, { label }]) => [value, label]));
  }
  form.addEventListener("submit", (event) => event.preventDefault());

  for (const name of PICKS) field(name).addEventListener("change", () => state.ask({ [name]: field(name).value }));
  for (const name of CHECKS) field(name).addEventListener("change", () => state.ask({ [name]: field(name).checked }));
  for (const name of LOOKS) field(name).addEventListener("change", () => state.look({ [name]: field(name).checked }));
  for (const [name, least] of Object.entries(NUMBERS)) {
    field(name).addEventListener("change", () => state.ask({ [name]: Math.max(least, wholeIn(field(name))) }));
  }
  field("digits").addEventListener("change", () => state.step({ digits: Math.min(15, wholeIn(field("digits"))) }));
  field("snapping").addEventListener("change", () =>
    state.look({ snapping: /** @type {any} */ (field("snapping").value) }),
  );
  field("step").addEventListener("change", () => state.look({ step: Number(field("step").value) }));

  const showAsked = () => {
    const { asked, digits } = state.drawing;
    for (const name of PICKS) field(name).value = asked[name];
    for (const name of CHECKS) field(name).checked = asked[name];
    for (const name of Object.keys(NUMBERS)) field(name).value = String(asked[name]);
    field("digits").value = String(digits);
    byId("says").textContent = saysOf(asked);
    for (const part of /** @type {NodeListOf<HTMLElement>} */ (form.querySelectorAll("[data-option]"))) {
      part.hidden = !isOption(asked, part.dataset.option ?? "");
    }
    byId("snapping").hidden = asked.command !== "edges";
  };
  const showLooks = () => {
    for (const name of LOOKS) field(name).checked = state.looks[name];
    field("snapping").value = state.looks.snapping;
    field("step").value = String(state.looks.step);
  };
  state.on("drawing", showAsked);
  state.on("looks", showLooks);
  showAsked();
  showLooks();
  beginTools(state, board, keys);
}

/** The whole number in a field, 0 where there is none. */
function wholeIn(/** @type {HTMLInputElement} */ field) {
  const number = Math.trunc(Number(field.value));
  return Number.isSafeInteger(number) && number > 0 ? number : 0;
}

/** Joins the tools over the board. */
function beginTools(state, board, keys) {
  const tools = /** @type {NodeListOf<HTMLElement>} */ (document.querySelectorAll("[data-tool]"));
  const kinds = /** @type {NodeListOf<HTMLElement>} */ (document.querySelectorAll(".tools [data-kind]"));
  const drop = () => keys.escape();
  tools.forEach((each) => each.addEventListener("click", () => (drop(), state.take({ tool: each.dataset.tool }))));
  kinds.forEach((each) =>
    each.addEventListener("click", () => (drop(), state.take({ tool: "draw", kind: each.dataset.kind }))),
  );
  const press = () => {
    tools.forEach((each) => each.setAttribute("aria-pressed", String(each.dataset.tool === state.tool)));
    kinds.forEach((each) => {
      const isTaken = state.tool === "draw" && each.dataset.kind === state.kind;
      each.setAttribute("aria-pressed", String(isTaken));
    });
  };
  state.on("hand", press);
  press();

  const click = (/** @type {string} */ id, /** @type {() => void} */ done) => byId(id).addEventListener("click", done);
  click("clear", () => (drop(), state.step({ figures: noFigures() })));
  click("zoom-in", () => keys.zoom(1.4));
  click("zoom-out", () => keys.zoom(1 / 1.4));
  click("zoom-fit", () => board.fit());
  click("undo-step", () => keys.undo());
  click("redo-step", () => keys.redo());
  click("finer", () => (state.step({ figures: scaleFigures(state.figures, 2) }), board.fit()));
  click("coarser", () => (state.step({ figures: scaleFigures(state.figures, 0.5) }), board.fit()));
  click("finish", () => keys.hand.finish());
  click("cancel", drop);
  state.on("drawing steps hand", () => {
    const { takenBack } = keys.hand;
    /** @type {any} */ (byId("undo-step")).disabled = !state.history.past.length && !board.hand.begun;
    /** @type {any} */ (byId("redo-step")).disabled = !state.history.future.length && !takenBack.length;
  });
}
