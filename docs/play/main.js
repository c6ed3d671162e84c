/** The page: what is drawn, asked of the library after each change, and shown. */

import { beginAnswers } from "./answer_panel.js";
import { Board } from "./board.js";
import { beginBusy } from "./busy.js";
import { beginCalls } from "./call_panel.js";
import { beginCheck } from "./check_panel.js";
import { DEFAULTS } from "./commands.js";
import { beginControls } from "./controls.js";
import { LIVE_POINTS, isLive, pointCount } from "./drawing.js";
import { Engine } from "./engine.js";
import { EXAMPLES } from "./examples.js";
import { copy, isGeojson, save } from "./files.js";
import { answerGeojson, geojsonOf } from "./geojson.js";
import { Gallery } from "./gallery.js";
import { Hand } from "./hand.js";
import { Keys } from "./keys.js";
import { drawingOfHash, hashOf } from "./link.js";
import { openedGeojson } from "./opening.js";
import { byId, element, fillSelect } from "./page.js";
import { SIGNED } from "./scene.js";
import { State } from "./state.js";
import { svgOf } from "./svg.js";
import { BadText, commandWords, drawingIn, isInText, textOf } from "./text.js";
import { beginTheme, switchTheme } from "./theme.js";
import { beginPromise, tellBuilt } from "./promise.js";
import { Turning } from "./turning.js";

const state = new State();
const canvas = /** @type {HTMLCanvasElement} */ (byId("board"));
const board = new Board(canvas, state);
const keys = new Keys(new Hand(board), say);
const engine = new Engine((answer) => {
  // (where the answer does not follow each move, none stands there that is of another drawing)
  if (answer.drawing === state.drawing || isLive(state.figures)) take(answer);
}, tellBuilt);
const turning = new Turning(state, board);

/** Shows an answer, or none. */
function take(/** @type {import("./answers.js").Answer | null} */ answer) {
  state.answer = answer;
  state.piece = null;
  state.tell("answer");
  state.tell("piece");
}

/** Has a screen reader say what a key did. */
function say(/** @type {string} */ text) {
  byId("told").textContent = text;
}

// ---- asking

/** @type {import("./state.js").Drawing | null} */
const NONE = null;
/** The drawing that was asked last, and what beside its answer. */
let asked = { drawing: NONE, isArranged: false, isCompared: false };

/** What is to be shown beside the answer. */
function wanted() {
  const { nodes, sides, lens } = state.looks;
  const isFilled = SIGNED.includes(state.asked.fill);
  return { isArranged: nodes || sides || lens, isCompared: board.isCompared, isFilled };
}

/** Asks the library for the answer to what is drawn. */
function ask() {
  const { drawing } = state;
  asked = { drawing, ...wanted() };
  engine.ask(drawing, { ...wanted(), isTimed: drawing.figures === turning.stars });
}

/** Asks again where more is to be shown than was asked for. */
function askMore() {
  const { isArranged, isCompared } = wanted();
  const isMore = (isArranged && !asked.isArranged) || (isCompared && !asked.isCompared);
  if (asked.drawing === state.drawing && isMore) ask();
}

/** Asks for the answer to a new drawing, where it follows each move; else a button stands there. */
function askLive() {
  if (asked.drawing === state.drawing) return;
  if (isLive(state.figures)) return ask();
  take(null);
  const count = pointCount(state.figures).toLocaleString("en");
  const said = `${count} points: beyond ${LIVE_POINTS.toLocaleString("en")} the answer comes when it is asked for. `;
  byId("summary").replaceChildren(said, element("button", { type: "button", id: "ask-now", onclick: ask }, "Answer"));
}

// ---- what is opened

const PLAIN = { nodes: false, sides: false, lens: false, solvers: false, snapping: "after", step: 1 };

/** Shows another drawing: an example that has a name, or one that is opened. */
function show(/** @type {Partial<import("./state.js").Drawing>} */ drawing, looks = {}, name = "") {
  /** @type {HTMLSelectElement} */ (byId("example")).value = name;
  tellExample(EXAMPLES.find((each) => each.name === name));
  keys.escape();
  Object.assign(state.looks, { ...PLAIN, ...looks });
  state.step(drawing);
  state.tell("looks");
  board.fit();
}

/** Says under the board's tools what an example shows, and what to try with it. */
function tellExample(/** @type {import("./examples.js").Example | undefined} */ example) {
  const told = example ? [`${example.says} `, element("b", {}, "Try this: "), example.tries] : [OWN];
  byId("caption").replaceChildren(...told);
}

const OWN = "Drag points, edges and contours, or draw: the answer follows each move.";

/** Shows an example. */
function showExample(/** @type {string} */ name) {
  const example = EXAMPLES.find((each) => each.name === name);
  if (!example) return;
  const { figures, asked } = drawingIn(example.text);
  const solver = example.solver ?? "snapped";
  show({ figures, asked: { ...DEFAULTS, ...asked, solver }, digits: 0 }, example.looks, name);
  if (example.turns) turning.begin();
}

/** Shows what a file holds: a text of the program, or GeoJSON; of two files the second is the clip. */
async function openFiles(/** @type {File[]} */ files) {
  const names = files.map(({ name }) => name);
  try {
    const given = await Promise.all(files.map(async (file) => ({ name: file.name, text: await file.text() })));
    const areGeojson = given.every(({ name, text }) => isGeojson(name, text));
    if (files.length > 2 || (files.length === 2 && !areGeojson)) throw new BadText(TOO_MANY);
    if (!areGeojson) {
      const { figures, asked } = drawingIn(given[0].text);
      return show({ figures, asked: asked ?? state.asked, digits: 0 });
    }
    const { drawing, said } = await openedGeojson(given, state.asked);
    show(drawing);
    const both = files.length === 2 ? [`The subject is of ${names[0]}, the clip of ${names[1]}.`] : [];
    if (said.length || both.length) tell([...both, ...said].join(" "));
  } catch (fault) {
    // (whatever is wrong with a file is told, and which file it is)
    const text = fault instanceof Error ? fault.message : String(fault);
    tell(names.some((name) => text.startsWith(`${name}: `)) ? text : `${names.join(", ")}: ${text}`);
  }
}

const TOO_MANY = "open one file, or two of GeoJSON, the first the subject and the second the clip";

/** Says over the board what could not be opened, until something else is drawn. */
function tell(/** @type {string} */ text) {
  byId("notice").textContent = text;
  byId("notice").hidden = false;
}

/** Shows the drawing that the address holds. Returns whether it holds one. */
function openLink() {
  try {
    const drawing = drawingOfHash(location.hash);
    if (drawing) show(drawing);
    return drawing !== null;
  } catch (fault) {
    if (!(fault instanceof BadText)) throw fault;
    tell(`The link: ${fault.message}`);
    return false;
  }
}

// ---- what is saved

const SAVED = {
  geojson: () => save("drawing.geojson", geojsonOf(state.drawing), "application/geo+json"),
  text: () => {
    save("drawing.txt", textOf(state.drawing));
    if (!isInText(state.asked)) tell("The text has no fill rule for points: there exclusive or joins the contours.");
  },
  answer: () => {
    if (!state.answer) return;
    const text = answerGeojson(state.answer, state.figures, state.drawing.digits);
    save("answer.geojson", text, "application/geo+json");
  },
  svg: () => {
    const { input, answer, over, nodes } = board.marks();
    const title = `run ${commandWords(state.asked).join(" ")}`;
    save("drawing.svg", svgOf([...input, ...answer, ...over, ...nodes], board.view, title), "image/svg+xml");
  },
};

/** Copies the link that holds the drawing, and shows it as the page's address. */
async function copyLink() {
  history.replaceState(null, "", `#${hashOf(state.drawing)}`);
  const isDone = await copy(location.href);
  byId("link").textContent = isDone ? "Copied" : "In the address";
  setTimeout(() => (byId("link").textContent = "Link"), 1500);
}

// ---- the page

fillSelect(byId("example"), [["", "Choose ..."], ...EXAMPLES.map(({ name, label }) => [name, label])]);
byId("example").addEventListener("change", (event) => showExample(/** @type {any} */ (event.target).value));
byId("open").addEventListener("click", () => byId("file").click());
byId("file").addEventListener("change", async (event) => {
  const input = /** @type {HTMLInputElement} */ (event.target);
  if (input.files?.length) await openFiles([...input.files]);
  // (so that the same file can be chosen again)
  input.value = "";
});
document.querySelectorAll("[data-save]").forEach((button) =>
  button.addEventListener("click", () => {
    SAVED[/** @type {HTMLElement} */ (button).dataset.save ?? ""]?.();
    byId("save").removeAttribute("open");
  }),
);
document.addEventListener("pointerdown", ({ target }) => {
  if (!byId("save").contains(/** @type {Node} */ (target))) byId("save").removeAttribute("open");
});
byId("link").addEventListener("click", copyLink);
byId("theme-switch").addEventListener("click", () => (switchTheme(), recolour()));
byId("help-open").addEventListener("click", () => /** @type {HTMLDialogElement} */ (byId("help")).showModal());
byId("notice").addEventListener("click", () => (byId("notice").hidden = true));
window.addEventListener("hashchange", openLink);
window.addEventListener("dragover", (event) => event.preventDefault());
window.addEventListener("drop", (event) => {
  event.preventDefault();
  if (event.dataTransfer?.files.length) openFiles([...event.dataTransfer.files]);
});

/** Paints with the colours of the theme. */
const recolour = () => (board.recolour(), gallery.paint());
beginControls(state, board, keys);
beginAnswers(state, board);
beginCalls(state);
beginBusy(engine);
beginCheck(state);
beginPromise();
const gallery = new Gallery(state);
state.on("turned", askLive);
state.on("drawing", () => {
  byId("notice").hidden = true;
  askLive();
});
beginTheme(recolour);
recolour();
state.on("looks", askMore);
state.on("again", ask);
if (!openLink()) {
  const { textContent: said, hidden } = byId("notice");
  showExample("stars");
  if (!hidden) tell(said ?? "");
}
state.history.past = [];
state.tell("steps");
// (for tests, and for who wants to look behind the page)
/** @type {any} */ (globalThis).polyover = { state, board, engine, turning, gallery };
