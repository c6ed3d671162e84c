/** The answer in words: beside the board, under it, and at the pointer. */

import { counted, piecesOf, summaryOf } from "./answers.js";
import { isFilled } from "./check.js";
import { RADIUS } from "./lens.js";
import { RELATIONS } from "./commands.js";
import { legendOf } from "./scene.js";
import { byId, element } from "./page.js";

/** The number of pieces, points or edges that are listed. */
const MOST = 200;
const TURNING = "Two stars turn, and the answer follows. Drag a point, or draw: they stop.";
/** Faults after which the same may be asked again. */
const AGAIN = ["WorkerEnded", "LibraryMissing", "Cancelled", "OutOfMemory"];
const SIDES = ["subject above", "subject below", "clip above", "clip below"];

/** The unit of a drawing: what a step of its coordinates is, by its digits. */
const unitOf = (/** @type {import("./state.js").Drawing} */ drawing) => 10 ** -drawing.digits;

/** Milliseconds in words. */
const inTime = (/** @type {number} */ time) => (time < 0.1 ? "in less than 0.1 ms" : `in ${time.toFixed(1)} ms`);

/** The sides of an edge that are filled, in words. */
const sidesOf = (/** @type {number} */ fill) => SIDES.filter((_, bit) => fill & (1 << bit)).join(", ") || "no side";

/** The lines of a list: a name, and the rest; `mark` gives what stands before the name. */
function listed(lines, mark = (/** @type {number} */ _) => /** @type {Node[]} */ ([])) {
  const items = lines.slice(0, MOST).map(([name, rest], at) => {
    const inside = [element("b", {}, ...mark(at), name), element("span", { class: "size" }, rest)];
    return element("li", {}, element("span", {}, ...inside));
  });
  if (lines.length > MOST) items.push(element("li", {}, element("span", {}, "", `and ${lines.length - MOST} more`)));
  return element("ul", { class: "pieces" }, ...items);
}

/** The pieces of an answer, each of which can be looked at by itself. */
function pieceList(state, answer) {
  const pieces = piecesOf(answer, unitOf(answer.drawing));
  const items = pieces.slice(0, MOST).map(({ name, size }, at) => {
    const look = () => state.point(at);
    const leave = () => state.point(null);
    const events = { onpointerenter: look, onfocus: look, onpointerleave: leave, onblur: leave };
    const inside = [element("b", {}, name), element("span", { class: "size" }, size)];
    return element("li", {}, element("button", { type: "button", "data-piece": at, ...events }, ...inside));
  });
  if (pieces.length > MOST) items.push(element("li", {}, element("span", {}, "", `and ${pieces.length - MOST} more`)));
  return items.length ? element("ul", { class: "pieces" }, ...items) : "";
}

/** An edge in words: its number, its ends and its filled sides. */
const edgeLine = ([a, b, fill], /** @type {number} */ at) => [
  `Edge ${at}`,
  `(${a.join(", ")}) to (${b.join(", ")}): ${sidesOf(fill)}`,
];

/** The rest of an answer, by its kind. */
function detailsOf(state, answer) {
  switch (answer.kind) {
    case "relations": {
      const lines = RELATIONS.map((name) => relationLine(name, answer.relations[name]));
      return element("ul", { class: "pieces relations" }, ...lines);
    }
    case "locations": {
      const points = answer.drawing.figures.point;
      const mark = (at) => [element("i", { class: `mark ${answer.locations[at]}`, mark: answer.locations[at] })];
      return listed(answer.locations.map((place, at) => [`(${points[at][0].join(", ")})`, place]), mark);
    }
    case "edges":
      return listed(answer.edges.map(edgeLine));
    default:
      return pieceList(state, answer);
  }
}

function relationLine(/** @type {string} */ name, /** @type {boolean} */ holds) {
  const told = element("span", { class: holds ? "yes" : "no" }, holds ? "✓ true" : "✗ false");
  return element("li", {}, element("span", { class: "relation" }, element("b", {}, name.replaceAll("_", " ")), told));
}

/** A refusal, with what may help. */
function faultBox(state, answer) {
  const box = element("div", { class: "fault", role: "alert" }, element("b", {}, answer.name), answer.message);
  if (answer.name === "NotSettled") {
    const ask = () => state.ask({ solver: "snapped" });
    box.append(element("br"), element("button", { type: "button", onclick: ask }, "Ask the snapped solver"));
  }
  if (AGAIN.includes(answer.name)) {
    const again = () => state.tell("again");
    box.append(element("br"), element("button", { type: "button", onclick: again }, "Ask again"));
  }
  return box;
}

/** Shows the answer in words. */
function showAnswer(state) {
  const { answer } = state;
  if (!answer) {
    byId("answer").replaceChildren(element("p", { class: "quiet" }, "It is not asked for yet."));
    return;
  }
  const summary = byId("summary");
  if (answer.kind === "fault") {
    byId("answer").replaceChildren(faultBox(state, answer));
    summary.replaceChildren(element("b", {}, `${answer.name}: `), answer.message);
    return;
  }
  const unit = unitOf(answer.drawing);
  const told = summaryOf(answer, unit);
  const headline = element("p", { class: "headline" }, told);
  const time = element("p", { class: "quiet", id: "time" }, inTime(answer.time));
  byId("answer").replaceChildren(headline, time, detailsOf(state, answer));
  const name = `${answer.drawing.asked.command}: `;
  // (a screen reader need not read each turn)
  if (state.isTurning) summary.textContent = TURNING;
  else if (summary.textContent !== name + told) summary.replaceChildren(element("b", {}, name), told);
}

/** Shows what colours stand for. */
function showLegend(board) {
  const { input, answer, over, nodes } = board.marks();
  const marks = [...input, ...answer, ...over, ...nodes];
  const items = legendOf(marks).map(([name, kind]) => {
    const label = name === "before" ? "before snapping" : name;
    return element("li", { mark: name }, element("i", { class: `${kind} ${name}` }), label);
  });
  byId("legend").replaceChildren(...items);
  byId("legend").hidden = !items.length;
}

/** Shows the piece that is looked at: at the pointer, and in the list. */
function showPiece(state, board) {
  const { piece } = state;
  showTip(state, board);
  for (const each of document.querySelectorAll("[data-piece]")) {
    const isLooked = /** @type {HTMLElement} */ (each).dataset.piece === String(piece);
    if (isLooked) each.setAttribute("aria-current", "true");
    else each.removeAttribute("aria-current");
  }
}

/** The windings at the pointer, in words. */
function windingsSaid(state, board) {
  const { fill } = state.asked;
  const said = (board.hand.windings ?? []).map(
    ([kind, winding]) => `${kind} ${winding} (${isFilled(fill, winding) ? "filled" : "not filled"})`,
  );
  return said.length ? `windings: ${said.join(", ")}` : "";
}

/** Tells at the pointer of the piece that is looked at, and of windings. */
function showTip(state, board) {
  const { piece, answer } = state;
  const pieces = answer && piece !== null ? piecesOf(answer, unitOf(answer.drawing)) : [];
  const told = piece !== null && pieces[piece];
  const lines = [told ? `${told.name}: ${told.size}` : "", windingsSaid(state, board)].filter(Boolean);
  byId("tip").hidden = !lines.length || !board.hand.pointer;
  byId("tip").textContent = lines.join("\n");
}

/** Shows the point at the pointer, and puts the tip beside it. */
function showPlace(state, board) {
  showTip(state, board);
  const { pointer, pixels } = board.hand;
  byId("place").textContent = pointer ? `${pointer[0]}, ${pointer[1]}` : "";
  const tip = byId("tip");
  const beside = state.looks.lens ? RADIUS : 14;
  tip.style.left = `${Math.max(4, Math.min(pixels[0] + beside, board.view.width - tip.offsetWidth - 4))}px`;
  tip.style.top = `${Math.min(pixels[1] + 18, board.view.height - tip.offsetHeight - 4)}px`;
}

/** Joins the answer's panel, the summary, the legend and the tip to the state. */
export function beginAnswers(/** @type {import("./state.js").State} */ state, board) {
  const later = soon(() => (showAnswer(state), showLegend(board)));
  state.on("answer", later);
  state.on("looks", () => showLegend(board));
  state.on("piece", () => showPiece(state, board));
  state.on("drawing turned", () => (board.hand.windings = null));
  state.on("pointer", () => showPlace(state, board));
  state.on("hand", () => showBegun(board));
}

/** Shows how many points a path has that is begun. */
function showBegun(board) {
  const { begun } = board.hand;
  const box = byId("begun");
  box.hidden = !begun;
  if (!begun) return;
  const said = /** @type {HTMLElement} */ (box.firstElementChild);
  said.textContent = `${begun.kind}: ${counted(begun.points.length, "point")}`;
}

/** A function that is called once for several calls in a frame. */
function soon(/** @type {() => void} */ done) {
  let isDue = false;
  return () => {
    if (isDue) return;
    isDue = true;
    requestAnimationFrame(() => {
      isDue = false;
      done();
    });
  };
}
