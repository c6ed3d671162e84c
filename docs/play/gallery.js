/** The answers of all overlay rules by all fill rules, each a small picture and a button that chooses it. */

import { pathsIn } from "./answers.js";
import { FILLS, RULES, isOption } from "./commands.js";
import { boxOf, pointCount } from "./drawing.js";
import { flat, startWorker } from "./engine.js";
import { byId, element } from "./page.js";
import { paintMarks } from "./painter.js";
import { coloursOf } from "./palette.js";
import { View } from "./view.js";

/** Pictures are made of at most this many points, and at most so often: after so many milliseconds. */
const MOST = 2000;
const PAUSE = 200;
const [WIDE, HIGH] = [38, 30];
/** The pictures of an overlay rule. */
const LINE = Object.keys(FILLS).length;
const NAMES = Object.keys(RULES).flatMap((rule) => Object.keys(FILLS).map((fill) => ({ rule, fill })));
const ARROWS = { ArrowLeft: -1, ArrowRight: 1, ArrowUp: -LINE, ArrowDown: LINE };

export class Gallery {
  constructor(/** @type {import("./state.js").State} */ state) {
    this.state = state;
    /** @type {Worker | null} */
    this.worker = null;
    /** @type {import("./drawing.js").Figures | null} the figures that are asked, those that are shown, and painted */
    this.asked = this.shown = this.painted = null;
    /** The number of times that all pictures began to be painted. */
    this.run = 0;
    /** @type {number[][][][]} the contours of each answer; none where there are too many points */
    this.answers = [];
    /** @type {import("./commands.js").Asked | null} the question whose picture is marked */
    this.pressed = null;
    this.timer = 0;
    this.buttons = NAMES.map((names) => this.button(names));
    this.lay();
    state.on("drawing answer", () => this.press());
    state.on("answer", () => this.soon());
  }

  /** A button with a picture. */
  button({ rule, fill }) {
    const label = `${RULES[rule].label}, ${FILLS[fill].label}`;
    const picture = element("canvas", { width: WIDE, height: HIGH, "aria-hidden": true });
    const choose = () => this.state.ask({ rule, fill });
    const words = { type: "button", title: label, "aria-label": label, "data-rule": rule, "data-fill": fill };
    return element("button", { ...words, onclick: choose }, picture);
  }

  /** Lays the buttons in a table, rules by lines and fill rules by columns. */
  lay() {
    const heads = Object.values(FILLS).map(({ label }) => element("span", { class: "head" }, label));
    const lines = Object.entries(RULES).flatMap(([rule, { label }], line) => {
      const name = element("span", { class: "name" }, rule === "inverse_difference" ? "Inverse diff." : label);
      return [name, ...this.buttons.slice(LINE * line, LINE * (line + 1))];
    });
    byId("gallery").replaceChildren(element("span"), ...heads, ...lines);
    byId("gallery").addEventListener("keydown", (event) => this.arrow(event));
  }

  /** Chooses the picture beside the chosen one. */
  arrow(/** @type {KeyboardEvent} */ event) {
    const by = ARROWS[event.key];
    if (!by) return;
    event.preventDefault();
    const at = this.buttons.indexOf(/** @type {any} */ (event.target));
    const next = this.buttons[(at + by + NAMES.length) % NAMES.length];
    this.state.ask({ rule: next.dataset.rule, fill: next.dataset.fill });
    next.focus();
  }

  /** Shows which of them is chosen, where the command has an overlay rule. */
  press() {
    const { asked } = this.state;
    if (asked === this.pressed) return;
    this.pressed = asked;
    byId("gallery").hidden = !isOption(asked, "rule");
    this.buttons.forEach((button, at) => {
      const isChosen = NAMES[at].rule === asked.rule && NAMES[at].fill === asked.fill;
      button.setAttribute("aria-pressed", String(isChosen));
      button.tabIndex = isChosen ? 0 : -1;
    });
  }

  /** Asks for the pictures of what is drawn, a little later. */
  soon() {
    this.timer ||= window.setTimeout(() => {
      this.timer = 0;
      this.ask();
    }, PAUSE);
  }

  ask() {
    const { figures } = this.state;
    if (this.asked || figures === this.shown || byId("gallery").hidden) return;
    if (pointCount(figures) > MOST) return this.take(figures, []);
    this.asked = figures;
    this.worker ??= startWorker((data) => this.receive(data), () => this.drop());
    this.worker.postMessage({ gallery: NAMES, subject: flat(figures.subject), clip: flat(figures.clip) });
  }

  /** Drops a worker that has ended: the next drawing gets a new one. */
  drop() {
    this.worker?.terminate();
    this.worker = this.asked = null;
  }

  receive(data) {
    if (data.kind === "fault") this.drop();
    if (data.kind !== "gallery" || !this.asked) return;
    const answers = data.found.map(({ coordinates, ends }) => pathsIn(coordinates, ends));
    const { asked } = this;
    this.asked = null;
    this.take(/** @type {any} */ (asked), answers);
    if (this.state.figures !== asked) this.soon();
  }

  /** Shows the answers of some figures. */
  take(/** @type {import("./drawing.js").Figures} */ figures, /** @type {number[][][][]} */ answers) {
    this.shown = figures;
    this.answers = answers;
    this.paint();
  }

  /** Paints all pictures, those of a line in each frame; a later call takes the place of one that is not done. */
  paint() {
    const { shown } = this;
    if (!shown) return;
    const colours = coloursOf(byId("gallery"));
    const view = viewOf(shown);
    const run = (this.run += 1);
    const paintLine = (/** @type {number} */ first) => {
      if (run !== this.run) return;
      for (let at = first; at < first + LINE; at += 1) this.paintOne(at, view, colours);
      if (first + LINE < NAMES.length) requestAnimationFrame(() => paintLine(first + LINE));
      else this.painted = shown;
    };
    paintLine(0);
  }

  /** Paints a picture. */
  paintOne(/** @type {number} */ at, view, colours) {
    const dense = window.devicePixelRatio || 1;
    const canvas = /** @type {HTMLCanvasElement} */ (this.buttons[at].firstElementChild);
    [canvas.width, canvas.height] = [WIDE * dense, HIGH * dense];
    const context = /** @type {CanvasRenderingContext2D} */ (canvas.getContext("2d"));
    context.setTransform(dense, 0, 0, dense, 0, 0);
    if (this.answers[at]) paintMarks(context, view, marksOf(this.shown, this.answers[at]), colours);
  }
}

/** How all that is drawn is seen in a picture. */
function viewOf(/** @type {import("./drawing.js").Figures} */ shown) {
  const view = Object.assign(new View(), { width: WIDE, height: HIGH });
  const [left, low, right, high] = boxOf([...shown.subject, ...shown.clip]) ?? [-1, -1, 1, 1];
  view.scale = Math.min((WIDE - 6) / (right - left || 1), (HIGH - 6) / (high - low || 1));
  [view.x, view.y] = [(left + right) / 2, (low + high) / 2];
  return view;
}

/** Marks of what is given, thin, and of an answer. */
function marksOf(figures, /** @type {number[][][]} */ answer) {
  const given = ["subject", "clip"].map((colour) => ({ colour, paths: figures[colour] }));
  return /** @type {import("./scene.js").Mark[]} */ ([
    ...given.map((each) => ({ type: "area", fillRule: "nonzero", strength: 0.12, width: 0.6, ...each })),
    { type: "area", colour: "answer", paths: answer, fillRule: "evenodd", strength: 0.85, width: 0 },
  ]);
}
