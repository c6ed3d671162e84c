/** The two stars that turn, until the visitor draws; with a slider for their edges, and the time of a call. */

import { byId } from "./page.js";
import { EDGES, FIRST, starsOf } from "./stars.js";

/** How far the stars turn in a millisecond, and the most milliseconds that count for one frame. */
const SPEED = 0.00012;
const LONGEST = 100;
/** The time that is told is the middle one of as many calls. */
const CALLS = 15;
/** The height of the slider, in pixels. */
const COVERED = 40;

export class Turning {
  constructor(/** @type {import("./state.js").State} */ state, /** @type {import("./board.js").Board} */ board) {
    this.state = state;
    this.board = board;
    this.turn = 0;
    this.last = 0;
    /** @type {number[]} milliseconds of the last calls */
    this.times = [];
    /** @type {import("./drawing.js").Figures | null} the stars that are shown */
    this.stars = null;
    this.slider = /** @type {HTMLInputElement} */ (byId("turning-edges"));
    this.slider.max = String(EDGES.length - 1);
    this.slider.value = String(FIRST);
    this.still = window.matchMedia("(prefers-reduced-motion: reduce)");
    this.listen();
  }

  listen() {
    const { state } = this;
    this.slider.addEventListener("input", () => this.choose());
    byId("turning-switch").addEventListener("click", () => (state.isTurning ? this.stop() : this.start()));
    this.board.canvas.addEventListener("pointerdown", () => this.stop());
    this.board.canvas.addEventListener("keydown", ({ key }) => key !== "Tab" && this.stop());
    this.still.addEventListener("change", () => this.still.matches && this.stop());
    state.on("hand", () => state.tool !== "edit" && this.stop());
    state.on("drawing", () => this.stars && state.figures !== this.stars && this.leave());
    state.on("answer", () => this.take());
  }

  get edges() {
    return EDGES[Number(this.slider.value)];
  }

  /** Takes the stars that the page shows, and turns them where motion is welcome. */
  begin() {
    this.stars = this.state.figures;
    this.turn = 0;
    this.times = [];
    this.slider.value = String(FIRST);
    this.cover(COVERED);
    this.tell();
    // (asked once more, so that the time is that of a call which is timed)
    this.show();
    if (this.still.matches) this.stop();
    else this.start();
  }

  start() {
    if (!this.stars) return;
    this.state.isTurning = true;
    this.last = performance.now();
    this.name();
    requestAnimationFrame((now) => this.frame(now));
  }

  /** Leaves the stars as they are. */
  stop() {
    const wasTurning = this.state.isTurning;
    this.state.isTurning = false;
    this.name();
    if (wasTurning) this.state.tell("answer");
  }

  /** Ends it: something else is drawn. */
  leave() {
    this.stars = null;
    this.stop();
    this.cover(0);
  }

  /** Shows the slider over some pixels of the board, or hides it. */
  cover(/** @type {number} */ pixels) {
    byId("turning").hidden = !pixels;
    this.board.covered = pixels;
    if (pixels) this.board.fit();
  }

  /** Names the button by what it does. */
  name() {
    byId("turning-switch").textContent = this.state.isTurning ? "Stop" : "Turn";
  }

  /** Turns the stars a little, once their answer is there. */
  frame(/** @type {number} */ now) {
    if (!this.state.isTurning) return;
    requestAnimationFrame((later) => this.frame(later));
    if (this.state.answer?.drawing !== this.state.drawing) return;
    // (a frame may have begun before the click that starts it)
    this.turn += Math.max(0, Math.min(now - this.last, LONGEST)) * SPEED;
    this.last = now;
    this.show();
  }

  /** Shows the stars as they stand now. */
  show() {
    this.stars = starsOf(this.edges, this.turn);
    this.state.turn(this.stars);
  }

  /** Takes another number of edges. */
  choose() {
    if (!this.stars) return;
    this.times = [];
    this.show();
    this.tell();
  }

  /** Takes the time of an answer. */
  take() {
    const { answer } = this.state;
    if (!this.stars || answer?.drawing.figures !== this.stars) return;
    if (answer.kind === "fault") return this.stop();
    this.times = [...this.times, answer.time].slice(-CALLS);
    this.tell();
  }

  /** Tells the number of edges, and the time of a call. */
  tell() {
    const edges = `${this.edges.toLocaleString("en")} edges`;
    this.slider.setAttribute("aria-valuetext", edges);
    const middle = this.times.slice().sort((a, b) => a - b)[this.times.length >> 1];
    const time = middle === undefined ? "" : `${Math.max(1, Math.round(1000 * middle)).toLocaleString("en")} µs a call`;
    byId("turning-told").textContent = [edges, time].filter(Boolean).join(", ");
  }
}
