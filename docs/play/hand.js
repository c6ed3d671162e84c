/** The pointer on the board: draws, moves, adds and deletes points; moves and zooms what is seen. */

import { contourRound, edgeNear, pieceAt, pointNear, windingsAt } from "./aim.js";
import { addPath, addPoint, deletePath, deletePoint, isClosed, movePath, movePoint, snapped } from "./drawing.js";

/** How near, in pixels, the pointer has to be to a point, and to an edge; further for a finger. */
const REACH = { mouse: 9, pen: 12, touch: 20 };
/** From this many pixels on a press is a drag. */
const DRAG = 4;

export class Hand {
  constructor(/** @type {import("./board.js").Board} */ board) {
    this.board = board;
    this.state = board.state;
    /** @type {Map<number, {x: number, y: number}>} */
    this.pointers = new Map();
    /** @type {any} what a press does when it is dragged */
    this.press = null;
    /** @type {import("./drawing.js").Point[]} points of the path that is begun, which were taken back */
    this.takenBack = [];
    const { canvas } = board;
    canvas.addEventListener("pointerdown", (event) => this.down(event));
    canvas.addEventListener("pointermove", (event) => this.move(event));
    canvas.addEventListener("pointerup", (event) => this.up(event));
    canvas.addEventListener("pointercancel", (event) => this.up(event));
    canvas.addEventListener("pointerleave", () => this.leave());
    canvas.addEventListener("dblclick", (event) => this.double(event));
    canvas.addEventListener("contextmenu", (event) => event.preventDefault());
    canvas.addEventListener("wheel", (event) => this.wheel(event), { passive: false });
  }

  /** Where the pointer is: in pixels of the board, as a point, and how near it has to be to something. */
  at(/** @type {MouseEvent} */ event) {
    const { left, top } = this.board.canvas.getBoundingClientRect();
    const [px, py] = [event.clientX - left, event.clientY - top];
    const { view } = this.board;
    const [x, y] = view.toPoint(px, py);
    const type = /** @type {PointerEvent} */ (event).pointerType ?? "mouse";
    return { px, py, x, y, pane: view.paneOf(px), reach: (REACH[type] ?? REACH.mouse) / view.scale };
  }

  // ---- presses

  down(/** @type {PointerEvent} */ event) {
    this.board.canvas.setPointerCapture(event.pointerId);
    const at = this.at(event);
    this.pointers.set(event.pointerId, { x: at.px, y: at.py });
    if (this.pointers.size > 1) return this.beginPinch();
    this.state.take({ cursor: null });
    const isPan = event.button === 1 || (at.pane === 1 && event.button === 0);
    this.press = { ...at, drag: isPan ? this.panned() : this.pressed(at, event), isDragged: false };
  }

  /** What a press does by the tool: a function that is called as it is dragged, if there is one. */
  pressed(at, /** @type {PointerEvent} */ event) {
    const { state } = this;
    if (state.tool === "draw") return null;
    const near = pointNear(state.figures, at.x, at.y, at.reach);
    if (state.tool === "delete" || event.button === 2 || event.altKey) {
      this.remove(near, at);
      return null;
    }
    if (near) {
      state.take({ selected: near.place });
      return this.moved(near.place);
    }
    const edge = edgeNear(state.figures, at.x, at.y, at.reach * 0.7);
    if (edge) return this.added(edge.place);
    state.take({ selected: null });
    const contour = contourRound(state.figures, at.x, at.y);
    return contour ? this.shifted(contour) : this.panned();
  }

  /** Deletes the point under the pointer, or, on an edge, its path. */
  remove(near, at) {
    const { state } = this;
    const edge = near ? null : edgeNear(state.figures, at.x, at.y, at.reach);
    if (!near && !edge) return;
    const figures = near ? deletePoint(state.figures, near.place) : deletePath(state.figures, edge?.place);
    state.take({ selected: null });
    state.step({ figures });
  }

  // ---- drags

  /** Moves a point to where the pointer is. */
  moved(/** @type {import("./drawing.js").Place} */ place) {
    return ({ x, y }) =>
      this.state.slide(movePoint(this.state.figures, place, snapped(x, y, this.state.looks.step)));
  }

  /** Adds a point on an edge, and moves it. */
  added(/** @type {import("./drawing.js").Place} */ place) {
    const { state } = this;
    let move = null;
    return (at) => {
      if (!move) {
        state.slide(addPoint(state.figures, place, snapped(at.x, at.y, state.looks.step)));
        state.take({ selected: place });
        move = this.moved(place);
      }
      move(at);
    };
  }

  /** Moves a contour by whole steps of the grid. */
  shifted(/** @type {import("./drawing.js").Place} */ place) {
    const { state } = this;
    const { figures } = state;
    return (at) => {
      const from = [this.press.x, this.press.y];
      state.slide(movePath(figures, place, snapped(at.x - from[0], at.y - from[1], state.looks.step)));
    };
  }

  /** Moves what is seen. */
  panned() {
    let last = null;
    return ({ px, py }) => {
      last ??= [this.press.px, this.press.py];
      this.board.view.pan(px - last[0], py - last[1]);
      last = [px, py];
      this.board.draw();
    };
  }

  move(/** @type {PointerEvent} */ event) {
    const at = this.at(event);
    if (this.pointers.has(event.pointerId)) this.pointers.set(event.pointerId, { x: at.px, y: at.py });
    if (this.pinch) return this.movePinch();
    if (!this.press) return this.hover(at);
    const far = Math.hypot(at.px - this.press.px, at.py - this.press.py);
    this.press.isDragged ||= far >= DRAG;
    if (this.press.isDragged && this.press.drag) this.press.drag(at);
    else if (this.state.tool === "draw") this.hover(at);
  }

  up(/** @type {PointerEvent} */ event) {
    this.pointers.delete(event.pointerId);
    if (this.pinch) {
      if (!this.pointers.size) this.pinch = null;
      this.press = null;
      return;
    }
    const { press } = this;
    this.press = null;
    if (!press || event.type === "pointercancel") return;
    this.state.settle();
    if (this.state.tool === "draw" && event.button === 0 && press.pane === 0) this.place(this.at(event));
  }

  // ---- drawing

  /** Puts the next point of a path, or ends it where that is the first one of a contour. */
  place(at) {
    const { state, board } = this;
    const point = snapped(at.x, at.y, state.looks.step);
    if (state.kind === "point") {
      state.step({ figures: addPath(state.figures, "point", [point]) });
      return;
    }
    const { begun } = board.hand;
    const first = begun && isClosed(begun.kind) && begun.points[0];
    const isFirst = first && Math.hypot(first[0] - at.x, first[1] - at.y) <= at.reach;
    if (isFirst && begun.points.length > 2) return this.finish();
    const last = begun?.points.at(-1);
    if (last && last[0] === point[0] && last[1] === point[1]) return;
    this.takenBack = [];
    board.hand.begun = { kind: state.kind, points: [...(begun?.points ?? []), point] };
    state.tell("hand");
  }

  /** Ends the path that is begun: it is added where it has two points, or, for a contour, three. */
  finish() {
    const { state, board } = this;
    const { begun } = board.hand;
    this.drop();
    if (begun && begun.points.length > (begun.kind === "line" ? 1 : 2)) {
      state.step({ figures: addPath(state.figures, begun.kind, begun.points) });
    }
    state.tell("hand");
  }

  /** Drops the path that is begun. */
  drop() {
    this.board.hand.begun = null;
    this.takenBack = [];
  }

  /** Takes back the last point of the path that is begun. Returns whether there was one. */
  takeBack() {
    const { begun } = this.board.hand;
    if (!begun) return false;
    const points = begun.points.slice(0, -1);
    this.takenBack.push(begun.points[points.length]);
    this.board.hand.begun = points.length ? { ...begun, points } : null;
    this.state.tell("hand");
    return true;
  }

  /** Puts the point again that was taken back last. Returns whether there was one. */
  putBack() {
    const point = this.takenBack.pop();
    if (!point) return false;
    const { begun } = this.board.hand;
    const { kind } = this.state;
    this.board.hand.begun = { kind: begun?.kind ?? kind, points: [...(begun?.points ?? []), point] };
    this.state.tell("hand");
    return true;
  }

  double(/** @type {MouseEvent} */ event) {
    const at = this.at(event);
    const { state } = this;
    if (state.tool === "draw") return this.finish();
    if (state.tool !== "edit" || at.pane || pointNear(state.figures, at.x, at.y, at.reach)) return;
    const edge = edgeNear(state.figures, at.x, at.y, at.reach);
    if (!edge) return;
    state.step({ figures: addPoint(state.figures, edge.place, snapped(at.x, at.y, state.looks.step)) });
    state.take({ selected: edge.place });
  }

  // ---- what is under the pointer

  /** Shows what a press would take, and the piece of the answer under the pointer. */
  hover(at) {
    const { state, board } = this;
    const { canvas, hand } = board;
    hand.pointer = snapped(at.x, at.y, state.looks.step);
    hand.pixels = [at.px, at.py];
    const isFree = state.tool !== "draw" && at.pane === 0;
    const near = isFree ? pointNear(state.figures, at.x, at.y, at.reach) : null;
    const edge = isFree && !near ? edgeNear(state.figures, at.x, at.y, at.reach * 0.7) : null;
    hand.aim = near ?? null;
    const idle = isFree && contourRound(state.figures, at.x, at.y) ? "move" : "grab";
    canvas.style.cursor = state.tool === "draw" ? "crosshair" : near ? "pointer" : edge ? "copy" : idle;
    const isOther = at.pane === 1 && board.isCompared;
    const isPiece = state.tool !== "draw" && !near && !isOther;
    hand.windings = state.tool === "draw" ? null : windingsAt(state.drawing, at.x, at.y);
    state.point(isPiece ? pieceAt(state.answer, at.x, at.y, at.reach) : null);
    state.tell("pointer");
    board.draw();
  }

  leave() {
    Object.assign(this.board.hand, { pointer: null, aim: null, windings: null });
    this.state.point(null);
    this.state.tell("pointer");
    this.board.draw();
  }

  // ---- zoom

  wheel(/** @type {WheelEvent} */ event) {
    event.preventDefault();
    const { px, py } = this.at(event);
    const pixels = event.deltaMode === 1 ? event.deltaY * 24 : event.deltaY;
    this.board.view.zoom(Math.exp(-Math.max(-300, Math.min(300, pixels)) / 500), px, py);
    this.board.draw();
  }

  /** The middle of two fingers, and how far they are apart. */
  fingers() {
    const [a, b] = [...this.pointers.values()];
    return { x: (a.x + b.x) / 2, y: (a.y + b.y) / 2, apart: Math.max(1, Math.hypot(a.x - b.x, a.y - b.y)) };
  }

  beginPinch() {
    this.state.settle();
    this.press = null;
    this.pinch = this.fingers();
  }

  movePinch() {
    if (this.pointers.size < 2) return;
    const now = this.fingers();
    this.board.view.pan(now.x - this.pinch.x, now.y - this.pinch.y);
    this.board.view.zoom(now.apart / this.pinch.apart, now.x, now.y);
    this.pinch = now;
    this.board.draw();
  }
}
