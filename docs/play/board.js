/** The board: the canvas on which the drawing and its answer are seen, with what the hand is at. */

import { isOption } from "./commands.js";
import { KINDS, allPaths, boxOf, isClosed, pointAt } from "./drawing.js";
import { coloursOf, inkOf } from "./palette.js";
import { HANDLE, paintHandle } from "./handle.js";
import { Layer } from "./layers.js";
import { paintLens } from "./lens.js";
import { paintGrid, paintMarks, paintTitle } from "./painter.js";
import { answerMarks, inputMarks, nodeMarks, outlineMarks } from "./scene.js";
import { View } from "./view.js";

/** Handles of points are painted where there are at most this many in sight. */
const MOST_HANDLES = 1500;

/** The title of a pane that shows the answer of a solver. */
function titleOf(/** @type {import("./answers.js").Answer | null} */ answer) {
  if (!answer) return "";
  const { solver } = answer.drawing.asked;
  const refused = answer.kind === "fault" ? `: ${answer.name}` : "";
  return `${solver === "snapped" ? "Snapped" : "Rounds"}${refused}`;
}

export class Board {
  constructor(/** @type {HTMLCanvasElement} */ canvas, /** @type {import("./state.js").State} */ state) {
    this.canvas = canvas;
    this.state = state;
    this.view = new View();
    /** What the hand is at: a path that is begun, where the pointer is, what it would take, and the windings there. */
    this.hand = { begun: null, pointer: null, pixels: [0, 0], aim: null, windings: null };
    this.isDue = false;
    this.layers = { ground: new Layer(), answer: new Layer(), over: new Layer() };
    /** Pixels at the bottom that something lies over. */
    this.covered = 0;
    /** @type {number | undefined} device pixels in a pixel, once the board has a size */
    this.dense = undefined;
    this.colours = coloursOf(canvas);
    new ResizeObserver(() => this.resize()).observe(canvas);
    state.on("drawing turned answer looks hand piece", () => this.draw());
  }

  /** Takes the size of the canvas as it is laid out. A drawing shown whole stays so; else the middle stays. */
  resize() {
    const { width, height } = this.canvas.getBoundingClientRect();
    this.view.width = Math.round(width);
    this.view.height = Math.round(height);
    this.view.isSplit = this.isSplit;
    this.dense = window.devicePixelRatio || 1;
    this.canvas.width = Math.round(width * this.dense);
    this.canvas.height = Math.round(height * this.dense);
    if (this.view.isFit && width > 0) this.fit();
    this.paint();
  }

  /** The drawing that is painted: while the stars turn that of the answer, so that both fit each other. */
  get drawing() {
    const { state } = this;
    const answered = state.answer?.drawing;
    return state.isTurning && answered?.asked === state.asked ? answered : state.drawing;
  }

  /** Whether the answers of both solvers stand side by side; not where the command takes none. */
  get isCompared() {
    return this.state.looks.solvers && isOption(this.state.asked, "solver");
  }

  /** Whether the board has two panes. */
  get isSplit() {
    return this.state.looks.beside || this.isCompared;
  }

  /** Shows the whole drawing. */
  fit() {
    this.view.fit(boxOf(allPaths(this.state.figures)), this.covered);
    this.draw();
  }

  /** Takes the colours of the theme anew. */
  recolour() {
    this.colours = coloursOf(this.canvas);
    this.draw();
  }

  /** Paints the board soon: once, however often this is called before. */
  draw() {
    if (this.isDue) return;
    this.isDue = true;
    requestAnimationFrame(() => {
      this.isDue = false;
      this.paint();
    });
  }

  /** Paints the board: layers that have changed, and what the hand is at. */
  paint() {
    const context = /** @type {CanvasRenderingContext2D} */ (this.canvas.getContext("2d"));
    const { view, state } = this;
    if (view.isSplit !== this.isSplit) {
      view.isSplit = this.isSplit;
      view.fit(boxOf(allPaths(state.figures)), this.covered);
    }
    const dense = this.dense ?? 1;
    this.paintLayers({ width: view.width, height: view.height, dense });
    context.setTransform(1, 0, 0, 1, 0, 0);
    for (const layer of Object.values(this.layers)) layer.lay(context);
    context.setTransform(dense, 0, 0, dense, 0, 0);
    this.paintPanes(context, (pane) => pane === 0 && this.paintHand(context));
    if (state.looks.lens) this.paintLens(context);
  }

  /** Paints the layers: the ground with the input, the answer, and what lies over both. */
  paintLayers(size) {
    const { view, state, layers, drawing } = this;
    const { answer, piece, looks } = state;
    const seen = [view.x, view.y, view.scale, view.isSplit, this.colours, JSON.stringify(looks)];
    const shown = (layer, what, paint) =>
      layer.show([...seen, ...what], size, (context) => this.paintPanes(context, (pane) => paint(context, pane)));
    shown(layers.ground, [drawing, answer?.regions], (context, pane) => this.paintGround(context, pane));
    shown(layers.answer, [answer, piece], (context, pane) => this.paintAnswer(context, pane));
    shown(layers.over, [drawing, answer], (context, pane) => this.paintOver(context, pane));
  }

  /** Paints in each pane: that of the input, and of the answer over it; or that of the answer beside it. */
  paintPanes(context, /** @type {(pane: number) => void} */ paint) {
    const { view } = this;
    for (const pane of view.isSplit ? [0, 1] : [0]) {
      context.save();
      if (view.isSplit) {
        context.translate(pane * view.paneWidth, 0);
        context.beginPath();
        context.rect(0, 0, view.paneWidth, view.height);
        context.clip();
      }
      paint(pane);
      context.restore();
    }
  }

  /** Whether a pane shows the input; the first one does, and both where they show both solvers. */
  hasInput(/** @type {number} */ pane) {
    return pane === 0 || this.isCompared;
  }

  /** Whether a pane shows an answer. */
  hasAnswer(/** @type {number} */ pane) {
    return pane === 1 || !this.view.isSplit || this.isCompared;
  }

  paintGround(context, /** @type {number} */ pane) {
    const { view, colours } = this;
    context.fillStyle = colours.ground;
    context.fillRect(0, 0, view.isSplit ? view.paneWidth + 1 : view.width, view.height);
    paintGrid(context, view, colours, this.state.looks.step);
    if (this.hasInput(pane)) paintMarks(context, view, this.marks(pane).input, colours);
  }

  paintAnswer(context, /** @type {number} */ pane) {
    if (!this.hasAnswer(pane)) return;
    const piece = this.answerIn(pane) === this.state.answer ? this.state.piece : null;
    paintMarks(context, this.view, this.marks(pane).answer, this.colours, piece);
  }

  paintOver(context, /** @type {number} */ pane) {
    const { view, colours } = this;
    const { over, nodes } = this.marks(pane);
    if (this.hasInput(pane)) paintMarks(context, view, over, colours);
    if (pane === 0) this.paintHandles(context);
    else this.paintBorder(context);
    if (this.hasAnswer(pane)) paintMarks(context, view, nodes, colours);
    if (this.isCompared) paintTitle(context, view, colours, titleOf(this.answerIn(pane)));
  }

  /** The answer that a pane shows: in the second one that of the other solver, where both are shown. */
  answerIn(/** @type {number} */ pane) {
    const { answer } = this.state;
    return pane === 1 && this.isCompared ? (answer?.other ?? null) : answer;
  }

  /** Paints the lens where the pointer is, or in the middle. */
  paintLens(context) {
    const { view, hand } = this;
    const [left, top] = hand.pointer ? hand.pixels : [view.paneWidth / 2, view.height / 2];
    const pane = view.paneOf(left);
    context.save();
    context.translate(pane * view.paneWidth, 0);
    paintLens(context, view, [left - pane * view.paneWidth, top], this.answerIn(pane), this.colours);
    context.restore();
  }

  /** What is drawn now: of the input, of the answer, and over both. */
  marks(pane = 0) {
    const { state, drawing } = this;
    const answer = this.answerIn(pane);
    return {
      input: inputMarks(drawing, state.answer),
      answer: answerMarks(answer, state.looks),
      over: outlineMarks(drawing),
      nodes: nodeMarks(answer, state.looks),
    };
  }

  /** Paints the line between the panes. */
  paintBorder(context) {
    context.strokeStyle = this.colours.label;
    context.lineWidth = 1;
    context.beginPath();
    context.moveTo(0.5, 0);
    context.lineTo(0.5, this.view.height);
    context.stroke();
  }

  // ---- the hand

  /** Paints the handles of points. */
  paintHandles(context) {
    const { colours } = this;
    for (const { x, y, kind } of this.handles()) paintHandle(context, x, y, kind, colours[inkOf(kind)], colours.ground);
  }

  /** Paints the point that is taken, and a path that is begun. */
  paintHand(context) {
    const { state, colours } = this;
    const { aim, begun } = this.hand;
    if (aim) {
      const [x, y] = this.view.toPixels(aim.point[0], aim.point[1]);
      paintHandle(context, x, y, aim.place.kind, colours.accent, colours.ground, true);
    }
    const selected = state.selected && pointAt(state.figures, state.selected);
    if (selected) this.paintRing(context, ...this.view.toPixels(selected[0], selected[1]));
    if (begun) this.paintBegun(context, begun);
    if (state.cursor) this.paintCursor(context, ...this.view.toPixels(state.cursor[0], state.cursor[1]));
  }

  /** The handles in sight, or none where there are too many. */
  handles() {
    const found = [];
    const { figures } = this.drawing;
    const { paneWidth, height } = this.view;
    const [left, high] = this.view.toPoint(-HANDLE, -HANDLE);
    const right = left + (paneWidth + 2 * HANDLE) / this.view.scale;
    const low = high - (height + 2 * HANDLE) / this.view.scale;
    // (points by themselves are painted as they are)
    for (const kind of KINDS.filter((each) => each !== "point")) {
      for (const path of figures[kind]) {
        for (const point of path) {
          if (point[0] < left || point[0] > right || point[1] < low || point[1] > high) continue;
          const [x, y] = this.view.toPixels(point[0], point[1]);
          found.push({ x, y, kind });
          if (found.length > MOST_HANDLES) return [];
        }
      }
    }
    return found;
  }

  paintRing(context, x, y) {
    context.beginPath();
    context.arc(x, y, HANDLE + 5, 0, 2 * Math.PI);
    context.lineWidth = 2.5;
    context.strokeStyle = this.colours.accent;
    context.stroke();
  }

  /** Paints a path that is begun, to where the pointer or the cursor is. */
  paintBegun(context, begun) {
    const { kind, points } = begun;
    const next = this.state.cursor ?? this.hand.pointer;
    const path = next ? [...points, next] : points;
    /** @type {import("./scene.js").Mark[]} */
    const marks = [{ type: "path", colour: kind, paths: [path], width: 2 }];
    if (isClosed(kind) && path.length > 2) {
      marks.push({ type: "area", colour: kind, paths: [path], fillRule: "evenodd", strength: 0.15, width: 0 });
    }
    paintMarks(context, this.view, marks, this.colours);
    points.forEach(([x, y], at) => {
      const [left, top] = this.view.toPixels(x, y);
      paintHandle(context, left, top, kind, this.colours[inkOf(kind)], this.colours.ground, at === 0);
    });
  }

  paintCursor(context, x, y) {
    context.strokeStyle = this.colours.accent;
    context.lineWidth = 2;
    context.beginPath();
    for (const [left, top] of [[12, 0], [0, 12]]) {
      context.moveTo(x - left, y - top);
      context.lineTo(x + left, y + top);
    }
    context.stroke();
  }
}
