/** The keyboard: tools and steps back anywhere, and on the board points without a pointer. */

import { KINDS, addPoint, deletePath, deletePoint, movePoint, pointAt, whole } from "./drawing.js";

const ARROWS = { ArrowLeft: [-1, 0], ArrowRight: [1, 0], ArrowUp: [0, 1], ArrowDown: [0, -1] };
const TOOLS = { e: "edit", d: "draw", x: "delete" };

/** A point in words. */
const inWords = (point) => `(${point.join(", ")})`;

/** A path in words: its kind, and its number among those of that kind. */
const pathInWords = (figures, { kind, path }) => `${kind} ${path + 1} of ${figures[kind].length}.`;

/** A point in words: its path, its number there, and where it lies. */
function placeInWords(figures, /** @type {import("./drawing.js").Place} */ place) {
  const points = figures[place.kind][place.path];
  const path = `${place.kind} ${place.path + 1} of ${figures[place.kind].length}`;
  return `${path}, point ${place.at + 1} of ${points.length}: ${inWords(points[place.at])}.`;
}

export class Keys {
  /** Has `say` called with what a key did, in words. */
  constructor(/** @type {import("./hand.js").Hand} */ hand, /** @type {(text: string) => void} */ say = () => {}) {
    this.hand = hand;
    this.say = say;
    this.board = hand.board;
    this.state = hand.state;
    this.board.canvas.addEventListener("keydown", (event) => this.onBoard(event));
    document.addEventListener("keydown", (event) => this.anywhere(event));
  }

  /** Undoes a step, or takes back a point of the path that is begun. */
  undo() {
    if (!this.hand.takeBack()) this.state.travel("undo");
  }

  /** Makes a step again, or puts back a point of the path that is begun. */
  redo() {
    if (!this.hand.putBack()) this.state.travel("redo");
  }

  /** Takes a key wherever it is pressed, but in a field. */
  anywhere(/** @type {KeyboardEvent} */ event) {
    const target = /** @type {HTMLElement} */ (event.target);
    if (target.matches("input:not([type=checkbox]):not([type=radio]), textarea")) return;
    const isControl = event.ctrlKey || event.metaKey;
    const key = event.key.toLowerCase();
    if (isControl && (key === "z" || key === "y")) {
      const isRedo = key === "y" || event.shiftKey;
      if (isRedo) this.redo();
      else this.undo();
      this.say(isRedo ? "Redone." : "Undone.");
      event.preventDefault();
    }
  }

  /** Takes a key that is pressed on the board. */
  onBoard(/** @type {KeyboardEvent} */ event) {
    if (event.ctrlKey || event.metaKey || event.altKey) return;
    const { state } = this;
    const key = event.key.length === 1 ? event.key.toLowerCase() : event.key;
    if (ARROWS[key]) this.arrow(ARROWS[key], event.shiftKey ? 10 : 1);
    else if (TOOLS[key]) {
      state.take({ tool: TOOLS[key], cursor: null });
      this.say(`Tool: ${state.tool}.`);
    } else if (key >= "1" && key <= "4") {
      state.take({ tool: "draw", kind: KINDS[Number(key) - 1] });
      this.say(`Draw: ${state.kind}.`);
    } else if (!this.isTaken(key)) return;
    event.preventDefault();
  }

  /** Does what a key stands for. Returns whether it stands for anything. */
  isTaken(/** @type {string} */ key) {
    const doing = {
      "+": () => this.zoom(1.25),
      "=": () => this.zoom(1.25),
      "-": () => this.zoom(0.8),
      0: () => this.board.fit(),
      n: () => this.select(1),
      p: () => this.select(-1),
      i: () => this.insert(),
      Delete: () => this.remove(false),
      Backspace: () => this.remove(true),
      " ": () => this.put(),
      Enter: () => this.finish(),
      Escape: () => this.escape(),
    }[key];
    doing?.();
    return Boolean(doing);
  }

  zoom(/** @type {number} */ factor) {
    this.board.view.zoom(factor);
    this.board.draw();
  }

  /** Moves the cursor that draws, or the selected point, or what is seen. */
  arrow([x, y], /** @type {number} */ times) {
    const { state, board } = this;
    const by = state.looks.step * times;
    if (state.tool === "draw") {
      const middle = [Math.round(board.view.x), Math.round(board.view.y)];
      const from = state.cursor ?? board.hand.begun?.points.at(-1) ?? middle;
      state.take({ cursor: [whole(from[0] + x * by), whole(from[1] + y * by)] });
      this.say(`Cross at ${inWords(state.cursor)}.`);
      return;
    }
    const point = state.selected && pointAt(state.figures, state.selected);
    if (state.selected && point) {
      const next = [whole(point[0] + x * by), whole(point[1] + y * by)];
      state.step({ figures: movePoint(state.figures, state.selected, /** @type {any} */ (next)) });
      this.say(`Moved to ${inWords(next)}.`);
    } else {
      board.view.pan(-x * 40 * times, y * 40 * times);
      board.draw();
    }
  }

  /** Selects the next point, or the one before: of all paths, in their order. */
  select(/** @type {number} */ by) {
    const { figures, selected } = this.state;
    const places = KINDS.flatMap((kind) =>
      figures[kind].flatMap((points, path) => points.map((_, at) => ({ kind, path, at }))),
    );
    if (!places.length) return;
    const now = places.findIndex(
      (each) => selected && each.kind === selected.kind && each.path === selected.path && each.at === selected.at,
    );
    const next = now < 0 ? (by > 0 ? 0 : places.length - 1) : (now + by + places.length) % places.length;
    this.state.take({ tool: "edit", selected: places[next] });
    this.say(placeInWords(figures, places[next]));
  }

  /** Adds a point between the selected one and the one before it. */
  insert() {
    const { selected, figures } = this.state;
    const path = selected && figures[selected.kind][selected.path];
    if (!selected || !path || selected.kind === "point") return;
    const [[ax, ay], [bx, by]] = [path.at(selected.at - 1), path[selected.at]];
    const point = /** @type {import("./drawing.js").Point} */ ([whole((ax + bx) / 2), whole((ay + by) / 2)]);
    this.state.step({ figures: addPoint(figures, selected, point) });
    this.say(`Added: ${placeInWords(this.state.figures, selected)}`);
  }

  /** Deletes the selected point, or its path. */
  remove(/** @type {boolean} */ isWhole) {
    const { selected, figures } = this.state;
    if (!selected || !pointAt(figures, selected)) return;
    this.say(`Deleted: ${isWhole ? pathInWords(figures, selected) : placeInWords(figures, selected)}`);
    this.state.take({ selected: null });
    this.state.step({ figures: (isWhole ? deletePath : deletePoint)(figures, selected) });
  }

  /** Puts a point where the cursor is. */
  put() {
    const { cursor, tool } = this.state;
    if (tool !== "draw" || !cursor) return;
    this.hand.place({ x: cursor[0], y: cursor[1], reach: 0.1 });
    const { begun } = this.board.hand;
    this.say(begun ? `Point ${begun.points.length} of a ${begun.kind} at ${inWords(cursor)}.` : "Put.");
  }

  /** Ends the path that is begun. */
  finish() {
    const { begun } = this.board.hand;
    this.hand.finish();
    const isTaken = begun && begun.points.length >= (begun.kind === "line" ? 2 : 3);
    const done = isTaken ? `Finished: ${begun.kind} of ${begun.points.length} points.` : "Too few points: dropped.";
    if (begun) this.say(done);
  }

  /** Drops the path that is begun, the cursor and what is selected. */
  escape() {
    this.hand.drop();
    this.state.take({ selected: null, cursor: null });
  }
}
