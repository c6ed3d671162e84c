/** A part of the board on a canvas of its own, which is painted anew only where what it shows has changed. */

export class Layer {
  constructor() {
    this.canvas = document.createElement("canvas");
    /** @type {any[]} what is shown */
    this.shown = [];
  }

  /** Paints it, unless it shows all of that already; `dense` is the device pixels in a pixel. */
  show(/** @type {any[]} */ what, { width, height, dense }, /** @type {(context: any) => void} */ paint) {
    const all = [width, height, dense, ...what];
    if (all.length === this.shown.length && all.every((each, at) => each === this.shown[at])) return;
    this.shown = all;
    const { canvas } = this;
    const [wide, high] = [Math.round(width * dense), Math.round(height * dense)];
    if (canvas.width !== wide || canvas.height !== high) Object.assign(canvas, { width: wide, height: high });
    const context = /** @type {CanvasRenderingContext2D} */ (canvas.getContext("2d"));
    context.setTransform(dense, 0, 0, dense, 0, 0);
    context.clearRect(0, 0, width, height);
    paint(context);
  }

  /** Lays it over what a canvas shows, pixel on pixel. */
  lay(/** @type {CanvasRenderingContext2D} */ context) {
    if (this.canvas.width && this.canvas.height) context.drawImage(this.canvas, 0, 0);
  }
}
