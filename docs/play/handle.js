/** Handles of points: those of each kind have a shape of their own. */

/** How far the border of a handle is from its point, in pixels. */
export const HANDLE = 4.5;
/** By how much the corners of a triangle are further away. */
const TALL = 1.35;

/** Adds the border of a handle to what is painted: a circle, a square or a triangle. */
function border(context, x, y, /** @type {string} */ kind, /** @type {number} */ size) {
  if (kind === "clip") return context.rect(x - 0.9 * size, y - 0.9 * size, 1.8 * size, 1.8 * size);
  if (kind !== "line") return context.arc(x, y, size, 0, 2 * Math.PI);
  const far = TALL * size;
  context.moveTo(x, y - far);
  context.lineTo(x + far, y + 0.7 * far);
  context.lineTo(x - far, y + 0.7 * far);
  context.closePath();
}

/** Paints a handle in a colour, empty; larger where it is aimed at. */
export function paintHandle(context, x, y, /** @type {string} */ kind, colour, ground, isAim = false) {
  context.beginPath();
  border(context, x, y, kind, isAim ? HANDLE + 1.5 : HANDLE);
  context.fillStyle = ground;
  context.fill();
  context.lineWidth = isAim ? 2.5 : 1.8;
  context.strokeStyle = colour;
  context.stroke();
}
