/**
 * Writes the marks of a scene as a picture, in the size in which it is seen, with a legend as the pictures of
 * `python3 -m polyover svg` have it.
 */

import { PRINTED } from "./palette.js";
import { legendOf } from "./scene.js";
import { DASHES, PATH_DASHES, shapeOf, tickOf } from "./signs.js";
import { gridStep, multiples } from "./view.js";

const LEGEND = 190;
const TICK = 5;
/** How many letters of the title stand in a line. */
const TITLE = 26;

const rounded = (/** @type {number} */ value) => Math.round(value * 100) / 100;
const escaped = (/** @type {string} */ text) =>
  text.replaceAll("&", "&amp;").replaceAll("<", "&lt;").replaceAll(">", "&gt;").replaceAll('"', "&quot;");

/** The way of a path through the picture. */
const wayOf = (view, path) =>
  path.map(([x, y], at) => `${at ? "L" : "M"}${view.toPixels(x, y).map(rounded).join(" ")}`).join("");

/** How each type of mark is written, by its colour. */
const WRITTEN = {
  area: (view, mark, colour) =>
    `<path d="${mark.paths.map((path) => `${wayOf(view, path)}Z`).join("")}" fill="${colour}" ` +
    `fill-opacity="${mark.strength}" fill-rule="${mark.fillRule}" stroke="${mark.width ? colour : "none"}" ` +
    `stroke-width="${mark.width}" stroke-linejoin="round"/>`,
  outline: (view, mark, colour) => {
    const dashes = mark.dashed ? dashed(DASHES[mark.colour] ?? DASHES.subject) : "";
    return each(mark, (path) => `<path d="${wayOf(view, path)}Z" fill="none" stroke="${colour}"${dashes}/>`);
  },
  path: (view, mark, colour) => {
    const words = `fill="none" stroke="${colour}" stroke-width="${mark.width}"${dashed(PATH_DASHES[mark.colour])}`;
    return each(mark, (path) => `<path d="${wayOf(view, path)}" ${words}/>`);
  },
  dot: (view, mark, colour) =>
    each(mark, ([[x, y]]) => dot(...view.toPixels(x, y), mark.width ?? 3.5, shapeOf(mark.colour), colour)),
  ring: (view, mark, colour) => each(mark, ([point]) => circle(view, point, 5, `fill="none" stroke="${colour}"`)),
  hop: (view, mark, colour) =>
    each(mark, (path) => `<path d="${wayOf(view, path)}" stroke="${colour}" stroke-dasharray="2 2"/>`),
  tick: (view, mark, colour) =>
    each(mark, (path) => {
      const { place, way, foot } = tickOf(view, mark, path, TICK);
      const end = [0, 1].map((at) => place[at] + way[at] - foot[at]);
      const lines = [[...place, ...way], ...(foot[0] || foot[1] ? [[...end, 2 * foot[0], 2 * foot[1]]] : [])];
      const ways = lines.map((line) => line.map(rounded)).map(([x, y, u, v]) => `M${x} ${y}l${u} ${v}`);
      return `<path d="${ways.join("")}" stroke="${colour}" stroke-width="2.4"/>`;
    }),
};

const each = (mark, write) => mark.paths.filter((path) => path.length).map(write).join("");

/** What says of a line that it is dashed, where it is. */
const dashed = (/** @type {number[] | undefined} */ dashes) =>
  dashes ? ` stroke-dasharray="${dashes.join(" ")}"` : "";

/** A point of a shape. */
function dot(x, y, /** @type {number} */ size, /** @type {string} */ shape, /** @type {string} */ colour) {
  const [left, top] = [x, y].map(rounded);
  if (shape === "square") {
    return `<rect x="${left - size}" y="${top - size}" width="${2 * size}" height="${2 * size}" fill="${colour}"/>`;
  }
  if (shape === "disc") return `<circle cx="${left}" cy="${top}" r="${size}" fill="${colour}"/>`;
  const ways = [-1, 1].map((way) => `M${left - size} ${top - way * size}l${2 * size} ${2 * way * size}`);
  return `<path d="${ways.join("")}" stroke="${colour}" stroke-width="2.4"/>`;
}

function circle(view, point, radius, paint) {
  const [left, top] = view.toPixels(point[0], point[1]).map(rounded);
  return `<circle cx="${left}" cy="${top}" r="${radius}" ${paint}/>`;
}

/** The lines of the grid, and their coordinates. */
function gridOf(view) {
  const [left, high] = view.toPoint(0, 0);
  const right = left + view.paneWidth / view.scale;
  const low = high - view.height / view.scale;
  const step = gridStep(view.scale, 50);
  const uprights = multiples(left, right, step).map((x) => {
    const at = rounded(view.toPixels(x, 0)[0]);
    const label = `<text stroke="none" x="${at}" y="${view.height - 6}" text-anchor="middle">${x}</text>`;
    return `<path d="M${at} 0V${view.height}"/>${label}`;
  });
  const levels = multiples(low, high, step).map((y) => {
    const at = rounded(view.toPixels(0, y)[1]);
    return `<path d="M0 ${at}H${view.paneWidth}"/><text stroke="none" x="4" y="${at - 3}">${y}</text>`;
  });
  return `<g stroke="#dddddd" stroke-width="1" fill="#666666">${[...uprights, ...levels].join("")}</g>`;
}

/** The words of a text in lines that stand beside the picture. */
function wrapped(/** @type {string} */ text) {
  return text.split(" ").reduce((lines, word) => {
    const last = lines.at(-1);
    if (last !== undefined && last.length + word.length < TITLE) return [...lines.slice(0, -1), `${last} ${word}`];
    return [...lines, word];
  }, /** @type {string[]} */ ([]));
}

/** The title, and what each colour stands for. */
function legend(view, title, marks) {
  const x = view.paneWidth + 12;
  const titles = wrapped(title).map(
    (line, at) => `<text x="${x}" y="${46 + 14 * at}" font-weight="bold">${escaped(line)}</text>`,
  );
  const lines = legendOf(marks).map(([name, kind], at) => {
    const y = 46 + 14 * (titles.length - 1) + 20 * (at + 1);
    const colour = PRINTED[name];
    const sign = {
      area:
        `<rect x="${x}" y="${y - 9}" width="14" height="10" fill="${colour}" fill-opacity="0.5" ` +
        `stroke="${colour}"/>`,
      path: `<path d="M${x} ${y - 4}h14" stroke="${colour}" stroke-width="2"${dashed(PATH_DASHES[name])}/>`,
      dot: dot(x + 7, y - 4, 3.5, shapeOf(name), colour),
    }[kind];
    return `${sign}<text x="${x + 22}" y="${y}">${name}</text>`;
  });
  return [...titles, ...lines].join("\n");
}

/** The text of a picture of some marks. */
export function svgOf(/** @type {import("./scene.js").Mark[]} */ marks, view, /** @type {string} */ title) {
  const wide = view.paneWidth + LEGEND;
  return [
    `<svg xmlns="http://www.w3.org/2000/svg" width="${wide}" height="${view.height}" ` +
      `viewBox="0 0 ${wide} ${view.height}" font-family="sans-serif" font-size="11">`,
    `<title>${escaped(title)}</title>`,
    `<rect width="${wide}" height="${view.height}" fill="#ffffff"/>`,
    `<clipPath id="pane"><rect width="${view.paneWidth}" height="${view.height}"/></clipPath>`,
    '<g clip-path="url(#pane)">',
    gridOf(view),
    ...marks.map((mark) => WRITTEN[mark.type](view, mark, PRINTED[mark.colour])),
    "</g>",
    legend(view, title, marks),
    "</svg>",
    "",
  ].join("\n");
}
