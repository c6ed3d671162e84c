/**
 * The colours of the page's theme, which `theme.css` and `dark.css` state, by the names of the marks. In the light
 * theme they are those of the pictures of `python3 -m polyover svg`. Strokes and points have a contrast of 4.5 with the
 * ground.
 */

const NAMES = [
  "subject",
  "clip",
  "clip-ink",
  "answer",
  "answer-ink",
  "line",
  "point",
  "inside",
  "inside-ink",
  "boundary",
  "boundary-ink",
  "outside",
  "edge",
  "before",
  "node",
  "ground",
  "grid",
  "axis",
  "label",
  "accent",
];

/** The name of the colour in which a mark is stroked, or a point painted: a darker one where that of areas is pale. */
export const inkOf = (/** @type {string} */ name) => (NAMES.includes(`${name}-ink`) ? `${name}-ink` : name);

/** @returns {Record<string, string>} the colours of the theme that is shown */
export function coloursOf(/** @type {Element} */ element) {
  const style = getComputedStyle(element);
  return Object.fromEntries(NAMES.map((name) => [name, style.getPropertyValue(`--${name}`).trim()]));
}

/** The colours of pictures that are saved: those of the light theme. */
export const PRINTED = {
  subject: "#3b6fb6",
  clip: "#d9822b",
  answer: "#2e8b57",
  line: "#7a4fa3",
  point: "#111111",
  inside: "#2e8b57",
  boundary: "#c9a227",
  outside: "#b03a3a",
  edge: "#444444",
  before: "#c02d78",
  node: "#111111",
};
