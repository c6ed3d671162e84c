/** The light and the dark theme: that of the system, or the one that is chosen, which is kept. */

import { byId } from "./page.js";

const KEY = "polyover-theme";
/** The styles of the dark theme; `media` says where they are shown, and in `index.html` that is where the system is. */
const dark = /** @type {HTMLLinkElement} */ (byId("dark"));
const system = window.matchMedia(dark.media);

/** What was chosen, or null. Where nothing may be kept, nothing was. */
function kept() {
  try {
    return localStorage.getItem(KEY);
  } catch {
    return null;
  }
}

/** The theme that is shown: "light" or "dark". */
export const themeNow = () => (window.matchMedia(dark.media).matches ? "dark" : "light");

/** Shows a theme, whatever that of the system is. */
function show(/** @type {string | null} */ theme) {
  if (theme === "dark") dark.media = "all";
  if (theme === "light") dark.media = "not all";
}

/**
 * Shows the theme that was chosen before, and calls `changed` after each change: of the system, and once the styles of
 * a chosen theme hold, which in WebKit is later than their `media` is set.
 */
export function beginTheme(/** @type {() => void} */ changed) {
  show(kept());
  system.addEventListener("change", changed);
  dark.addEventListener("load", changed);
}

/** Shows the other theme. */
export function switchTheme() {
  const next = themeNow() === "dark" ? "light" : "dark";
  show(next);
  try {
    localStorage.setItem(KEY, next);
  } catch {
    // (it is shown, and not kept)
  }
}
