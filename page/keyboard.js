import { byId } from "./elements.js";

/** The keys of the page: those of the slider and the chart, when one of them has the focus, and single-key shortcuts, which can be off. */

/** Where it is kept that the shortcuts are off, for as long as the page is open in its tab. */
const KEPT_OFF = "pfl-lab-shortcuts-off";

/** Whether the shortcuts were turned off on this page; where nothing can be kept, they are on. */
function wereOff() {
  try {
    return sessionStorage.getItem(KEPT_OFF) !== null;
  } catch {
    return false;
  }
}

/** Keeps whether they are off, where that is allowed. */
function keepOff(areOff) {
  try {
    if (areOff) sessionStorage.setItem(KEPT_OFF, "");
    else sessionStorage.removeItem(KEPT_OFF);
  } catch {
    // (then they are on again when the page is loaded anew)
  }
}

/** Whether an element takes characters itself. */
function isField(element) {
  return element.matches("textarea, select, [contenteditable], input:not([type=range], [type=checkbox], [type=radio])");
}

/** Whether the chart is wider than its box, so that arrows move it. */
function isWide(chart) {
  return chart.scrollWidth > chart.clientWidth + 1;
}

/** Whether a key is held with another one that makes it the browser's. */
function isBrowsers(event) {
  return event.ctrlKey || event.altKey || event.metaKey || event.defaultPrevented;
}

/** The next event that comes to something else by other rules, or this one if there is none after it. */
function nextMarked({ branch, place }) {
  const at = branch.moments.findIndex(({ rules }, before) => rules && before >= place);
  return at < 0 ? place : at + 1;
}

/** What the keys of the slider and the chart do. */
function movesOf(viewer, controls) {
  const by = (number) => () => controls.go(viewer.place + number);
  return {
    ArrowLeft: by(-1), ArrowRight: by(1), PageUp: by(-10), PageDown: by(10),
    Home: () => controls.go(0), End: () => controls.go(viewer.newest), " ": () => controls.turn(),
  };
}

/** What the single-key shortcuts do. */
function shortcutsOf(viewer, controls) {
  const turn = (number) => () => {
    controls.pause();
    viewer.turn(number);
  };
  return {
    "[": turn(-1), "]": turn(1), k: () => controls.go(nextMarked(viewer)),
    "/": () => byId("search").focus(), "?": () => byId("keys").showModal(),
  };
}

/** Has an element take keys when it has the focus, except those that it leaves to the browser. */
function takeKeys(element, keys, leaves = () => false) {
  element.addEventListener("keydown", (event) => {
    if (isBrowsers(event) || !Object.hasOwn(keys, event.key) || leaves(event.key)) return;
    event.preventDefault();
    keys[event.key]();
  });
}

/** Listens to the shortcuts wherever the focus is, unless a field takes them, or they are off. */
function takeShortcuts(shortcuts) {
  const areOn = byId("shortcuts");
  areOn.checked = !wereOff();
  areOn.addEventListener("change", () => keepOff(!areOn.checked));
  document.addEventListener("keydown", (event) => {
    const target = document.activeElement ?? document.body;
    if (!areOn.checked || isBrowsers(event) || byId("keys").open || isField(target) || !Object.hasOwn(shortcuts, event.key)) return;
    event.preventDefault();
    shortcuts[event.key]();
  });
}

/** Listens to the keys. */
export function listenToKeys(viewer, controls) {
  const moves = movesOf(viewer, controls);
  const chart = byId("chart");
  takeKeys(byId("slider"), moves);
  takeKeys(chart, { ...moves, ArrowUp: moves.ArrowLeft, ArrowDown: moves.ArrowRight },
    (key) => isWide(chart) && (key === "ArrowLeft" || key === "ArrowRight"));
  takeShortcuts(shortcutsOf(viewer, controls));
  byId("help").addEventListener("click", () => byId("keys").showModal());
  byId("search").addEventListener("keydown", (event) => {
    if (event.key === "Escape" && !byId("search").value) byId("slider").focus();
  });
}
