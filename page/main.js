import { byId } from "./elements.js";
import { Viewer } from "./viewer.js";
import { Controls } from "./controls.js";
import { Story } from "./story.js";
import { ChartView } from "./chart.js";
import { EventList } from "./events.js";
import { Tables } from "./tables.js";
import { Panels } from "./panels.js";
import { followAddress } from "./address.js";
import { listenToKeys } from "./keyboard.js";
import { prepareHandout } from "./handout.js";
import { Live } from "./live.js";
import { announceEvents } from "./announcer.js";

/** How much room stays above the controls where only they stay in sight, in pixels. */
const CONTROLS_ROOM = 6;
/** How much of the window the top may take at most to stay in sight. */
const MOST_TOP = 0.4;

/** What is said of the rules that the pair goes by. */
const RULES = "Whose rules apply to the pair. An event has the mark k if other rules give it a different outcome.";

/** In windows as narrow as this only the controls stay in sight, and what is above them scrolls away. */
const NARROW = matchMedia("(max-width: 42em)");

/** Has the top stay in sight where it leaves room enough, and says how high it is, and how much of that scrolls away. */
function measureTop() {
  const top = byId("top");
  const above = NARROW.matches ? byId("controls").offsetTop - CONTROLS_ROOM : 0;
  const height = top.offsetHeight - above;
  const isTall = height > innerHeight * MOST_TOP;
  top.classList.toggle("tall", isTall);
  document.documentElement.style.setProperty("--top", isTall ? "0px" : `${height}px`);
  document.documentElement.style.setProperty("--above", `${above}px`);
}

/** Begins: reads the data, and puts the parts of the page together. */
function begin() {
  const run = JSON.parse(byId("run").textContent);
  const viewer = new Viewer(run);
  byId("title").textContent = run.title;
  byId("by").textContent = run.by;
  byId("by").title = RULES;
  const controls = new Controls(viewer);
  new Story(viewer);
  new ChartView(viewer);
  new EventList(viewer, controls);
  new Tables(viewer);
  new Panels(viewer);
  listenToKeys(viewer, controls);
  prepareHandout(viewer);
  if (run.live) new Live(viewer, controls);
  byId("skip").addEventListener("click", () => byId("moment").focus());
  new ResizeObserver(measureTop).observe(byId("top"));
  followAddress(viewer);
  announceEvents(viewer);
}

begin();
