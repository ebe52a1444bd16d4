import { byId, counted, isMotionReduced, make } from "./elements.js";
import { drawnSheet, ruleMark } from "./drawing.js";
import { putDots } from "./motion.js";

/** The chart of a branch in its scrolling box, where only the sheets near what is seen are in the document. */

/** How wide a unit of the drawing is at least, in the sizes of letters: narrower boxes scroll. */
const LEAST_UNIT = 0.0485;
/** How far beyond the box sheets are kept, in heights of the box. */
const NEAR = 1.5;

/** The place of the last of these for which the test holds; those for which it holds come first. */
function lastWhere(list, test) {
  let low = 0;
  let high = list.length;
  while (low < high) {
    const middle = (low + high) >> 1;
    if (test(list[middle])) low = middle + 1;
    else high = middle;
  }
  return low - 1;
}

/** What stands at the heads of the lanes. */
export function laneHeads({ width, lanes, heads }) {
  return ["a", "b"].map((node) => {
    const head = make("span", { class: "lane-head" }, heads[node]);
    head.style.left = `${(100 * lanes[node]) / width}%`;
    return head;
  });
}

/** What the chart is, in words. */
export function alternativeOf({ name, moments }) {
  return `Chart of ${name} with ${counted(moments.length, "event")}; the list of its events says the same in words`;
}

/** Shows the chart, and marks the row of the moment. */
export class ChartView {
  constructor(viewer) {
    this.viewer = viewer;
    this.box = byId("chart");
    this.heads = make("div", { class: "heads", "aria-hidden": "true" });
    this.canvas = make("div", { class: "canvas", role: "img" });
    this.roll = make("div", { class: "roll" }, this.heads, this.canvas);
    this.box.append(this.roll);
    this.sheets = new Map();
    // The sheet and the row of the moment, and the dots of the frames on it.
    this.now = null;
    this.dots = null;
    this.width = 0;
    this.box.addEventListener("scroll", () => this.refresh(), { passive: true });
    this.box.addEventListener("click", (event) => this.click(event));
    new ResizeObserver(() => this.resize()).observe(this.box);
    viewer.listen((move) => this.move(move));
    this.renew();
  }

  /** The chart of the branch. */
  get chart() {
    return this.viewer.branch.chart;
  }

  /** How many pixels a unit of the drawing has. */
  get scale() {
    return this.canvas.clientWidth / this.chart.width;
  }

  /** Begins with another chart; sheets that it has in common with the one before stay. */
  renew() {
    const { width, height, lanes, heads } = this.chart;
    this.roll.style.minWidth = `${width * LEAST_UNIT}rem`;
    this.canvas.style.aspectRatio = `${width} / ${Math.max(1, height)}`;
    this.heads.replaceChildren(...laneHeads(this.chart));
    this.canvas.setAttribute("aria-label", alternativeOf(this.viewer.branch));
    this.refresh();
  }

  /** Follows a move of the viewer. */
  move({ isNewBranch, isNewChart, isStep }) {
    if (isNewChart) this.renew();
    if (isNewBranch) this.box.scrollTop = 0;
    this.mark(isStep);
  }

  /** Follows a change of the box's size; in another width the row of the moment has another place. */
  resize() {
    this.refresh();
    if (this.now && this.box.clientWidth !== this.width) this.bring(this.now, false);
    this.width = this.box.clientWidth;
  }

  /** Puts the sheets near the box's view into the document, and takes the others out. */
  refresh() {
    const { sheets } = this.chart;
    if (!this.scale) return;
    const view = this.box.clientHeight / this.scale;
    const top = this.box.scrollTop / this.scale - NEAR * view;
    const first = Math.max(0, lastWhere(sheets, (sheet) => sheet.top <= top));
    const last = lastWhere(sheets, (sheet) => sheet.top < top + (2 * NEAR + 1) * view);
    const wanted = new Set(sheets.slice(first, last + 1));
    for (const [sheet, svg] of this.sheets) {
      if (wanted.has(sheet)) continue;
      svg.remove();
      this.sheets.delete(sheet);
    }
    for (const sheet of wanted) this.put(sheet);
  }

  /** Puts a sheet into the document, where it is not there yet, at its place. */
  put(sheet) {
    const { width, height } = this.chart;
    const svg = this.sheets.get(sheet) ?? this.drawn(sheet, width);
    svg.style.top = `${(100 * sheet.top) / height}%`;
    svg.style.height = `${(100 * sheet.height) / height}%`;
    if (this.sheets.has(sheet)) return;
    this.sheets.set(sheet, svg);
    this.canvas.append(svg);
    if (this.now?.sheet === sheet) this.showNow(false);
  }

  /** A sheet as it is drawn, with a mark at each row whose event comes to something else by other rules. */
  drawn(sheet, width) {
    const { moments } = this.viewer.branch;
    const svg = drawnSheet(sheet, width);
    for (const row of sheet.rows) {
      const rules = moments.slice(row[0] - 1, row[1]).flatMap((moment) => moment.rules ?? []);
      if (rules.length) svg.append(ruleMark(row, width, rules.join("; ")));
    }
    return svg;
  }

  /** The sheet and the row of a moment, if it has one. */
  found(place) {
    const { sheets } = this.chart;
    const at = lastWhere(sheets, (sheet) => sheet.rows.length > 0 && sheet.rows[0][0] <= place);
    if (at < 0) return null;
    const row = sheets[at].rows.find(([first, last]) => first <= place && place <= last);
    return row ? { sheet: sheets[at], row } : null;
  }

  /** Marks the row of the moment, and brings it into sight. */
  mark(isStep) {
    this.now = this.found(this.viewer.place);
    if (this.now) this.bring(this.now, isStep);
    else this.box.scrollTop = 0;
    this.refresh();
    this.showNow(isStep);
  }

  /** Gives the row of the moment its mark, and the frames that are on their ways their dots. */
  showNow(isStep) {
    for (const row of this.canvas.querySelectorAll(".row.now")) row.classList.remove("now");
    this.dots?.remove();
    this.dots = null;
    const svg = this.now && this.sheets.get(this.now.sheet);
    if (!svg) return;
    const { sheet, row } = this.now;
    svg.querySelector(`[data-first="${Number(row[0])}"]`)?.classList.add("now");
    this.dots = putDots(svg, sheet, row, this.viewer.place, isStep);
  }

  /** Scrolls the box so that a row is seen, and of a chart that is wider than it the side where something happens. */
  bring({ sheet, row }, isStep) {
    const { scale, box } = this;
    const top = (sheet.top + row[2]) * scale;
    const isLast = row === this.chart.sheets.at(-1)?.rows.at(-1);
    const bottom = isLast ? this.chart.height * scale : (sheet.top + row[3]) * scale;
    const room = box.clientHeight - this.heads.offsetHeight;
    const isSeen = top >= box.scrollTop + 8 && bottom <= box.scrollTop + room;
    const left = box.scrollWidth > box.clientWidth + 1 ? this.sideward() : 0;
    if (isSeen && left === box.scrollLeft) return;
    const wanted = isSeen ? box.scrollTop : isLast ? box.scrollHeight : Math.max(0, top - room * 0.4);
    box.scrollTo({ top: wanted, left, behavior: isStep && !isMotionReduced() ? "smooth" : "auto" });
  }

  /** How far to the side the box is scrolled for the event of this moment. */
  sideward() {
    const room = this.box.scrollWidth - this.box.clientWidth;
    const node = this.viewer.moment.event.split(" ")[1];
    return node === "a" ? 0 : node === "b" ? room : room / 2;
  }

  /** Goes to the row that was clicked. */
  click(event) {
    const row = event.target.closest("[data-last]");
    if (row) this.viewer.go(Number(row.dataset.last));
  }
}
