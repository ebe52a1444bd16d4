import { isMotionReduced } from "./elements.js";
import { shape } from "./drawing.js";

/** Frames in flight as dots on their ways: they rest where they are at a moment, and move on a step forward. */

/** How long a dot moves, in milliseconds. */
const STRIDE = 650;

/** The lengths of a way from its beginning to each of its points. */
function lengthsOf(points) {
  const lengths = [0];
  for (let at = 1; at < points.length; at += 1) {
    const [[x1, y1], [x2, y2]] = [points[at - 1], points[at]];
    lengths.push(lengths[at - 1] + Math.hypot(x2 - x1, y2 - y1));
  }
  return lengths;
}

/** How far along a way a height is; before its beginning that is 0, and after its end all of it. */
function lengthAt(points, lengths, y) {
  if (y < points[0][1]) return 0;
  for (let at = 1; at < points.length; at += 1) {
    const [from, to] = [points[at - 1][1], points[at][1]];
    if (y < to) return lengths[at - 1] + ((lengths[at] - lengths[at - 1]) * (y - from)) / (to - from);
  }
  return lengths.at(-1);
}

/** The point of a way so far along it. */
function pointAt(points, lengths, length) {
  const at = Math.max(1, lengths.findIndex((it) => it >= length));
  const [[x1, y1], [x2, y2]] = [points[at - 1], points[at]];
  const share = (length - lengths[at - 1]) / (lengths[at] - lengths[at - 1] || 1);
  return [x1 + (x2 - x1) * share, y1 + (y2 - y1) * share];
}

/** The points from one length of a way to another. */
function stretch(points, lengths, from, to) {
  const between = points.filter((_, at) => lengths[at] > from && lengths[at] < to);
  return [pointAt(points, lengths, from), ...between, pointAt(points, lengths, to)];
}

/** The transformation that puts a dot at a point. */
function shifted([x, y]) {
  return `translate(${x}px, ${y}px)`;
}

/** Moves a dot along some points, evenly. */
function animate(dot, points) {
  const lengths = lengthsOf(points);
  const whole = lengths.at(-1) || 1;
  const frames = points.map((point, at) => ({ transform: shifted(point), offset: Math.min(1, lengths[at] / whole) }));
  return dot.animate(frames, { duration: STRIDE, easing: "ease-in-out" });
}

/** What of a row an event has: an event of several in a row has its share of it. */
function sharesOf([first, last], place) {
  const events = last - first + 1;
  return [(place - first) / events, (place - first + 1) / events];
}

/** Puts the frames that are on their ways at a moment on a sheet, as dots; those of the step that led there move. */
export function putDots(svg, sheet, row, place, isStep) {
  const dots = shape("g", { class: "dots", "aria-hidden": "true" });
  const [begin, end] = sharesOf(row, place);
  svg.append(dots);
  for (const [ticket, points] of sheet.ways) {
    if (points.length < 2) continue;
    const lengths = lengthsOf(points);
    const from = lengthAt(points, lengths, row[2]);
    const to = lengthAt(points, lengths, row[3]);
    if (from === to) continue;
    const [here, there] = [from + (to - from) * begin, from + (to - from) * end];
    const isOver = there >= lengths.at(-1) && points.at(-1)[1] < row[3];
    const dot = putDot(dots, ticket, pointAt(points, lengths, there));
    const leave = () => { if (isOver) dot.remove(); };
    if (!isStep || isMotionReduced()) leave();
    else animate(dot, stretch(points, lengths, here, there)).finished.then(leave, leave);
  }
  return dots;
}

/** A dot for a frame, with its ticket. */
function putDot(dots, ticket, point) {
  const dot = shape("g", { class: "dot", "data-ticket": ticket });
  const title = shape("title");
  title.textContent = `frame ${ticket}`;
  dot.style.transform = shifted(point);
  dot.append(title, shape("circle", { r: 6 }));
  dots.append(dot);
  return dot;
}
