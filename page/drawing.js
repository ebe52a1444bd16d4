/** Pieces of the chart as elements of SVG. Only what belongs to a drawing is made, whatever the data asks for. */

const SVG = "http://www.w3.org/2000/svg";
const SHAPES = new Set(["rect", "line", "polyline", "polygon", "circle", "ellipse", "path", "text"]);
const PLAIN_ATTRIBUTES = new Set([
  "x", "y", "x1", "y1", "x2", "y2", "width", "height", "rx", "ry", "cx", "cy", "r", "points", "d",
  "stroke-width", "stroke-dasharray", "stroke-linejoin", "stroke-linecap", "font-size", "text-anchor", "opacity",
]);
const COLOURS = new Set(["ink", "faint", "band", "frame", "good", "bad", "note", "paper", "none"]);

/** A new element of SVG with its attributes. */
export function shape(name, attributes = {}) {
  const element = document.createElementNS(SVG, name);
  for (const [key, value] of Object.entries(attributes)) element.setAttribute(key, value);
  return element;
}

/** The class of a colour by its name; that of ink for any other. */
function coloured(which, name) {
  return `${which}-${COLOURS.has(name) ? name : "ink"}`;
}

/** The words of a text, each piece in its colour. */
function spans(pieces) {
  return pieces.flatMap(([text, tone, isBold], at) => {
    const span = shape("tspan", { class: `${coloured("fill", tone)}${isBold ? " bold" : ""}` });
    span.textContent = text;
    return at ? [" ", span] : [span];
  });
}

/** An element of the chart. */
function drawn([name, attributes, pieces]) {
  const element = shape(name);
  for (const [key, value] of Object.entries(attributes)) {
    if (key === "fill" || key === "stroke") element.classList.add(coloured(key, value));
    else if (PLAIN_ATTRIBUTES.has(key)) element.setAttribute(key, value);
  }
  if (name === "text") element.append(...spans(pieces ?? []));
  return element;
}

/** Whether an element of the data is one of a drawing. */
function isShape([name]) {
  return SHAPES.has(name);
}

/** A row of a sheet, which lies below what is drawn in it. */
function rowArea([first, last, top, bottom], width) {
  const events = { "data-first": first, "data-last": last };
  return shape("rect", { class: "row", ...events, x: 0, y: top, width, height: bottom - top });
}

/** A sheet of the chart: first the grounds of its rows, then the rows themselves, then what is drawn. */
export function drawnSheet(sheet, width) {
  const view = { viewBox: `0 0 ${width} ${sheet.height}`, preserveAspectRatio: "none" };
  const svg = shape("svg", { class: "sheet", ...view, "aria-hidden": "true" });
  const elements = sheet.elements.filter(isShape);
  const grounds = elements.findIndex(([name]) => name !== "rect");
  const place = grounds < 0 ? elements.length : grounds;
  svg.append(...elements.slice(0, place).map(drawn), ...sheet.rows.map((row) => rowArea(row, width)),
    ...elements.slice(place).map(drawn));
  return svg;
}

/** The mark of a row whose event comes to something else by other rules, and what that is. */
export function ruleMark([first, last, top], width, text) {
  const mark = shape("text", { class: "rule-mark", "data-last": last, x: width - 4, y: top + 15, "text-anchor": "end" });
  const title = shape("title");
  mark.textContent = "k";
  title.textContent = `event ${last === first ? first : `${first} to ${last}`}, ${text}`;
  mark.append(title);
  return mark;
}

/** From where to where an element of a sheet reaches downwards. */
function reach([name, attributes]) {
  const numbers = ["y", "y1", "y2", "cy"].filter((key) => key in attributes).map((key) => Number(attributes[key]));
  if ("points" in attributes) {
    const places = String(attributes.points).trim().split(/[\s,]+/).map(Number);
    numbers.push(...places.filter((_, at) => at % 2));
  }
  if (name === "path") return [-Infinity, Infinity];
  const more = Number(attributes.height ?? attributes.r ?? 16);
  return [Math.min(...numbers) - (name === "rect" ? 0 : more), Math.max(...numbers) + more];
}

/** A slice of a sheet from one height to another, for print, where a page must not end within a row. */
export function drawnSlice(sheet, width, top, bottom) {
  const within = ([low, high]) => high > top && low < bottom;
  const svg = shape("svg", { class: "slice", "aria-hidden": "true", viewBox: `0 ${top} ${width} ${bottom - top}` });
  svg.append(...sheet.elements.filter(isShape).filter((it) => within(reach(it))).map(drawn));
  return svg;
}
