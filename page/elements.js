/** Making elements. Texts from the data go into text nodes and attributes alone, and never become markup. */

/** The element of the template with this id. */
export function byId(id) {
  return document.getElementById(id);
}

/** A new element with its attributes, and its children: elements, or texts. */
export function make(name, attributes = {}, ...children) {
  const element = document.createElement(name);
  for (const [key, value] of Object.entries(attributes)) {
    if (value !== null && value !== false) element.setAttribute(key, value);
  }
  element.append(...children);
  return element;
}

/** A new button with its text, its attributes, and what it does. */
export function makeButton(text, attributes, action) {
  const button = make("button", { type: "button", ...attributes }, text);
  button.addEventListener("click", action);
  return button;
}

/** Code between backticks, or an event by its number. */
const MARKED = /`([^`]+)`|\bevent (\d+)\b/g;

/** A text as nodes, in which what stands between backticks is code, and an event a link if there is an address for it. */
export function worded(text, addressOf = () => null) {
  const nodes = [];
  let end = 0;
  for (const found of text.matchAll(MARKED)) {
    nodes.push(text.slice(end, found.index), wordOf(found, addressOf));
    end = found.index + found[0].length;
  }
  return [...nodes, text.slice(end)].filter((node) => node !== "");
}

/** The node of what was found. */
function wordOf([text, code, number], addressOf) {
  if (code !== undefined) return make("code", {}, code);
  const address = addressOf(Number(number));
  return address ? make("a", { href: address }, text) : text;
}

/** A list of texts as items of a list, in the same way. */
export function items(texts, addressOf) {
  return texts.map((text) => make("li", {}, ...worded(text, addressOf)));
}

/** Makes these the children of an element; those that are there already are not touched, so that focus stays. */
export function arrange(parent, children) {
  const wanted = new Set(children);
  for (const child of [...parent.childNodes]) {
    if (!wanted.has(child)) child.remove();
  }
  let next = parent.firstChild;
  for (const child of children) {
    if (child === next) next = next.nextSibling;
    else parent.insertBefore(child, next);
  }
}

/** A whole number with commas between its thousands. */
export function grouped(number) {
  return String(number).replace(/\B(?=(\d{3})+$)/g, ",");
}

/** A number with its noun: `1 event`, `2 events`. */
export function counted(number, noun) {
  return `${grouped(number)} ${noun}${number === 1 ? "" : "s"}`;
}

/** Whether the viewer has asked for less motion. */
export function isMotionReduced() {
  return matchMedia("(prefers-reduced-motion: reduce)").matches;
}
