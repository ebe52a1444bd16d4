import { make } from "./elements.js";

/** A state of a node's table as a card, in the words of pfctl. */

/** What is said of a state by its comparison with the other node. */
const SAID = { same: "same on both", only: "only here", differ: "differs", "no-sync": "no-sync" };

/** The class of a state by how it is apart from the other node's. */
function kindOf(apart) {
  if (!apart) return "same";
  return apart.how === "differ" || apart.how === "no-sync" ? apart.how : "only";
}

/** How a state stands, in words. */
function standing(node, kind, apart) {
  if (!apart?.others?.length) return SAID[kind];
  return `${SAID[kind]}; ${node === "a" ? "b" : "a"} has this flow as ${apart.others.join(", ")}`;
}

/** Seconds between two times, whole ones, downwards. */
function secondsBetween(from, to) {
  return Math.floor((to - from) / 1000);
}

/** How long a time is past, in whole seconds; by rules of the kernel a state can count as used at one that is yet to come. */
function ago(time, clock) {
  return time <= clock ? `${secondsBetween(time, clock)} s ago` : `${secondsBetween(clock, time)} s ahead of the clock`;
}

/** When a state expires, by its node's clock; the number of states there scales its timeout. */
function expiresAt(state, [part, whole]) {
  return state.last + 1000 * Math.floor((state.timeout * part) / whole);
}

/** What else is known of a state of a node, in small words. */
function details(state, { clock, scale }) {
  const expires = expiresAt(state, scale);
  const expiry = expires <= clock ? "expired" : `expires in ${secondsBetween(clock, expires)} s`;
  const said = [expiry, `last used ${ago(state.last, clock)}`, state.class];
  if (state.flags) said.push(state.flags);
  if (state.updates) said.push(`update count ${state.updates}`);
  if (state.peer !== null) said.push(`changed by the peer ${ago(state.peer, clock)}`);
  return said;
}

/** A field that differs: what it is here, and what at the other node. */
function differingField(node, [field, atA, atB]) {
  const [here, there, other] = node === "a" ? [atA, atB, "b"] : [atB, atA, "a"];
  return make("div", {}, make("dt", {}, field), " ",
    make("dd", {}, "here ", make("b", {}, here), `, at ${other} `, make("b", {}, there)));
}

/** The card of a state of a node, which has these numbers. */
export function stateCard(node, name, state, apart, numbers, changedBy) {
  const kind = kindOf(apart);
  const card = make("li", { class: `state ${kind}${changedBy ? " changed" : ""}`, "data-state": name });
  const marks = make("p", { class: "marks" }, make("span", { class: "sign" }, standing(node, kind, apart)));
  if (changedBy) marks.append(make("span", { class: "change" }, `changed ${changedBy}`));
  const offers = make("div", { class: "offers", "data-place": `${node}/state/${name}` });
  const flow = make("p", { class: "flow" }, make("b", {}, name), " ", state.flow);
  card.append(offers, marks, flow, make("p", { class: "levels" }, state.levels));
  if (state.ends.length) card.append(make("p", { class: "ends" }, ...state.ends.map((end) => make("span", {}, end))));
  if (apart?.parts.length) {
    card.append(make("dl", { class: "parts" }, ...apart.parts.map((part) => differingField(node, part))));
  }
  const small = make("p", { class: "small" }, ...details(state, numbers).map((text) => make("span", {}, text)));
  if (expiresAt(state, numbers.scale) <= numbers.clock) small.firstChild.className = "expired";
  card.append(small, make("p", { class: "small rule" }, state.rule));
  return card;
}
