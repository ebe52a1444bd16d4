import { say } from "./announcer.js";
import { arrange, byId, counted, grouped, make } from "./elements.js";
import { SortedNames, inOrder } from "./names.js";
import { stateCard } from "./states.js";

/** The tables of both nodes, of which the document has the first states alone. */
const MOST_STATES = 50;
/** As many changes at once as are laid into an order one by one. */
const FEW = 200;

/** The states of a node in the order in which they are shown. */
class Order {
  constructor(node, facts) {
    this.node = node;
    const names = [];
    for (const key of facts.keys()) {
      if (key.startsWith(`${node}/state/`)) names.push(key.slice(8));
    }
    this.all = new SortedNames(names);
    this.differing = new SortedNames(names.filter((name) => facts.get(`apart/${name}`)?.how === "differ"));
    this.alone = new SortedNames(names.filter((name) => facts.get(`apart/${name}`)?.how === node));
    this.seek([], facts);
  }

  /** Takes in what has changed of a state. */
  put(name, facts, isAlone) {
    const state = facts.get(`${this.node}/state/${name}`);
    const how = state && facts.get(`apart/${name}`)?.how;
    this.all.put(name, Boolean(state), isAlone);
    this.differing.put(name, how === "differ", isAlone);
    this.alone.put(name, how === this.node, isAlone);
    if (!this.found) return;
    if (state && isFound(name, state, this.words)) this.found.add(name);
    else this.found.delete(name);
  }

  /** Looks for the states that have all of these words. */
  seek(words, facts) {
    this.words = words;
    this.found = null;
    if (!words.length) return;
    this.found = new Set();
    for (const name of this.all.members) {
      if (isFound(name, facts.get(`${this.node}/state/${name}`), words)) this.found.add(name);
    }
  }

  get size() {
    return this.found ? this.found.size : this.all.size;
  }

  /** Those of some names that are here, in order. */
  * within(names) {
    for (const name of names.size < FEW ? inOrder(names) : this.all.names) {
      if (names.has(name)) yield name;
    }
  }

  /** The names that are shown: those that were changed, those that differ, those that are only here, and the rest. */
  shown(changed) {
    const names = new Set();
    for (const group of [this.within(changed), this.differing.names, this.alone.names, this.all.names]) {
      for (const name of group) {
        if (names.size === MOST_STATES) return names;
        if (this.all.has(name) && (!this.found || this.found.has(name))) names.add(name);
      }
    }
    return names;
  }
}

const TEXTS = new WeakMap();

/** Whether a state has all of these words, in small letters, in its name, flow, levels, class or rule. */
function isFound(name, state, words) {
  let text = TEXTS.get(state);
  if (text === undefined) {
    text = [name, state.flow, state.levels, state.class, state.rule, state.flags].join(" ").toLowerCase();
    TEXTS.set(state, text);
  }
  return words.every((word) => text.includes(word));
}

/** The table of one node, with the cards that are in the document. */
class Table {
  constructor(node) {
    this.node = node;
    this.cards = new Map();
    this.title = make("h3", {}, `Node ${node}`);
    this.clock = make("span", { class: "clock" });
    this.offers = make("div", { class: "offers-of-node", "data-place": node });
    this.list = make("ul", { class: "states", "aria-label": `States of node ${node}` });
    this.count = make("p", { class: "count" });
    const head = make("div", { class: "table-head" }, this.title, this.clock);
    byId("tables").querySelector(`[data-node="${node}"]`).append(head, this.offers, this.list, this.count);
  }

  /** Shows the states of these names; those of the changed keys say by what they were changed. */
  show(names, order, facts, changed, changedBy) {
    const node = facts.get(this.node);
    this.clock.textContent = `clock ${node.clock / 1000} s`;
    const cards = new Map();
    for (const name of names) {
      cards.set(name, this.card(name, node, facts, changed.has(`${this.node}/state/${name}`) ? changedBy : ""));
    }
    this.cards = cards;
    arrange(this.list, [...cards.values()].map((it) => it.element));
    this.count.textContent = this.counted(cards.size, order.size, order.all.size);
  }

  /** The card of a state, made anew only where something of it is another. */
  card(name, numbers, facts, changedBy) {
    const state = facts.get(`${this.node}/state/${name}`);
    const apart = facts.get(`apart/${name}`);
    const times = `${numbers.clock} ${numbers.scale}`;
    const old = this.cards.get(name);
    const isSame = old && old.state === state && old.apart === apart && old.times === times;
    if (isSame && old.changedBy === changedBy) return old;
    return { state, apart, times, changedBy, element: stateCard(this.node, name, state, apart, numbers, changedBy) };
  }

  /** How many states there are, and how many of them are shown. */
  counted(shown, size, total) {
    if (!total) return "no states";
    if (!size) return `none of ${grouped(total)} found`;
    return shown < total ? `${grouped(shown)} of ${grouped(size)} shown` : "";
  }
}

/** Both tables and the search over them. */
export class Tables {
  constructor(viewer) {
    this.viewer = viewer;
    this.tables = [new Table("a"), new Table("b")];
    this.renew();
    viewer.listen((move) => this.move(move));
    byId("search").addEventListener("input", () => {
      this.seek();
      if (byId("search").value.trim()) say(this.found);
    });
  }

  /** Puts the states of another walk in order. */
  renew() {
    this.orders = ["a", "b"].map((node) => new Order(node, this.viewer.walk.facts));
  }

  /** Takes in what a move has changed. */
  move({ touched, isNewBranch }) {
    if (isNewBranch) {
      this.renew();
      this.seek();
      return;
    }
    const names = new Set();
    for (const key of touched) {
      const parts = /^(?:[ab]\/state|apart)\/(.+)$/.exec(key);
      if (parts) names.add(parts[1]);
    }
    for (const order of this.orders) {
      for (const name of names) order.put(name, this.viewer.walk.facts, names.size < FEW);
    }
    this.show();
  }

  /** How many states were found, in words. */
  get found() {
    const [a, b] = this.orders.map((it) => it.size);
    return `${counted(a, "state")} found at a, ${grouped(b)} at b`;
  }

  /** Looks for what is asked. */
  seek() {
    const words = byId("search").value.toLowerCase().split(/\s+/).filter(Boolean);
    for (const order of this.orders) order.seek(words, this.viewer.walk.facts);
    this.show();
  }

  /** Shows both tables. */
  show() {
    const { facts, changed, changedBy } = this.viewer.walk;
    const keys = new Set(changed);
    const names = new Set(changed.filter((key) => /^[ab]\/state\//.test(key)).map((key) => key.slice(8)));
    this.tables.forEach((table, at) => {
      const order = this.orders[at];
      table.show(order.shown(names), order, facts, keys, changedBy);
    });
  }
}
