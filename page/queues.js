import { SortedNames } from "./names.js";

/** What waits to be sent of states: their names by kind, in order. */

/** As many changes at once as are laid into an order one by one. */
const FEW_QUEUED = 200;

/** What waits at both nodes. */
export class Queues {
  constructor(facts) {
    // Of each node the kind of each name that waits, and the names of each kind.
    this.kindOf = { a: new Map(), b: new Map() };
    this.namesOf = { a: new Map(), b: new Map() };
    for (const [key, kind] of facts) this.put(key, kind, false);
  }

  /** Takes in the facts of these keys. */
  change(keys, facts) {
    for (const key of keys) this.put(key, facts.get(key), keys.size < FEW_QUEUED);
  }

  /** Takes in a fact, if it is one of a queue. */
  put(key, kind, isAlone) {
    const [node, what, name] = key.split("/");
    if (what !== "queue") return;
    const [kinds, names] = [this.kindOf[node], this.namesOf[node]];
    names.get(kinds.get(name))?.put(name, false, isAlone);
    kinds.delete(name);
    if (!kind) return;
    kinds.set(name, kind);
    if (!names.has(kind)) names.set(kind, new SortedNames());
    names.get(kind).put(name, true, isAlone);
  }

  /** The kinds of what waits at a node, each with its names. */
  kinds(node) {
    const all = [...this.namesOf[node]].filter(([, names]) => names.size).map(([kind, names]) => [kind, names.names]);
    return all.sort(([one], [two]) => (one < two ? -1 : 1));
  }
}
