/** The facts of a pair, moment by moment. */

/** What brought the changes of a moment, where the moment before is known too. */
export const BY_EVENT = "by this event";

/** Walks along a branch: it knows all facts of the pair at the moment where it stands. */
export class Walk {
  constructor(branch) {
    this.branch = branch;
    this.place = 0;
    this.facts = new Map(Object.entries(branch.opening).filter(([, value]) => value !== null));
    // Of each moment that was gone to, the facts that its event replaced.
    this.replaced = [];
  }

  /** Goes to a moment, and gives the keys of the facts that may be others there. */
  go(place) {
    const touched = new Set();
    while (this.place < place) this.forward(touched);
    while (this.place > place) this.backward(touched);
    return touched;
  }

  /** Lays the next event's edits over the facts. */
  forward(touched) {
    const before = [];
    for (const [key, value] of Object.entries(this.branch.moments[this.place].edits ?? {})) {
      before.push([key, this.facts.get(key) ?? null]);
      this.put(key, value);
      touched.add(key);
    }
    this.replaced.push(before);
    this.place += 1;
  }

  /** Takes the newest event's edits away again. */
  backward(touched) {
    for (const [key, value] of this.replaced.pop()) {
      this.put(key, value);
      touched.add(key);
    }
    this.place -= 1;
  }

  /** Puts a fact, or takes it away where it is null. */
  put(key, value) {
    if (value === null) this.facts.delete(key);
    else this.facts.set(key, value);
  }

  /** The newest moment up to a place of which the facts are known. */
  knownAt(place) {
    let known = place;
    while (known > 0 && this.branch.moments[known - 1].edits === null) known -= 1;
    return known;
  }

  /** What brought the changes of this moment: its event, or all events since the moment that was known before. */
  get changedBy() {
    const since = this.knownAt(Math.max(0, this.place - 1));
    return since < this.place - 1 ? `since event ${since}` : BY_EVENT;
  }

  /** The keys of the facts that are others than at the moment that was known before. */
  get changed() {
    return this.place ? Object.keys(this.branch.moments[this.place - 1].edits ?? {}) : [];
  }
}
