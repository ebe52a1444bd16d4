import { Walk } from "./walk.js";

/** Where the viewer stands: a branch and a moment of it. Whoever shows something of it listens here. */
export class Viewer {
  constructor(run) {
    this.run = run;
    this.walk = new Walk(run.branches[0]);
    this.listeners = [];
  }

  get branch() {
    return this.walk.branch;
  }

  get place() {
    return this.walk.place;
  }

  /** The number of the newest moment of the branch. */
  get newest() {
    return this.branch.moments.length;
  }

  get isNewest() {
    return this.place === this.newest;
  }

  /** The moment of this place; none at the opening. */
  get moment() {
    return this.place ? this.branch.moments[this.place - 1] : null;
  }

  /** The branch of a name, if there is one. */
  named(name) {
    return this.run.branches.find((branch) => branch.name === name);
  }

  /** Adds a listener, which is called after each move with what kind of move it was. */
  listen(listener) {
    this.listeners.push(listener);
  }

  /** Goes to a moment of this branch, as near as there is one. */
  go(place) {
    const from = this.place;
    const touched = this.walk.go(this.near(place));
    this.announce({ touched, isStep: this.place === from + 1, isNewBranch: false, isNewChart: false });
  }

  /** Goes to a moment of another branch, or of this one. */
  show(branch, place) {
    if (branch === this.branch) this.go(place);
    else this.renew(branch, place);
  }

  /** Goes to the branch that is this number of places after this one in the order. */
  turn(by) {
    const { branches } = this.run;
    const at = branches.indexOf(this.branch) + by;
    if (at >= 0 && at < branches.length) this.show(branches[at], this.place);
  }

  /** Begins with the facts of a branch, at a moment of it. */
  renew(branch, place) {
    this.walk = new Walk(branch);
    this.walk.go(this.near(place));
    this.announce({ touched: new Set(), isStep: false, isNewBranch: true, isNewChart: true });
  }

  /** Changes the data, of which this branch keeps its first moments; at its newest moment the viewer goes along. */
  change(keep, lay) {
    const [from, wasNewest] = [this.place, this.isNewest];
    const touched = this.walk.go(Math.min(from, keep));
    lay();
    const place = this.near(wasNewest ? this.newest : from);
    for (const key of this.walk.go(place)) touched.add(key);
    this.announce({ touched, isStep: wasNewest && place === from + 1, isNewBranch: false, isNewChart: true });
  }

  /** The moment of this branch that is nearest to a place. */
  near(place) {
    return Math.max(0, Math.min(this.newest, place));
  }

  /** Reports a move to all listeners of a move. */
  announce(move) {
    for (const listener of this.listeners) listener(move);
  }
}
