/** Names of states, which are numbers with a dot between them, in their order. */

/** A name with its numbers, by which it is compared. */
function numbered(name) {
  const dot = name.indexOf(".");
  return { name, creator: Number(name.slice(0, dot)), id: Number(name.slice(dot + 1)) };
}

/** Compares two names by their numbers; ids may be longer than numbers are exact. */
function compared(one, two) {
  return one.creator - two.creator || one.id - two.id || (one.name < two.name ? -1 : Number(one.name > two.name));
}

/** The names in their order: 1.2 before 1.10. */
export function inOrder(names) {
  return Array.from(names, numbered).sort(compared).map((it) => it.name);
}

/** A set of names that is kept in order. */
export class SortedNames {
  constructor(names = []) {
    this.members = new Set(names);
    this.sorted = null;
  }

  get size() {
    return this.members.size;
  }

  has(name) {
    return this.members.has(name);
  }

  /** Puts a name in or out; a few changes are laid into the order, for many it is made anew when it is asked for. */
  put(name, isIn, isAlone) {
    if (isIn === this.members.has(name)) return;
    if (isIn) this.members.add(name);
    else this.members.delete(name);
    if (!isAlone) this.sorted = null;
    if (!this.sorted) return;
    const at = this.placeOf(name);
    if (isIn) this.sorted.splice(at, 0, name);
    else this.sorted.splice(at, 1);
  }

  /** Where a name stands in the order, or would stand. */
  placeOf(name) {
    const wanted = numbered(name);
    let low = 0;
    let high = this.sorted.length;
    while (low < high) {
      const middle = (low + high) >> 1;
      if (compared(numbered(this.sorted[middle]), wanted) < 0) low = middle + 1;
      else high = middle;
    }
    return low;
  }

  /** All names, in order. */
  get names() {
    this.sorted ??= inOrder(this.members);
    return this.sorted;
  }
}
