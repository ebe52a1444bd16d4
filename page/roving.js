/** One stop of the key Tab for many elements: from one of them to the next the arrow keys go. */

/** How far each key goes. */
const STRIDES = { ArrowLeft: -1, ArrowUp: -1, ArrowRight: 1, ArrowDown: 1, Home: -Infinity, End: Infinity };

/** The elements of a group that a selector finds, one of which is a stop. */
export class Roving {
  constructor(group, selector) {
    Object.assign(this, { group, selector, stop: null, at: 0 });
    group.addEventListener("keydown", (event) => this.key(event));
    group.addEventListener("focusin", ({ target }) => {
      if (target.matches(selector)) this.settle(target);
    });
  }

  /** The elements that can be seen. */
  get members() {
    return [...this.group.querySelectorAll(this.selector)].filter((it) => !it.closest("[hidden]"));
  }

  /** Makes one of them the stop: this one, or the one that was it, or where that is gone the one in its place. */
  settle(wanted = this.stop) {
    const { members } = this;
    if (!members.length) return;
    const place = members.indexOf(wanted);
    this.at = place < 0 ? Math.min(this.at, members.length - 1) : place;
    this.stop = members[this.at];
    for (const it of members) it.tabIndex = it === this.stop ? 0 : -1;
  }

  /** Goes to another one as a key says. */
  key(event) {
    const stride = STRIDES[event.key];
    if (!stride || event.ctrlKey || event.altKey || event.metaKey || event.shiftKey || !event.target.matches(this.selector)) return;
    event.preventDefault();
    const { members } = this;
    const place = members.indexOf(event.target) + stride;
    members[Math.max(0, Math.min(members.length - 1, place))].focus();
  }
}
