/** The address names the moment: `#main/11`. */

/** In this time, in milliseconds, browsers take at least a hundred changes of the address. */
const PERIOD = 10000;
/** How many of them are written at once; then there is one after each pause, in milliseconds. */
const MOST_AT_ONCE = 60;
const LATER = 300;

/** The branch and the place that the address names; null where it names none. */
function namedMoment(run) {
  const [, name, place] = /^#(.+)\/(\d{1,9})$/.exec(location.hash) ?? [];
  if (name === undefined) return null;
  let decoded = name;
  try {
    decoded = decodeURIComponent(name);
  } catch {
    return null;
  }
  const branch = run.branches.find((it) => it.name === decoded);
  return branch ? { branch, place: Number(place) } : null;
}

/** Writes the moment into the address, later where there were many moments in a short time. */
class AddressWriter {
  constructor(viewer) {
    this.viewer = viewer;
    this.times = [];
    this.timer = null;
  }

  /** Writes it as soon as that is possible. */
  write() {
    this.times = this.times.filter((it) => it > Date.now() - PERIOD);
    if (this.times.length < MOST_AT_ONCE) this.writeNow();
    else this.timer ??= setTimeout(() => this.writeNow(), LATER);
  }

  /** Writes it, if it is another one. */
  writeNow() {
    clearTimeout(this.timer);
    this.timer = null;
    const { branch, place } = this.viewer;
    const hash = `#${encodeURIComponent(branch.name)}/${place}`;
    if (location.hash === hash) return;
    this.times.push(Date.now());
    try {
      history.replaceState(null, "", hash);
    } catch {
      // (a browser that does not allow it leaves the address as it is)
    }
  }
}

/**
 * Keeps the address and the viewer together, and goes where the address says at first; where it says nothing, to the
 * opening, or in a live page to the newest moment.
 */
export function followAddress(viewer) {
  const writer = new AddressWriter(viewer);
  const start = namedMoment(viewer.run);
  viewer.listen(() => writer.write());
  addEventListener("pagehide", () => writer.writeNow());
  addEventListener("hashchange", () => {
    const wanted = namedMoment(viewer.run);
    if (wanted) viewer.show(wanted.branch, wanted.place);
  });
  if (start) viewer.show(start.branch, start.place);
  else viewer.go(viewer.run.live ? viewer.newest : 0);
}
