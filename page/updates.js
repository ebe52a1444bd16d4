import { counted } from "./elements.js";

/** Updates of a live page, laid into the data. */

/** Lays the changed sheets of a chart into it. */
function changedChart(old, { width, height, lanes, heads, count, sheets }) {
  const all = Array.from({ length: count }, (_, at) => sheets[at] ?? old?.sheets[at]);
  return { width, height, lanes, heads, sheets: all };
}

/** A branch as a change makes it: a new one, or the old one, which becomes what it is now. */
function changedBranch(old, change) {
  const branch = old ?? { name: change.name, former: change.former ?? false, moments: [] };
  branch.moments = [...branch.moments.slice(0, change.keep), ...change.moments];
  branch.undone = change.undone;
  branch.chart = changedChart(branch.chart, change.chart);
  if (change.opening) branch.opening = change.opening;
  if (change.notes) branch.notes = change.notes;
  return branch;
}

/** What an update did to a branch: whether that is new, how many of its events are, and how many were taken away. */
function changeOf(old, { name, former, keep, moments }) {
  const had = old?.moments.length ?? 0;
  return { name, isNew: !old, isFormer: former ?? false, added: moments.length, taken: Math.max(0, had - keep) };
}

/** What happened to branches, in words. */
export function happened(changes, gone) {
  const said = changes.map(({ name, isNew, isFormer, added, taken }) => {
    if (isNew) return isFormer ? `earlier run ${name} is kept` : `new branch ${name}`;
    return added ? `${counted(added, "event")} on ${name}` : `${counted(taken, "event")} of ${name} undone`;
  });
  return [...said, ...gone.map((name) => `branch ${name} dropped`)].join(", ");
}

/** Lays an update into the run: what became of each branch, and which are gone. The viewer stays where that is possible. */
export function layUpdate(viewer, update) {
  const { run, branch } = viewer;
  const known = new Map(run.branches.map((it) => [it.name, it]));
  const changes = update.branches.map((change) => changeOf(known.get(change.name), change));
  const own = update.branches.find((change) => change.name === branch.name);
  viewer.change(own ? own.keep : viewer.newest, () => {
    for (const change of update.branches) known.set(change.name, changedBranch(known.get(change.name), change));
    run.branches = update.order.map((name) => known.get(name)).filter(Boolean);
  });
  if (!run.branches.includes(branch)) viewer.renew(run.branches[0], run.branches[0].moments.length);
  else if (own?.opening) viewer.renew(branch, viewer.place);
  const gone = [...known].filter(([name, it]) => !it.former && !update.order.includes(name)).map(([name]) => name);
  return { changes, gone };
}
