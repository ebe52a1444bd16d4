import { byId, counted, items, make } from "./elements.js";
import { alternativeOf, laneHeads } from "./chart.js";
import { drawnSlice } from "./drawing.js";
import { paragraphs, partingOf, setupOf, toneOf } from "./story.js";

/** The page on paper: title, intro, setup, the whole chart and the story of each branch, before the tables of the moment shown. */

/** How high a slice of the chart may be, in units of its drawing: a page breaks between slices alone. */
const SLICE = 160;
/** How much of the drawing may be below the heads of its lanes before they stand there again. */
const HEADED = 950;

/** The heights at which a sheet is cut into slices: between rows, and at its ends. */
function cutsOf(sheet) {
  const cuts = [0];
  for (const [, , , bottom] of sheet.rows.slice(0, -1)) {
    if (bottom - cuts.at(-1) >= SLICE) cuts.push(bottom);
  }
  return [...cuts, sheet.height];
}

/** All of a branch's chart, in slices, with the heads of its lanes again and again. */
function chartOf(branch) {
  const { chart } = branch;
  const figure = make("figure", { role: "img", "aria-label": alternativeOf(branch) });
  let below = Infinity;
  for (const sheet of chart.sheets) {
    const cuts = cutsOf(sheet);
    for (let at = 1; at < cuts.length; at += 1) {
      if (below > HEADED) {
        figure.append(make("div", { class: "heads" }, ...laneHeads(chart)));
        below = 0;
      }
      figure.append(drawnSlice(sheet, chart.width, cuts[at - 1], cuts[at]));
      below += cuts[at] - cuts[at - 1];
    }
  }
  return figure;
}

/** An event with its outcome, why it was dropped or lost if it was, and the paragraphs before and after it. */
function described(moment, at) {
  const outcome = make("span", { class: toneOf(moment.tone) }, moment.outcome);
  const who = moment.who ? [make("span", { class: "who" }, ` by ${moment.who}`)] : [];
  const number = make("span", { class: "at" }, String(at + 1));
  const line = make("p", { class: "line" }, number, make("code", {}, moment.event), " ", outcome, ...who);
  const why = moment.tone === "bad" ? [make("ul", { class: "why" }, ...items(moment.why))] : [];
  const rules = moment.rules ? [make("p", { class: "rules" }, moment.rules.join("; "))] : [];
  return make("div", { class: "event" }, ...paragraphs(moment.notes), line, ...rules, ...why, ...paragraphs(moment.after ?? []));
}

/** The branch that has the most of the first events of another one, and how many it has. */
function sharedWith(branch, others) {
  const shared = others.map((other) => ({ other, events: partingOf(branch, other) }));
  return shared.reduce((best, it) => (it.events > best.events ? it : best), { other: null, events: 0 });
}

/** A branch after those before it: its chart, and the story of the events that they do not have. */
function branchPart(branch, before) {
  const { name, former, moments } = branch;
  const { other, events } = sharedWith(branch, before);
  const those = events === 1 ? "The first event is that" : `The first ${events} events are those`;
  const begins = other ? [make("p", {}, `${those} of ${other.name}.`)] : [];
  return [
    make("h2", {}, `${name}${former ? " (an earlier run)" : ""}: ${counted(moments.length, "event")}`),
    ...paragraphs(events ? [] : branch.notes), chartOf(branch),
    make("h3", {}, `The story of ${name}`), ...begins,
    ...moments.slice(events).map((moment, at) => described(moment, events + at)),
  ];
}

/** Fills the handout with the run: all its branches, and then the moment that the viewer shows. */
function fill(viewer) {
  const { run, branch, place } = viewer;
  const now = place ? `The pair after event ${place} of ${branch.name}` : `The pair at the opening of ${branch.name}`;
  byId("handout").replaceChildren(
    make("h1", {}, run.title), make("p", {}, run.by), ...paragraphs(run.intro), ...setupOf(run),
    ...run.branches.flatMap((it, at) => branchPart(it, run.branches.slice(0, at))));
  // (a heading stays on the page of what comes after it only within the same part)
  byId("pair").prepend(make("h2", { class: "on-paper" }, now));
}

/** Takes away what is there for paper alone. */
function empty() {
  byId("handout").replaceChildren();
  document.querySelector("#pair > .on-paper")?.remove();
}

/** Has the page print as a handout. */
export function prepareHandout(viewer) {
  addEventListener("beforeprint", () => {
    empty();
    fill(viewer);
    byId("handout").hidden = false;
    document.documentElement.classList.add("printing");
  });
  addEventListener("afterprint", () => {
    document.documentElement.classList.remove("printing");
    byId("handout").hidden = true;
    empty();
  });
}
