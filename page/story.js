import { arrange, byId, items, make, worded } from "./elements.js";

/** The story at a moment: its paragraphs, the event with its outcome, and why. */

/** The class of an outcome by its tone. */
export function toneOf(tone) {
  return `outcome tone-${tone || "plain"}`;
}

/** Paragraphs of the story. */
export function paragraphs(texts) {
  return texts.map((text) => make("p", {}, ...worded(text)));
}

/** How the pair is set up. */
export function setupOf(run) {
  const group = { class: "setup", tabindex: "0", role: "group", "aria-label": "Setup" };
  const lines = make("pre", group, run.setup.join("\n"));
  return run.setup.length ? [make("h3", {}, "Setup"), lines] : [];
}

/** Shows the story of the moment where the viewer stands. */
export class Story {
  constructor(viewer) {
    this.viewer = viewer;
    viewer.listen(() => this.show());
  }

  /** Shows the paragraphs, the event, its outcome and its reason. */
  show() {
    const { place, moment, branch } = this.viewer;
    arrange(byId("story"), this.paragraphs());
    byId("number").textContent = moment ? `Event ${place}` : "";
    byId("event").textContent = moment ? moment.event : `the opening of ${branch.name}`;
    byId("outcome").textContent = moment ? moment.outcome : "";
    byId("outcome").className = toneOf(moment?.tone);
    byId("who").textContent = moment?.who ? `by ${moment.who}` : "";
    byId("rules").hidden = !moment?.rules;
    byId("rules").textContent = (moment?.rules ?? []).join("; ");
    byId("happened").classList.toggle("opening", !moment);
    byId("reason").hidden = !moment?.why.length;
    byId("why").replaceChildren(...items(moment ? moment.why : [], (number) => this.addressOf(number)));
    byId("after").replaceChildren(...paragraphs(moment?.after ?? []));
  }

  /** The address of another event of this branch, if it has one of this number. */
  addressOf(number) {
    const { branch, newest, place } = this.viewer;
    return number > 0 && number <= newest && number !== place ? `#${encodeURIComponent(branch.name)}/${number}` : null;
  }

  /** The paragraphs of this moment, or of the newest event before it that has some; and the branches that begin here. */
  paragraphs() {
    const { run, branch, place } = this.viewer;
    if (!place) return [...paragraphs(run.intro), ...paragraphs(branch.notes), ...setupOf(run), ...this.beginning()];
    const at = lastTold(branch, place);
    const those = at ? paragraphs(branch.moments[at - 1].notes) : [];
    const since = make("p", { class: "since" }, `From event ${at} on:`);
    return [...(those.length && at < place ? [make("div", { class: "earlier" }, since, ...those)] : those), ...this.beginning()];
  }

  /** A button for each branch that begins after this event, and for each run that goes on otherwise after it. */
  beginning() {
    const { run, branch, place } = this.viewer;
    const begun = (branch.forks?.[place] ?? []).map((name) => this.viewer.named(name)).filter((it) => it && it !== branch);
    const others = run.branches.filter((it) => it !== branch && it.moments.length > place && !begun.includes(it));
    const parted = others.filter((it) => partingOf(it, branch) === place);
    return [
      ...begun.map((it) => this.way(it, `Branch ${it.name} begins here`)),
      ...parted.map((it) => this.way(it, `${it.former ? "The earlier run" : "Branch"} ${it.name} continues differently`)),
    ];
  }

  /** A button that goes to another branch, at its event after this one if it has one. */
  way(other, text) {
    const button = make("button", { type: "button", "data-begins": other.name }, text);
    button.addEventListener("click", () => this.viewer.show(other, this.viewer.place + 1));
    return button;
  }
}

/** After how many events two runs part. */
export function partingOf({ moments }, other) {
  const at = moments.findIndex(({ event }, place) => event !== other.moments[place]?.event);
  return at < 0 ? moments.length : at;
}

/** The newest event up to a moment about which there are paragraphs, 0 if there is none; what people stepped has none. */
function lastTold(branch, place) {
  for (let at = place; at > 0; at -= 1) {
    const { notes, who } = branch.moments[at - 1];
    if (notes.length) return at;
    if (who) return 0;
  }
  return 0;
}
