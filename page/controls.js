import { say, sentenceOf } from "./announcer.js";
import { byId, make, makeButton } from "./elements.js";
import { Roving } from "./roving.js";

/** The buttons of the branches, the slider over the events, and what plays. */

/** How long an event is shown while it plays, in milliseconds. */
const BEAT = 1000;

/** The controls at the top of the page. */
export class Controls {
  constructor(viewer) {
    this.viewer = viewer;
    this.timer = null;
    this.stop = new Roving(byId("branches"), "button");
    new Roving(byId("transport"), "button").settle();
    byId("first").addEventListener("click", () => this.go(0));
    byId("back").addEventListener("click", () => this.go(viewer.place - 1));
    byId("forward").addEventListener("click", () => this.go(viewer.place + 1));
    byId("last").addEventListener("click", () => this.go(viewer.newest));
    byId("play").addEventListener("click", () => this.turn());
    byId("slider").addEventListener("input", () => this.go(Number(byId("slider").value)));
    if (viewer.run.live) byId("copy").textContent = "Copy link for watching";
    this.copyLabel = byId("copy").textContent;
    byId("copy").addEventListener("click", () => this.copy());
    viewer.listen(() => this.show());
  }

  get isPlaying() {
    return this.timer !== null;
  }

  /** Goes to a moment, which ends playing. */
  go(place) {
    this.pause();
    this.viewer.go(place);
  }

  /** Plays, from the opening on where the end is reached; or pauses. */
  turn() {
    if (this.isPlaying) {
      this.pause();
      return;
    }
    if (this.viewer.isNewest) this.viewer.go(0);
    this.timer = setInterval(() => this.beat(), BEAT);
    this.showPlaying();
  }

  /** Goes to the next moment while it plays. */
  beat() {
    this.viewer.go(this.viewer.place + 1);
    if (this.viewer.isNewest) this.pause();
  }

  /** Ends playing. */
  pause() {
    clearInterval(this.timer);
    this.timer = null;
    this.showPlaying();
  }

  /** Shows whether it plays. */
  showPlaying() {
    byId("play").classList.toggle("playing", this.isPlaying);
    byId("play").setAttribute("aria-pressed", String(this.isPlaying));
  }

  /** Shows where the viewer stands. */
  show() {
    const { place, newest, isNewest } = this.viewer;
    const slider = byId("slider");
    slider.max = String(newest);
    slider.value = String(place);
    slider.setAttribute("aria-valuetext", sentenceOf(this.viewer));
    byId("place").textContent = `${place} / ${newest}`;
    for (const id of ["first", "back"]) byId(id).setAttribute("aria-disabled", String(place === 0));
    for (const id of ["forward", "last"]) byId(id).setAttribute("aria-disabled", String(isNewest));
    this.showBranches();
  }

  /** Shows a button for each branch; earlier runs stand apart. */
  showBranches() {
    const { run, branch } = this.viewer;
    const names = run.branches.map((it) => `${it.name} ${it.former}`).join("\n");
    if (names !== this.names) this.makeBranches(run.branches);
    this.names = names;
    for (const button of byId("branches").querySelectorAll("button")) {
      const isShown = button.dataset.branch === branch.name;
      button.setAttribute("aria-pressed", String(isShown));
      if (!isShown) continue;
      this.bring(button);
      this.stop.settle(button);
    }
  }

  /** Scrolls the branches, where they are too many for their room, so that a button is in sight. */
  bring(button) {
    const room = byId("branches");
    const top = button.offsetTop - room.offsetTop;
    const isSeen = top >= room.scrollTop && top + button.offsetHeight <= room.scrollTop + room.clientHeight;
    if (!isSeen) room.scrollTop = top;
  }

  /** Makes the buttons of the branches. */
  makeBranches(branches) {
    const button = ({ name }) => makeButton(name, { "data-branch": name }, () => {
      this.pause();
      this.viewer.show(this.viewer.named(name), this.viewer.place);
    });
    const former = branches.filter((it) => it.former).map(button);
    const groups = [make("span", { class: "group" }, ...branches.filter((it) => !it.former).map(button))];
    if (former.length) {
      const label = make("span", { class: "label", id: "former" }, "earlier runs");
      groups.push(make("span", { class: "group", role: "group", "aria-labelledby": "former" }, label, ...former));
    }
    byId("branches").replaceChildren(make("div", { class: "all", role: "toolbar", "aria-label": "Branches" }, ...groups));
  }

  /** The link to this moment; of a live page it is for those who only watch. */
  get link() {
    const { live } = this.viewer.run;
    return live ? new URL(`../${live.watch}/${location.hash}`, location.href).href : location.href;
  }

  /** Copies the link to this moment, or shows it where the browser does not let the page copy. */
  async copy() {
    const button = byId("copy");
    try {
      await navigator.clipboard.writeText(this.link);
      button.textContent = "Copied";
    } catch {
      button.textContent = "Copy it from the address bar";
    }
    say(button.textContent);
    clearTimeout(this.copied);
    this.copied = setTimeout(() => { button.textContent = this.copyLabel; }, 2000);
  }
}
