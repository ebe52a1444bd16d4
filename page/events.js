import { arrange, byId, make } from "./elements.js";
import { Roving } from "./roving.js";
import { toneOf } from "./story.js";

/** The events of a branch as a list of links, which says in words what the chart shows. */

/** How many events are listed at once: those from 1 on, from 101 on, and so on. */
const HUNDRED = 100;

/** An event with its outcome, who stepped it, and what it comes to by other rules. */
function listedEvent({ event, outcome, tone, rules, who }) {
  const more = [who ? ` by ${who}` : "", rules ? ` ${rules.join("; ")}` : ""].filter(Boolean);
  const came = make("span", { class: toneOf(tone) }, outcome);
  return [make("code", {}, event), " ", came, ...more.map((text) => make("span", { class: "more" }, text))];
}

/** Shows the list, with the event of the moment marked in it. */
export class EventList {
  constructor(viewer, controls) {
    Object.assign(this, { viewer, controls, branch: null, first: 0, last: 0, items: new Map() });
    this.box = byId("events-box");
    this.list = byId("events");
    this.stop = new Roving(this.list, "a");
    this.list.addEventListener("click", (event) => this.click(event));
    byId("earlier").addEventListener("click", () => this.turn(this.first - 1));
    byId("later").addEventListener("click", () => this.turn(this.last + 1));
    byId("listing").addEventListener("toggle", () => this.mark());
    viewer.listen((move) => this.move(move));
  }

  /** The link of an event, if it is listed. */
  link(place) {
    return this.items.get(place)?.element.firstChild;
  }

  /** Follows a move of the viewer. */
  move({ isNewChart }) {
    if (isNewChart || !this.link(this.viewer.place)) this.fill();
    this.mark();
  }

  /** Lists the hundred events among which that of the moment is; those that are listed already stay as they are. */
  fill() {
    const { branch, place, newest } = this.viewer;
    const former = branch === this.branch ? this.items : new Map();
    this.branch = branch;
    this.first = HUNDRED * Math.floor(Math.max(0, place - 1) / HUNDRED) + 1;
    this.last = Math.min(newest, this.first + HUNDRED - 1);
    this.items = new Map();
    for (let at = this.first > 1 ? this.first : 0; at <= this.last; at += 1) {
      const moment = at ? branch.moments[at - 1] : null;
      const old = former.get(at);
      this.items.set(at, old?.moment === moment ? old : { moment, element: this.item(at, moment) });
    }
    arrange(this.list, [...this.items.values()].map((it) => it.element));
    byId("listing-title").textContent = `Events of ${branch.name} as a list`;
    this.showTurn("earlier", this.first > 1, this.first - HUNDRED, this.first - 1);
    this.showTurn("later", this.last < newest, this.last + 1, Math.min(newest, this.last + HUNDRED));
  }

  /** An item with the link of an event, or of the opening. */
  item(at, moment) {
    const href = `#${encodeURIComponent(this.branch.name)}/${at}`;
    const number = make("span", { class: "at" }, String(at));
    const link = make("a", { href, "data-place-of": at }, number, " ", ...(moment ? listedEvent(moment) : ["the opening"]));
    return make("li", {}, link);
  }

  /** Shows the button to other events, if there are some. */
  showTurn(id, isShown, from, to) {
    byId(id).hidden = !isShown;
    byId(id).textContent = `Events ${from} to ${to}`;
  }

  /** Goes to an event that is not listed, as a button says; where the button is gone with that, the focus goes to its link. */
  turn(place) {
    const button = document.activeElement;
    this.controls.go(place);
    if (button.hidden) this.link(place).focus();
  }

  /** Goes to the event of a link, unless the browser is asked to do something else with that. */
  click(event) {
    const link = event.target.closest("a");
    if (!link || event.ctrlKey || event.metaKey || event.shiftKey || event.altKey) return;
    event.preventDefault();
    this.controls.go(Number(link.dataset.placeOf));
  }

  /** Marks the event of the moment, which the key Tab goes to, and scrolls the list so that it is in sight. */
  mark() {
    const link = this.link(this.viewer.place);
    for (const old of this.list.querySelectorAll("[aria-current]")) old.removeAttribute("aria-current");
    link.setAttribute("aria-current", "step");
    this.stop.settle(link);
    const top = link.parentElement.offsetTop;
    const bottom = top + link.parentElement.offsetHeight;
    const isSeen = top >= this.box.scrollTop && bottom <= this.box.scrollTop + this.box.clientHeight;
    if (!isSeen) this.box.scrollTop = top - this.box.clientHeight / 3;
  }
}
