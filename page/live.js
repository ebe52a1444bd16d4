import { Actions } from "./actions.js";
import { say } from "./announcer.js";
import { byId, counted, make, makeButton } from "./elements.js";
import { Offers } from "./offers.js";
import { PacketForm } from "./packets.js";
import { Sender, clearReply } from "./sender.js";
import { happened, layUpdate } from "./updates.js";

/** The live page: it hears what happens in the laboratory, and has it step. */

/** How long to wait before a lost connection is tried again, in milliseconds. */
const PAUSE = 1500;
const LOST = "The connection is lost; trying again.";

/** The link to the laboratory, and what is shown of it. */
export class Live {
  constructor(viewer, controls) {
    const { may, version, people } = viewer.run.live;
    Object.assign(this, { viewer, controls, may, version, wanted: null, isLost: false, hasEnded: false });
    // Branches of which an event was taken out last; and what happened that the viewer has not seen, by branch.
    this.excised = new Set();
    this.missed = new Map();
    this.banner = make("p", { class: "banner", hidden: "" });
    this.news = make("div", { class: "news" });
    byId("notices").append(this.banner, this.news);
    byId("live").hidden = false;
    byId("stepping").hidden = may !== "step";
    // (what is in flight is stepped most)
    byId("tables").before(byId("frames").parentElement);
    byId("queues").parentElement.classList.add("wide");
    this.sender = new Sender();
    this.offers = new Offers(this);
    this.actions = new Actions(this);
    this.packets = ["a", "b"].map((node) => this.packetForm(node));
    this.showPeople(people);
    viewer.listen((move) => this.move(move));
    this.connect();
  }

  /** Whether this page may change the branch at all. */
  get canChange() {
    return this.may === "step" && !this.hasEnded && !this.viewer.branch.former;
  }

  /** Whether events can happen here: at the newest moment. */
  get canStep() {
    return this.canChange && this.viewer.isNewest;
  }

  /** The form for packets of a node, at its table. */
  packetForm(node) {
    const form = new PacketForm(node, this);
    byId("tables").querySelector(`[data-place="${node}"]`).after(form.element);
    return form;
  }

  // ---- what comes

  /** Listens to the laboratory, from the version on that is here. */
  connect() {
    const source = new EventSource(`events?after=${this.version}`);
    source.addEventListener("open", () => {
      this.showBanner("");
      const wasLost = this.isLost;
      this.isLost = false;
      if (wasLost) this.offers.show(this.canStep);
    });
    source.addEventListener("message", (message) => this.take(JSON.parse(message.data), source));
    source.addEventListener("error", () => {
      source.close();
      if (this.hasEnded) return;
      this.isLost = true;
      this.showBanner(LOST);
      setTimeout(() => this.connect(), PAUSE);
    });
  }

  /** Takes what the laboratory says. */
  take(update, source) {
    if (update.reload) {
      source.close();
      location.reload();
    } else if (update.ended !== undefined) {
      source.close();
      this.end(update.ended);
    } else {
      if (update.version > this.version) this.lay(update);
      if (update.people !== undefined) this.showPeople(update.people);
    }
  }

  /** Lays an update into the page. */
  lay(update) {
    this.version = update.version;
    const [word, name] = update.line.split(" ");
    if (word === "excise") this.excised.add(name);
    else if (["restore", "step", "drop"].includes(word)) this.excised.delete(name);
    const focused = document.activeElement;
    const place = focused.closest("[data-place]")?.dataset.place;
    const { changes, gone } = layUpdate(this.viewer, update);
    const what = update.line ? `${update.line}: ${update.reply[0]}` : happened(changes, gone);
    if (changes.some((it) => !it.isFormer) || gone.length) byId("said").textContent = `${update.who}: ${what}`;
    for (const change of changes.filter((it) => !it.isFormer)) this.miss(change, update.who);
    this.follow(this.wanted);
    this.showMissed();
    // (the card of a state that has changed is another one)
    if (!focused.isConnected) (this.offers.named(place)?.opener || byId("happened")).focus();
  }

  /** Notes what happened to a branch whose newest moment the viewer does not see. */
  miss({ name, isNew, added, taken }, who) {
    const missed = this.missed.get(name) ?? { isNew, added: 0, taken: 0, people: new Set() };
    missed.added = Math.max(0, missed.added - taken) + added;
    missed.taken += taken;
    missed.people.add(who);
    this.missed.set(name, missed);
  }

  /** The laboratory has ended. */
  end(why) {
    this.hasEnded = true;
    this.showBanner(`The laboratory has ended: ${why}. You can still look at what happened.`);
    this.show(false);
  }

  // ---- what is sent

  /** Has an event happen on the branch that is shown: whether it did. */
  step(event, place) {
    return this.send(`step ${this.viewer.branch.name} ${event}`, place);
  }

  /** Sends a line: whether it was taken. */
  send(line, place) {
    this.controls.pause();
    return this.sender.send(line, place, this.version);
  }

  /** Goes to the newest moment of a branch as soon as it is there. */
  follow(name) {
    const branch = name && this.viewer.named(name);
    this.wanted = branch ? null : name;
    if (branch) this.viewer.show(branch, branch.moments.length);
  }

  // ---- what is shown

  /** Follows a move of the viewer. */
  move({ isNewBranch }) {
    if (this.viewer.isNewest) this.missed.delete(this.viewer.branch.name);
    // (why an event was refused holds no longer where another one has happened)
    for (const place of document.querySelectorAll("[data-place]")) clearReply(place);
    this.show(isNewBranch);
    this.showMissed();
  }

  /** Shows what can be done here. */
  show(isNewBranch) {
    const { branch } = this.viewer;
    this.offers.show(this.canStep);
    this.actions.show(isNewBranch);
    for (const form of this.packets) form.show(this.canStep, branch.moments);
  }

  /** Shows a banner, or none. */
  showBanner(text) {
    if (text !== this.banner.textContent) say(text);
    this.banner.textContent = text;
    this.banner.hidden = !text;
  }

  /** Shows the branches that have gone on. */
  showMissed() {
    const missed = [...this.missed].filter(([name]) => this.viewer.named(name));
    const isSeen = (name) => name === this.viewer.branch.name && this.viewer.isNewest;
    const notices = missed.filter(([name]) => !isSeen(name)).map(([name, it]) => this.notice(name, it));
    const text = notices.map((it) => it.textContent).join("\n");
    // (what is there already is not said again)
    if (text !== this.news.dataset.text) {
      this.news.replaceChildren(...notices);
      say(notices.map((it) => it.firstChild.textContent.trim()).join(". "));
    }
    this.news.dataset.text = text;
  }

  /** The notice of a branch that has gone on, with a button that goes there. */
  notice(name, { isNew, added, taken, people }) {
    const changed = added ? `${counted(added, "event")} since` : `${counted(taken, "event")} undone`;
    const what = isNew ? "a new branch" : changed;
    const button = makeButton(`Go to ${name}`, { "data-go": name }, () => {
      this.controls.pause();
      this.follow(name);
    });
    return make("p", { class: "banner" }, `${name}: ${what}, by ${[...people].join(" and ")} `, button);
  }

  /** Shows how many watch. */
  showPeople(people) {
    byId("people").textContent = people === 1 ? "1 person" : `${people} people`;
  }
}
