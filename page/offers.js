import { make, makeButton } from "./elements.js";
import { numberField } from "./fields.js";
import { Roving } from "./roving.js";
import { showReply } from "./sender.js";

/** What can happen next, as buttons at the places where it would happen. What would come of it is asked where a place is open. */

/** The words of events on their buttons. */
const WORDS = { turn: "bulk turn" };
/** How many of the frames in flight are open until somebody closes them. */
const FIRST_OPEN = 4;

/** What a button says of its event: the word, and whom it is about. */
function labelOf([word, node, name]) {
  const label = WORDS[word] ?? word;
  const about = word === "kill" ? name : word === "cut" ? `${node} to` : node;
  return `${label[0].toUpperCase()}${label.slice(1)} ${about}`;
}

/** What one hears of a button: also at which node a state is that has its name at both. */
function nameOf(words) {
  const [word, node, bytes] = words;
  if (word === "kill") return `${labelOf(words)} at ${node}`;
  return word === "cut" ? `${labelOf(words)} ${bytes} bytes` : labelOf(words);
}

/** The place of a card in words. */
function placeName(place) {
  const [kind, what, name] = place.split("/");
  return kind === "frame" ? `frame ${what}` : name ? `state ${name} at ${kind}` : `node ${kind}`;
}

/** A list of offers by their places. */
function byPlace(offers) {
  const places = new Map();
  for (const offer of offers) {
    if (!places.has(offer[0])) places.set(offer[0], []);
    places.get(offer[0]).push(offer);
  }
  return places;
}

/** A place with its buttons. That of a node is open; a card has a button that opens it. */
class Place {
  constructor(element, offers) {
    Object.assign(this, { element, offers, name: element.dataset.place, shown: "[]" });
    const about = placeName(this.name);
    this.bar = make("div", { class: "offer-bar", role: "toolbar", "aria-label": `What can happen: ${about}` });
    const opens = () => offers.turn(this.name);
    this.opener = this.name.includes("/") ? makeButton("Events", { class: "opener", "aria-label": `Events of ${about}` }, opens) : null;
    this.stop = new Roving(this.bar, "button");
    // (those who see the page and use keys have no tooltips)
    this.would = make("p", { class: "would", "aria-hidden": "true" });
    this.bar.addEventListener("focusin", ({ target }) => {
      this.would.textContent = target.matches("button:focus-visible") ? target.title : "";
    });
    this.bar.addEventListener("focusout", () => { this.would.textContent = ""; });
    element.replaceChildren(...(this.opener ? [this.opener] : []), this.bar, this.would);
  }

  /** Shows whether it is open; a closed one has no buttons. */
  open(isOpen) {
    this.opener?.setAttribute("aria-expanded", String(isOpen));
    this.bar.hidden = !isOpen;
    if (!isOpen) this.fill([]);
  }

  /** Fills it with the buttons of its offers, if they are others; the focus stays on the button of the same word. */
  fill(offers) {
    const text = JSON.stringify(offers);
    if (text === this.shown) return;
    this.shown = text;
    const focused = this.bar.contains(document.activeElement) ? document.activeElement.dataset.event : undefined;
    this.bar.replaceChildren(...offers.map((it) => (it[1].startsWith("cut ") ? this.cutOffer(it) : this.button(it))));
    this.stop.settle();
    if (focused === undefined) return;
    const [word] = focused.split(" ");
    [...this.bar.querySelectorAll("button")].find((it) => it.dataset.event.startsWith(`${word} `))?.focus();
  }

  /** A button for an offer; one that would be refused can be read, and says why. */
  button([, event, would, isAccepted]) {
    const words = event.split(" ");
    const title = isAccepted ? `${event}: ${would}` : `${event} would be refused: ${would}`;
    const refused = isAccepted ? null : "true";
    const named = { "aria-label": nameOf(words), title, "aria-disabled": refused };
    const button = makeButton(labelOf(words), { class: `offer ${words[0]}`, "data-event": event, ...named }, () => {
      // (what is asked anew just now may be accepted)
      if (isAccepted || this.offers.isStale) this.offers.live.step(button.dataset.event, this.element);
      else showReply(this.element, false, event, [would]);
    });
    return button;
  }

  /** A button that cuts a frame, with the number of bytes that are kept. */
  cutOffer(offer) {
    const button = this.button(offer);
    const [word, ticket, bytes] = offer[1].split(" ");
    const label = `bytes of frame ${ticket} that are kept`;
    const field = numberField("bytes", bytes, { max: "65535", "aria-label": label, title: label });
    field.addEventListener("input", () => {
      const words = [word, ticket, String(Number(field.value) || 0)];
      button.dataset.event = words.join(" ");
      button.setAttribute("aria-label", nameOf(words));
    });
    field.addEventListener("keydown", (event) => { if (event.key === "Enter") button.click(); });
    return make("span", { class: "cut-offer" }, button, field, " bytes");
  }
}

/** Keeps the buttons in the places that are in the document. */
export class Offers {
  constructor(live) {
    this.live = live;
    // The places by their elements; and which of them somebody has opened or closed.
    this.places = new Map();
    this.opened = new Map();
    // Whether what is shown is of an earlier moment; whether an answer is awaited, and another one is wanted after it.
    this.isStale = false;
    this.isAsking = false;
    this.isWanted = false;
    // (the openers of the cards of a list are one stop of the key Tab)
    this.stops = [...document.querySelectorAll(".states, #frames")].map((list) => new Roving(list, ".opener"));
  }

  /** Shows the places where something can happen, and asks what can at those that are open; or shows none. */
  show(canStep) {
    const elements = document.querySelectorAll("[data-place]");
    const before = this.places;
    this.places = new Map();
    if (!canStep) {
      for (const element of elements) element.replaceChildren();
      return;
    }
    for (const element of elements) this.places.set(element, before.get(element) ?? new Place(element, this));
    this.openThose();
    for (const stop of this.stops) stop.settle();
    this.ask();
  }

  /** Opens the places that are open: those of nodes, of the first frames, and what somebody has opened. */
  openThose() {
    let frames = 0;
    for (const place of this.places.values()) {
      const isFrame = place.name.startsWith("frame/");
      if (isFrame) frames += 1;
      place.isOpen = this.opened.get(place.name) ?? (!place.opener || (isFrame && frames <= FIRST_OPEN));
      place.open(place.isOpen);
    }
  }

  /** The place of a name, if it is in the document. */
  named(name) {
    return [...this.places.values()].find((it) => it.name === name);
  }

  /** Opens or closes a place. */
  turn(name) {
    const place = this.named(name);
    this.opened.set(name, !place.isOpen);
    this.openThose();
    this.ask();
  }

  /** Asks what is offered at the open places; while an answer is awaited, once more after it. */
  async ask() {
    this.isStale = true;
    this.isWanted = true;
    if (this.isAsking) return;
    this.isAsking = true;
    while (this.isWanted) {
      this.isWanted = false;
      await this.askOnce();
    }
    this.isAsking = false;
  }

  /** Asks, and shows the answer if it is of what the page shows: otherwise an update is on its way, after which it is asked again. */
  async askOnce() {
    const { viewer, sender } = this.live;
    const { branch } = viewer;
    const names = [...this.places.values()].filter((it) => it.isOpen).map((it) => it.name);
    const answer = names.length && !this.live.isLost ? await sender.offers(branch.name, names) : null;
    if (!answer || answer.version !== this.live.version || branch !== viewer.branch || !this.live.canStep) return;
    const offers = byPlace(answer.offers);
    for (const place of this.places.values()) {
      if (place.isOpen) place.fill(offers.get(place.name) ?? []);
    }
    this.isStale = this.isWanted;
  }
}
