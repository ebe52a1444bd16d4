import { arrange, byId, grouped, items, make, worded } from "./elements.js";
import { Queues } from "./queues.js";
import { BY_EVENT } from "./walk.js";

/** What is shown of the pair besides its states: the answer, what waits, what is in flight, and the numbers. */

/** As many names, frames or changes as are listed at once. */
const MOST_LISTED = 50;
const BOTH_NODES = ["a", "b"];

/** The first of a list as nodes, and how many more there are. */
function firstOf(list, itemOf) {
  const rest = list.length - MOST_LISTED;
  const shown = list.slice(0, MOST_LISTED).map(itemOf);
  return rest > 0 ? [...shown, make("li", { class: "rest" }, `and ${grouped(rest)} more`)] : shown;
}

/** A table of texts with a row for each name and a column for each node; what has changed is marked. */
function nodeTable(caption, rows) {
  const head = make("tr", {}, make("td"), ...BOTH_NODES.map((node) => make("th", { scope: "col" }, node)));
  const body = rows.map(([name, a, b, kind]) => make("tr", kind ? { class: kind } : {},
    make("th", { scope: "row" }, name), make("td", {}, a), make("td", {}, b)));
  return make("table", {}, make("caption", {}, caption), make("thead", {}, head), make("tbody", {}, ...body));
}

/** Shows the panels at the moment where the viewer stands. */
export class Panels {
  constructor(viewer) {
    this.viewer = viewer;
    // What waits, and the tickets of what is in flight; and the cards of frames that are in the document.
    this.queues = null;
    this.tickets = new Set();
    this.frames = new Map();
    viewer.listen((move) => this.move(move));
  }

  /** Follows a move of the viewer. */
  move({ touched, isNewBranch }) {
    const { facts } = this.viewer.walk;
    if (isNewBranch || !this.queues) {
      this.queues = new Queues(facts);
      this.tickets.clear();
      this.follow(facts.keys(), facts);
    } else {
      this.queues.change(touched, facts);
      this.follow(touched, facts);
    }
    this.show();
  }

  /** Notes which frames are in flight. */
  follow(keys, facts) {
    for (const key of keys) {
      if (!key.startsWith("frame/")) continue;
      if (facts.has(key)) this.tickets.add(Number(key.slice(6)));
      else this.tickets.delete(Number(key.slice(6)));
    }
  }

  /** Shows all panels. */
  show() {
    const { walk, moment } = this.viewer;
    this.showAnswer(walk);
    this.showQueues(walk.facts);
    this.showFrames(walk.facts, new Set(walk.changed));
    this.showNumbers(walk.facts);
    this.showChanges(walk, moment);
  }

  /** What the event changed, or why that is not shown. */
  showChanges(walk, moment) {
    const changes = moment ? moment.changes : [];
    const listed = changes.map(([tone, text]) => make("li", { class: `tone-${tone || "plain"}` }, text));
    byId("changes").replaceChildren(...listed);
    if (changes.length) return;
    const isKnown = moment?.edits !== null && walk.changedBy === BY_EVENT;
    const nothing = isKnown ? "nothing" : "not shown: in a run this long the tables are not read after each event";
    byId("changes").append(make("li", { class: "nothing" }, moment ? nothing : "no event yet"));
  }

  /** Whether a and b agree, and what explains it. */
  showAnswer(walk) {
    const pair = walk.facts.get("pair");
    byId("answer").textContent = pair.answer;
    byId("answer").className = pair.agree ? "agree" : "apart";
    byId("circumstances").replaceChildren(...items([...pair.lines, ...this.scalings(walk.facts, pair.lines)]));
    const known = walk.knownAt(walk.place);
    byId("as-of").textContent = known < walk.place ? `Tables as after event ${known}` : "";
  }

  /** How timeouts are scaled, where the answer's lines do not say it. */
  scalings(facts, lines) {
    return BOTH_NODES.map((node) => facts.get(node).scaling).filter((text) => text && !lines.includes(text));
  }

  /** What each node has to send, ask, answer or hold. */
  showQueues(facts) {
    byId("queues").replaceChildren(...BOTH_NODES.map((node) => {
      const kinds = this.queues.kinds(node).map(([kind, names]) =>
        make("li", {}, make("b", {}, kind), " ", this.namesOf(names)));
      const messages = items(facts.get(`${node}/messages`) ?? []);
      const held = (facts.get(`${node}/held`) ?? []).map((text) => make("li", { class: "held" }, text));
      const all = [...kinds, ...messages, ...firstOf(held, (it) => it)];
      return make("div", {}, make("h3", {}, `at ${node}`),
        all.length ? make("ul", {}, ...all) : make("p", { class: "nothing" }, "nothing"));
    }));
  }

  /** Names in a line, and how many more there are. */
  namesOf(names) {
    const rest = names.length - MOST_LISTED;
    return names.slice(0, MOST_LISTED).join(", ") + (rest > 0 ? ` and ${grouped(rest)} more` : "");
  }

  /** The frames in flight, record by record. */
  showFrames(facts, changed) {
    const tickets = [...this.tickets].sort((one, two) => one - two);
    const cards = new Map();
    for (const ticket of tickets.slice(0, MOST_LISTED)) {
      cards.set(ticket, this.frameCard(ticket, facts.get(`frame/${ticket}`), changed.has(`frame/${ticket}`)));
    }
    this.frames = cards;
    const rest = tickets.length - cards.size;
    const more = rest > 0 ? `and ${grouped(rest)} more` : tickets.length ? "" : "nothing";
    const elements = [...cards.values()].map((it) => it.element);
    arrange(byId("frames"), more ? [...elements, make("p", { class: "nothing" }, more)] : elements);
  }

  /** The card of a frame, made anew only where it is another one. */
  frameCard(ticket, frame, isChanged) {
    const old = this.frames.get(ticket);
    if (old && old.frame === frame && old.isChanged === isChanged) return old;
    const kinds = ["frame", frame.to === "a" ? "to-a" : "to-b", frame.broken && "broken", isChanged && "changed"];
    const head = make("p", { class: "head" }, ...worded(frame.head));
    const records = firstOf(frame.records, (text) => make("li", {}, text));
    const named = { class: kinds.filter(Boolean).join(" "), "data-frame": ticket, "aria-label": `frame ${ticket}` };
    const element = make("article", named, head, ...(records.length ? [make("ol", {}, ...records)] : []),
      make("div", { class: "offers", "data-place": `frame/${ticket}` }));
    return { frame, isChanged, element };
  }

  /** The counters and the other numbers of both nodes and of the link. */
  showNumbers(facts) {
    const a = facts.get("a");
    const b = facts.get("b");
    const counters = a.counters.map(([name, number], at) => [name, grouped(number), grouped(b.counters[at][1])]);
    byId("counters").replaceChildren(nodeTable("Counters of both nodes", counters.map((row) =>
      [...row, row[1] === "0" && row[2] === "0" ? "zero" : ""])));
    const numbers = a.numbers.map(([name, text], at) => [name, text, b.numbers[at]?.[1] ?? ""]);
    const link = (facts.get("link") ?? []).map(([name, text]) => make("li", {}, `${name} ${text}`));
    const table = nodeTable("Numbers of both nodes", numbers);
    byId("numbers").replaceChildren(table, make("ul", { class: "link" }, ...link));
  }
}
