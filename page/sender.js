import { say } from "./announcer.js";
import { byId, make, worded } from "./elements.js";

/** Lines that are sent to the laboratory with the name of who sends them, and its replies at their places. */

/** Where the name is kept from one visit to the next. */
const KEPT_NAME = "pfl-lab-name";

/** Of how many places the offers are asked at once. */
const MOST_PLACES = 120;

/** The name that was kept; empty where nothing can be kept. */
function keptName() {
  try {
    return localStorage.getItem(KEPT_NAME) ?? "";
  } catch {
    return "";
  }
}

/** Keeps a name, where that is allowed. */
function keepName(name) {
  try {
    localStorage.setItem(KEPT_NAME, name);
  } catch {
    // (then it is asked for at the next visit)
  }
}

/** The lines of a reason, without those that point with carets into the line above them, which is shown already. */
function withoutPointers(why) {
  const isPointer = (line) => line !== undefined && /^\s*\^+\s*$/.test(line);
  return why.filter((line, at) => !isPointer(line) && !isPointer(why[at + 1]));
}

/** Shows a reply at a place, or below the event where the place is gone, in the stead of the one before: how it went, and why. */
export function showReply(from, isDone, reply, why = []) {
  const place = from.isConnected ? from : document.querySelector("#actions .reply-place");
  clearReply(place);
  const shown = make("div", { class: `reply ${isDone ? "done" : "refused"}` }, make("p", {}, make("code", {}, reply)));
  const lines = withoutPointers(why).map((line) => line.trim());
  const reasons = lines.map((line) => make("li", {}, ...worded(line)));
  say([reply, ...lines].join(". "));
  if (reasons.length) shown.append(make("ul", {}, ...reasons));
  place.append(shown);
}

/** Takes the reply away from a place. */
export function clearReply(place) {
  place.querySelector(":scope > .reply")?.remove();
}

/** Sends lines, one at a time. */
export class Sender {
  constructor() {
    this.isBusy = false;
    // The version that came with the newest answer, which can be ahead of the page.
    this.answered = 0;
    byId("name").value = keptName();
    byId("name").addEventListener("change", () => keepName(byId("name").value.trim()));
  }

  /** Sends a line from a page of this version, and shows at a place why it was not taken: whether it was. */
  async send(line, place, version) {
    if (this.isBusy) return false;
    this.isBusy = true;
    document.documentElement.classList.add("sending");
    try {
      const { reply, why, version: answered } = await this.post(line, Math.max(version, this.answered));
      this.answered = answered;
      const isDone = !/^(?:refused|bad)\b/.test(reply[0] ?? "");
      if (isDone && !why.length) clearReply(place);
      else showReply(place, isDone, `${isDone ? "" : `${line}: `}${reply.join("; ")}`, why);
      return isDone;
    } catch (error) {
      const why = error instanceof TypeError ? "the laboratory cannot be reached" : error.message;
      showReply(place, false, `${line}: not sent`, [why]);
      return false;
    } finally {
      this.isBusy = false;
      document.documentElement.classList.remove("sending");
    }
  }

  /** What is offered at some places of a branch, with the version for which that holds; nothing where no answer comes. */
  async offers(branch, places) {
    try {
      const answer = await fetch(`offers?branch=${branch}&places=${places.slice(0, MOST_PLACES).join(",")}`);
      return answer.ok ? await answer.json() : null;
    } catch {
      // (that the connection is lost is said already)
      return null;
    }
  }

  /** The laboratory's answer to a line. */
  async post(line, version) {
    const body = JSON.stringify({ name: byId("name").value.trim(), line, version });
    const answer = await fetch("do", { method: "POST", headers: { "Content-Type": "application/json" }, body });
    if (!answer.ok) throw new Error((await answer.text()).slice(0, 500) || `status ${answer.status}`);
    return answer.json();
  }
}
