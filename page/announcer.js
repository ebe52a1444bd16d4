import { byId } from "./elements.js";

/** What is said aloud to those who hear the page: in one place, politely, and all that comes at once as one announcement. */

/** What has come since the last announcement. */
const WAITING = [];

/** Announces what is waiting. */
function announce() {
  // (a new text is said even where it is the same as the one before)
  byId("announcement").replaceChildren(WAITING.join(". "));
  WAITING.length = 0;
}

/** Has a text be said, after those that are waiting, unless it is one of them. */
export function say(text) {
  if (!text || WAITING.includes(text)) return;
  if (!WAITING.length) setTimeout(announce);
  WAITING.push(text);
}

/** The event of a moment in a sentence, or the opening. */
export function sentenceOf({ place, newest, moment, branch }) {
  if (!moment) return `the opening of ${branch.name}`;
  return `event ${place} of ${newest}: ${moment.event}: ${moment.outcome}${moment.who ? `, by ${moment.who}` : ""}`;
}

/** Has each event be said that the viewer comes to; where the slider has the focus it says so itself. */
export function announceEvents(viewer) {
  const its = () => viewer.moment ?? viewer.branch;
  let shown = its();
  viewer.listen(() => {
    const isNew = its() !== shown;
    shown = its();
    if (isNew && document.activeElement !== byId("slider")) say(sentenceOf(viewer));
  });
}
