import { say } from "./announcer.js";
import { byId, make, makeButton } from "./elements.js";
import { choiceField, labelled, numberField, textField } from "./fields.js";
import { Roving } from "./roving.js";
import { clearReply } from "./sender.js";

/** What can be done at a moment of a live page: time goes on, ways back, forks, and events taken out. */

/** The actions below the event. */
export class Actions {
  constructor(live) {
    this.live = live;
    this.place = make("div", { class: "reply-place" });
    this.tick = this.tickForm();
    this.fork = this.forkForm();
    this.buttons = make("div", { class: "buttons", role: "toolbar", "aria-label": "Branch and events" });
    this.stop = new Roving(this.buttons, "button");
    this.make();
    byId("actions").append(this.tick, this.buttons, this.fork, this.place);
    byId("undo").addEventListener("click", () => this.move("undo", "back"));
    byId("redo").addEventListener("click", () => this.move("redo", "forward"));
  }

  /** Makes the buttons. */
  make() {
    const { live } = this;
    const { viewer } = live;
    const doing = (id, text, title, action) => makeButton(text, { id, title }, action);
    const sending = (id, text, title, line) => doing(id, text, title, () => live.send(line(), this.place));
    this.back = sending("back-here", "Back to here", "Undo all later events, for everybody",
      () => `back ${viewer.branch.name} ${viewer.newest - viewer.place}`);
    this.excise = sending("excise", "Take this event out", "All other events happen again without it, for everybody",
      () => `excise ${viewer.branch.name} ${viewer.place}`);
    this.restore = sending("restore", "Bring it back", "Bring back what was last taken out",
      () => `restore ${viewer.branch.name}`);
    this.drop = doing("drop", "Drop this branch", "Remove this branch, for everybody", () => this.askDrop());
    const forkTitle = "A new branch begins with the events up to this one";
    const fork = doing("fork", "Fork here", forkTitle, () => this.openFork());
    this.buttons.append(this.back, fork, this.excise, this.restore, this.drop);
  }

  /** Time goes on at one node, or at both. */
  tickForm() {
    const time = numberField("ms", "1000", { required: "", max: "1000000000000" });
    const nodes = choiceField("nodes", [["ab", "both nodes"], ["a", "node a"], ["b", "node b"]], "ab");
    const fields = make("div", { class: "fields" }, labelled("milliseconds", time), labelled("at", nodes));
    const submit = make("button", { type: "submit" }, "Tick");
    const form = make("form", { class: "tick-form", role: "group", "aria-label": "Advance the clock" }, fields, submit);
    form.addEventListener("submit", async (event) => {
      event.preventDefault();
      for (const node of nodes.value) {
        if (!(await this.live.step(`tick ${node} ${time.value}`, this.place))) return;
      }
    });
    return form;
  }

  /** Asks for the name of a fork. */
  forkForm() {
    const rules = { required: "", maxlength: "16", pattern: "[a-z][a-z0-9\\-]*", id: "fork-name" };
    this.name = textField("fork-name", "", rules);
    const form = make("form", { class: "fork-form", role: "group", "aria-label": "A new branch", hidden: "" },
      labelled("name of the new branch (letters a to z, digits, dashes)", this.name),
      make("button", { type: "submit" }, "Fork"));
    form.addEventListener("submit", (event) => {
      event.preventDefault();
      this.sendFork();
    });
    form.addEventListener("keydown", (event) => {
      if (event.key === "Escape") this.closeFork();
    });
    return form;
  }

  /** Shows the form for a fork, or takes it away. */
  openFork() {
    this.fork.hidden = !this.fork.hidden;
    if (!this.fork.hidden) this.name.focus();
  }

  /** Takes the form for a fork away. */
  closeFork() {
    this.fork.hidden = true;
    byId("fork").focus();
  }

  /** Makes a fork, and goes there. */
  async sendFork() {
    const { branch, place } = this.live.viewer;
    const name = this.name.value.trim();
    if (!(await this.live.send(`fork ${branch.name} ${place} ${name}`, this.place))) return;
    this.fork.hidden = true;
    this.name.value = "";
    this.live.follow(name);
  }

  /** Drops the branch at the second click. */
  askDrop() {
    const { name } = this.live.viewer.branch;
    if (this.drop.dataset.asked === name) {
      this.live.send(`drop ${name}`, this.place);
      return;
    }
    this.drop.dataset.asked = name;
    this.drop.textContent = `Drop ${name} for everybody?`;
    say(this.drop.textContent);
  }

  /** Undoes the newest event, or has it happen again. */
  move(id, word) {
    if (byId(id).getAttribute("aria-disabled") === "true") return;
    this.live.send(`${word} ${this.live.viewer.branch.name} 1`, this.place);
  }

  /** Shows what can be done at this moment. */
  show(isNewBranch) {
    const { viewer, canStep, canChange, excised } = this.live;
    const { branch, place, newest, isNewest } = viewer;
    byId("actions").hidden = !canChange;
    this.tick.hidden = !canStep;
    this.back.hidden = isNewest;
    this.excise.hidden = place === 0;
    this.restore.hidden = !excised.has(branch.name);
    this.drop.hidden = viewer.run.branches.filter((it) => !it.former).length < 2;
    if (isNewBranch) {
      this.drop.textContent = "Drop this branch";
      delete this.drop.dataset.asked;
      clearReply(this.place);
    }
    this.stop.settle();
    byId("undo").setAttribute("aria-disabled", String(!canChange || newest === 0));
    byId("redo").setAttribute("aria-disabled", String(!canChange || branch.undone === 0));
  }
}
