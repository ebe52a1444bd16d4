import { make, makeButton } from "./elements.js";
import { choiceField, labelled, numberField, textField } from "./fields.js";

/** The form for a packet that comes to a node. */

const OF_ENDS = ["direction", "protocol", "source", "destination"];
const OF_TCP = ["flags", "seq", "ack", "window", "length", "scale"];
const OF_OTHERS = ["length"];
const FIRST = ["out", "udp", "10.0.0.1:1000", "192.0.2.9:53", "40"];
/** What the fields are called. */
const LABELS = { seq: "sequence number", ack: "acknowledges" };

/** The names of what a packet has besides its ends. */
function restOf({ protocol }) {
  return protocol === "tcp" ? OF_TCP : OF_OTHERS;
}

/** A packet out of the words of its event after the node. */
function readPacket([direction, protocol, source, destination, ...rest]) {
  const ends = { direction, protocol, source, destination };
  return { ...ends, ...Object.fromEntries(restOf(ends).map((name, at) => [name, rest[at] ?? ""])) };
}

/** The words of a packet's event after the node. */
function writtenPacket(packet) {
  const plain = { ...packet, flags: packet.flags.trim() || "-" };
  return [...OF_ENDS, ...restOf(packet)].map((name) => plain[name].trim()).filter(Boolean).join(" ");
}

/** The flags of a likely answer to a packet of TCP. */
function answeredFlags(flags) {
  if (flags === "S") return "SA";
  return flags.includes("F") ? "FA" : "A";
}

/** A likely answer to a packet: its ends change places, and it goes the other way; of TCP the numbers follow. */
export function answered(packet) {
  const { source, destination } = packet;
  const direction = packet.direction === "in" ? "out" : "in";
  const turned = { ...packet, direction, source: destination, destination: source };
  if (packet.protocol !== "tcp") return turned;
  const counted = Number(packet.length) + (/[SF]/.test(packet.flags) ? 1 : 0);
  const ack = String((Number(packet.seq) + counted) % 2 ** 32);
  return { ...turned, flags: answeredFlags(packet.flags), seq: packet.ack, ack, length: "0", scale: "" };
}

/** The packet that came to a node last, as the moments of a branch have it. */
function lastPacket(node, moments) {
  for (let at = moments.length - 1; at >= 0; at -= 1) {
    const words = moments[at].event.split(" ");
    if (words[0] === "packet" && words[1] === node) return readPacket(words.slice(2));
  }
  return readPacket(FIRST);
}

/** The fields of where a packet comes from and goes to. */
function endFields() {
  return [
    labelled("direction", choiceField("direction", [["in", "in"], ["out", "out"]], "out")),
    labelled("protocol", textField("protocol", "", { required: "", maxlength: "4" })),
    labelled("source", textField("source", "", { required: "", class: "end" })),
    labelled("destination", textField("destination", "", { required: "", class: "end" })),
  ];
}

/** The field of what a packet has besides its ends. */
function restField(name, value) {
  if (name === "flags") return textField(name, value, { maxlength: "6" });
  return numberField(name, value, name === "scale" ? { max: "14", placeholder: "none" } : { required: "" });
}

/** A form that sends a packet to a node. */
export class PacketForm {
  constructor(node, live) {
    this.node = node;
    this.live = live;
    this.packet = null;
    this.place = make("div", { class: "reply-place" });
    this.line = make("code", { class: "preview" });
    this.ends = make("div", { class: "fields" }, ...endFields());
    this.rest = make("div", { class: "fields" });
    const title = "Swap the ends and the direction";
    const answer = makeButton(`Answer at ${node}`, { title }, () => this.fill(answered(this.read())));
    const submit = make("button", { type: "submit", class: "main-button" }, `Send packet to ${node}`);
    const buttons = make("div", { class: "buttons" }, submit, answer);
    const comes = `A packet comes to ${node}`;
    const group = { role: "group", "aria-label": comes };
    this.form = make("form", group, this.ends, this.rest, this.line, buttons, this.place);
    const summary = make("summary", {}, comes);
    this.element = make("details", { class: "packet-form" }, summary, this.form);
    this.form.addEventListener("input", () => this.change());
    this.form.addEventListener("submit", (event) => this.submit(event));
  }

  /** Shows the form where packets can be sent, beginning with the packet that came last. */
  show(isShown, moments) {
    this.element.hidden = !isShown;
    if (isShown && !this.packet) this.fill(lastPacket(this.node, moments));
  }

  /** What the fields have. */
  read() {
    return { ...this.packet, ...Object.fromEntries(new FormData(this.form)) };
  }

  /** Fills the fields with a packet. */
  fill(packet) {
    this.packet = { flags: "S", seq: "0", ack: "0", window: "60000", length: "0", scale: "", ...packet };
    for (const field of this.ends.querySelectorAll("input, select")) field.value = this.packet[field.name];
    this.fillRest();
    this.preview();
  }

  /** Makes the fields that a packet of this protocol has besides its ends. */
  fillRest() {
    const field = (name) => labelled(LABELS[name] ?? name, restField(name, this.packet[name]));
    this.rest.replaceChildren(...restOf(this.packet).map(field));
  }

  /** Follows what is written: other protocols have other fields. */
  change() {
    const before = restOf(this.packet);
    this.packet = this.read();
    if (restOf(this.packet) !== before) this.fillRest();
    this.preview();
  }

  /** Shows the line that will be sent. */
  preview() {
    this.line.textContent = this.event;
  }

  /** The event that the fields make. */
  get event() {
    return `packet ${this.node} ${writtenPacket(this.read())}`;
  }

  /** Sends the packet. */
  submit(event) {
    event.preventDefault();
    this.live.step(this.event, this.place);
  }
}
