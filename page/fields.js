import { make } from "./elements.js";

/** Fields of forms. */

/** A field with its label above it. */
export function labelled(label, field) {
  return make("label", { class: "field" }, make("span", {}, label), field);
}

/** A field for a text. */
export function textField(name, value, attributes = {}) {
  const plain = { autocomplete: "off", autocapitalize: "off", spellcheck: "false" };
  return make("input", { type: "text", name, value, ...plain, ...attributes });
}

/** A field for a whole number. */
export function numberField(name, value, attributes = {}) {
  return make("input", { type: "number", name, value, min: "0", step: "1", ...attributes });
}

/** A field in which one of a few words is chosen. */
export function choiceField(name, words, chosen) {
  const option = ([value, text]) => make("option", value === chosen ? { value, selected: "" } : { value }, text);
  return make("select", { name }, ...words.map(option));
}
