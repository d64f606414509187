/**
 * Forms in a dialog: fields of every kind, and refusals next to the field that they name.
 * @module
 */
import { Unanswered } from "./api.js";
import { button, el, fill } from "./dom.js";
import { bodyValue, fieldOfRefusal } from "./kinds.js";

/** What the input of a field is. @param {import("./kinds.js").Field} field @param {*} value @param {import("./names.js").Names} names */
function inputOf(field, value, names) {
  const id = `field-${field.name}`;
  const described = `${id}-help ${id}-fault`;
  if (field.type === "flag") return el("input", { type: "checkbox", id, name: field.name, checked: Boolean(value), "aria-describedby": described });
  if (field.type === "choice" || field.type === "record") {
    const records = field.type === "record" ? names.lists[field.of].map((record) =>
      [String(record.id), record.rd ? `${record.name} (${record.rd})` : record.name]) : [];
    const first = field.type === "record" ? [["", field.none ?? "Choose"]] : [];
    const options = [...first, ...records, ...(field.choices ?? [])];
    const select = el("select", { id, name: field.name, "aria-describedby": described, "aria-required": field.required ? "true" : null },
      options.map(([one, text]) => el("option", { value: one }, text)));
    select.value = value === null || value === undefined ? "" : String(value);
    return select;
  }
  return el("input", {
    type: "text", id, name: field.name, value: value ?? "", autocomplete: "off", spellcheck: "false",
      maxlength: field.most && field.type === "text" ? field.most : null,
    inputmode: field.type === "number" ? "numeric" : null, class: ["block", "address"].includes(field.type) ? "address" : null,
    "aria-describedby": described, "aria-required": field.required ? "true" : null,
  });
}

/** What a body has of an input; undefined leaves the member out. @param {import("./kinds.js").Field} field @param {HTMLInputElement|HTMLSelectElement} input */
export function valueOf(field, input) {
  if (field.type === "flag") return input.checked;
  if (field.type === "record") return input.value === "" ? (field.required ? undefined : null) : Number(input.value);
  if (field.type === "number") return /^[0-9]{1,10}$/.test(input.value.trim()) ? Number(input.value) : input.value;
  return field.type === "text" ? input.value : input.value.trim();
}

export class Form {
  /**
   * @param {object} given
   * @param {string} given.title
   * @param {import("./kinds.js").Field[]} given.fields
   * @param {object} given.values by the names of the fields
   * @param {string} given.submit what the button says
   * @param {boolean} [given.isDanger]
   * @param {import("./names.js").Names} given.names
   * @param {function(object, Form): Promise<void>} given.send is called with the values; what it throws is shown
   * @param {Node} [given.above] what is above the fields
   */
  constructor({ title, fields, values, submit, isDanger, names, send, above }) {
    Object.assign(this, { fields, names, send, inputs: {}, faults: {} });
    this.fault = el("p", { class: "fault", role: "alert", hidden: true });
    this.title = el("h2", { id: "dialog-title" }, title);
    this.place = el("div", { class: "fields" });
    this.submit = el("button", { type: "submit", class: `button main${isDanger ? " danger" : ""}` }, submit);
    this.cancel = button("Cancel", () => this.close());
    this.bar = el("div", { class: "actions dialog-bar" }, this.cancel, this.submit);
    this.body = el("form", { novalidate: true, method: "dialog" }, this.title, this.fault, above, this.place, this.bar);
    this.dialog = el("dialog", { "aria-labelledby": "dialog-title" }, this.body);
    this.body.addEventListener("submit", (event) => {
      event.preventDefault();
      this.onSubmit();
    });
    this.dialog.addEventListener("close", () => this.dialog.remove());
    this.setValues(values);
  }

  /** @param {object} values */
  setValues(values) {
    fill(this.place, this.fields.map((field) => this.drawField(field, bodyValue(values[field.name] ?? field.initial ?? null))));
  }

  drawField(field, value) {
    const input = inputOf(field, value, this.names);
    const id = input.id;
    this.inputs[field.name] = input;
    this.faults[field.name] = el("span", { class: "field-fault", id: `${id}-fault` });
    const label = el("label", { for: id }, field.label, field.required ? el("span", { class: "muted", "aria-hidden": "true" }, " *") : null);
    const help = el("span", { class: "muted help", id: `${id}-help` }, field.help ?? "");
    if (field.type === "flag") return el("div", { class: "field flag" }, input, el("div", {}, label, help, this.faults[field.name]));
    return el("div", { class: "field" }, label, input, help, this.faults[field.name]);
  }

  /** The values of the fields as a body has them. */
  values() {
    const pairs = this.fields.map((field) => [field.name, valueOf(field, this.inputs[field.name])]);
    return Object.fromEntries(pairs.filter(([, value]) => value !== undefined));
  }

  open() {
    document.body.append(this.dialog);
    this.dialog.showModal();
    (this.place.querySelector("input, select") ?? this.submit).focus();
    return this;
  }

  close() {
    this.dialog.close();
  }

  async onSubmit() {
    if (this.busy) return;
    this.setBusy(true);
    this.clearFaults();
    try {
      await this.send(this.values(), this);
    } catch (fault) {
      this.showFault(fault);
    }
    this.setBusy(false);
  }

  setBusy(busy) {
    this.busy = busy;
    this.submit.disabled = busy;
    this.body.setAttribute("aria-busy", String(busy));
  }

  clearFaults() {
    this.fault.hidden = true;
    for (const field of this.fields) {
      this.faults[field.name].textContent = "";
      this.inputs[field.name].removeAttribute("aria-invalid");
    }
  }

  /** Shows the register's text next to the field that it names, or above all. @param {Error} fault */
  showFault(fault) {
    const name = fault.code ? fieldOfRefusal(fault.code, fault.message, this.fields) : null;
    const text = fault.code ? fault.message : fault instanceof Unanswered ? fault.message : fault.message || String(fault);
    if (name) {
      this.faults[name].textContent = text;
      this.inputs[name].setAttribute("aria-invalid", "true");
      this.inputs[name].focus();
      return;
    }
    fill(this.fault, text);
    this.fault.hidden = false;
    this.submit.focus();
  }

  /** Shows something else in the dialog, with buttons of its own. @param {string} title @param {Array} content @param {Array} buttons */
  replace(title, content, buttons) {
    fill(this.title, title);
    this.fault.hidden = true;
    fill(this.place, content);
    fill(this.bar, buttons);
    (this.bar.querySelector(".main") ?? this.bar.querySelector("button"))?.focus();
  }

  /** Shows the fields again. @param {object} values */
  restore(title, values) {
    fill(this.title, title);
    this.setValues(values);
    fill(this.bar, this.cancel, this.submit);
    this.place.querySelector("input, select")?.focus();
  }
}
