/**
 * Elements. Texts are set as texts, never as HTML, so a record cannot bring an element or a script into the page.
 * @module
 */

/** @param {Element} element @param {string} name @param {*} value */
function setProperty(element, name, value) {
  if (name === "on") for (const [event, listener] of Object.entries(value)) element.addEventListener(event, listener);
  else if (name === "style") for (const [property, text] of Object.entries(value)) element.style.setProperty(property, text);
  else if (name === "data") Object.assign(element.dataset, value);
  else if (name === "value" || name === "checked" || name === "disabled" || name === "indeterminate") element[name] = value;
  else element.setAttribute(name, value === true ? "" : String(value));
}

/** @param {Array} children @returns {(Node|string)[]} */
const nodesOf = (children) =>
  children
    .flat(Infinity)
    .filter((child) => child !== null && child !== undefined && child !== false)
    .map((child) => (child instanceof Node ? child : String(child)));

/**
 * Makes an element. A property of null, undefined or false is left out; children may be nested lists, and null ones are left out.
 * @param {string} tag @param {object} [properties] @param {...(Node|string|number|null|undefined|false|Array)} children
 */
export function el(tag, properties = {}, ...children) {
  const element = document.createElement(tag);
  for (const [name, value] of Object.entries(properties)) {
    if (value !== null && value !== undefined && value !== false) setProperty(element, name, value);
  }
  element.append(...nodesOf(children));
  return element;
}

/** Puts other children into an element. @param {Element} element @param {...*} children */
export function fill(element, ...children) {
  element.replaceChildren(...nodesOf(children));
  return element;
}

/** A text that only screen readers get. @param {string} text */
export const spoken = (text) => el("span", { class: "spoken" }, text);

/** A button. @param {string} text @param {function(Event): void} onClick @param {object} [properties] */
export const button = (text, onClick, properties = {}) => el("button", { type: "button", class: "button", on: { click: onClick }, ...properties }, text);

/** Says something to screen readers without moving the focus. @param {string} text */
export function announce(text) {
  const place = document.getElementById("announcement");
  if (place) place.textContent = text;
}

/** Copies a text; where the browser has no clipboard for the page, by a selection. @param {string} text */
export async function copyText(text) {
  if (navigator.clipboard && window.isSecureContext) {
    await navigator.clipboard.writeText(text);
  } else {
    const area = el("textarea", { class: "spoken" });
    area.value = text;
    (document.querySelector("dialog[open]") ?? document.body).append(area);
    area.select();
    document.execCommand("copy");
    area.remove();
  }
  announce(`Copied ${text.length > 60 ? "the list" : text}`);
}

/** A button that copies a text. @param {string} text @param {string} [label] */
export function copyButton(text, label = `Copy ${text}`) {
  const made = el("button", { type: "button", class: "copy", "aria-label": label, title: label });
  made.addEventListener("click", async () => {
    try {
      await copyText(text);
    } catch {
      announce("The browser did not allow copying");
      return;
    }
    made.classList.add("copied");
    setTimeout(() => made.classList.remove("copied"), 1200);
  });
  return made;
}
