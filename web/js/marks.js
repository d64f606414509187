/**
 * Small marks that several views have: statuses, bars of utilisation, names of tables.
 * @module
 */
import { el } from "./dom.js";

/** A status as the register answers it. @param {?{value: string, label: string}} status */
export const statusMark = (status) => (status ? el("span", { class: `status ${/^[a-z]+$/.test(status.value) ? status.value : ""}` }, status.label) : "");

/** A bar of utilisation. @param {number} percent */
export function bar(percent) {
  const level = percent >= 95 ? "full" : percent >= 80 ? "high" : "";
  const fillOf = el("span", { class: "bar-fill", style: { width: `${Math.min(100, percent)}%` } });
  return el("span", { class: `bar ${level}` }, el("span", { class: "bar-track", "aria-hidden": "true" }, fillOf),
    el("span", { class: "bar-text" }, `${percent} %`));
}

/** Facts with their names, side by side. @param {Array<?[string, *]>} pairs */
export const factList = (pairs) =>
  el("dl", { class: "facts" }, pairs.filter(Boolean).map(([name, value]) => el("div", {}, el("dt", {}, name), el("dd", {}, value))));

/** Who changed a record is not in the register. */
export const logLine = () => el("p", { class: "muted log-line" }, "Who changed it is in the proxy’s log.");
