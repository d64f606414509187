/**
 * The map of the space of a prefix: a grid of its addresses if it is small, else sixteen rows of blocks to scale.
 * @module
 */
import { addressText, blockText, readMasked } from "./address.js";
import { el, fill } from "./dom.js";
import { hrefOf } from "./router.js";
import { cellsOf, isGrid, placeIn, rangeEnds, rowsOf, spansOf } from "./space.js";

/** How wide a span must be, in parts of the row, for its name to be written in it. */
const NAMED_WIDTH = 0.13;

export class SpaceMap {
  /**
   * @param {object} given
   * @param {import("./address.js").Block} given.block what is shown
   * @param {import("./address.js").Block} given.prefix the prefix, of which it is a part
   * @param {object} given.record of the prefix
   * @param {{nodes: object[], ranges: object[], addresses: object[], total: number}} given.found
   * @param {boolean} given.mayChange
   * @param {function(string, object): void} given.onFree is asked for a new record: the kind and its first values
   * @param {function(import("./address.js").Block): string} given.zoom the address of the view of a part
   */
  constructor(given) {
    Object.assign(this, given);
    this.said = el("p", { class: "map-said", "aria-hidden": "true" }, "\u00a0");
    this.field = el("div", { class: isGrid(this.block) ? "map grid" : "map scale", role: "group", "aria-label": `Map of ${blockText(this.block)}` });
    fill(this.field, isGrid(this.block) ? this.drawCells() : this.drawRows());
    this.element = el("figure", { class: "map-box" }, this.legend(), this.field, this.said);
    this.field.addEventListener("pointerover", (event) => this.say(event.target));
    this.field.addEventListener("pointerleave", () => this.say(null));
    this.field.addEventListener("focusin", (event) => this.say(event.target));
    this.field.addEventListener("keydown", (event) => this.onKey(event));
    this.stops = [...this.field.querySelectorAll("[data-stop]")];
    if (this.stops[0]) this.stops[0].tabIndex = 0;
  }

  legend() {
    const kinds = isGrid(this.block)
      ? [["address", "taken"], ["free", "free"], ["prefix", "in a prefix"], ["range", "in a range"], ["withheld", "filled by others"], ["kept", "kept back"]]
      : [["prefix", "prefix"], ["part", "many prefixes"], ["free", "no prefix"], ["range", "range"], ["withheld", "range filled by others"],
        ["address", "address"]];
    return el("figcaption", { class: "legend" }, kinds.map(([kind, text]) =>
      el("span", {}, el("span", { class: `key ${kind}`, "aria-hidden": "true" }), text)));
  }

  /** Names what is under the pointer. @param {?Element} target */
  say(target) {
    const name = target?.closest?.("[aria-label]:not(.map)")?.getAttribute("aria-label");
    this.said.textContent = name ?? "\u00a0";
  }

  /** One part of the map: a link to a record or a part, a button for what is free, or a plain mark. */
  stop(name, kind, href, onClick, given = {}) {
    const tag = href ? "a" : onClick ? "button" : "span";
    const properties = { class: `stop ${kind}`, "aria-label": name, tabindex: -1, data: { stop: "" }, href, ...given };
    if (tag === "button") Object.assign(properties, { type: "button", on: { click: onClick } });
    if (tag === "span") properties.role = "img";
    return el(tag, properties);
  }

  drawCells() {
    const mask = this.prefix.length;
    return cellsOf(this.block, this.prefix, this.record.is_pool, this.found).map((cell) => {
      const href = cell.kind === "address" ? hrefOf(["ip-addresses", cell.record.id]) : cell.kind === "prefix" && cell.prefix
        ? hrefOf(["prefixes", cell.prefix.id]) : null;
      const isOpen = this.mayChange && (cell.kind === "free" || cell.kind === "range");
      const onClick = isOpen ? () => this.onFree("ip-addresses", { address: `${cell.address}/${mask}`, vrf: this.record.vrf }) : null;
      const made = this.stop(cell.name, cell.range && cell.kind !== "range" ? `${cell.kind} in-range` : cell.kind, href, onClick);
      made.append(cell.address.split(/[.:]/).pop() || "0");
      return made;
    });
  }

  drawRows() {
    const spans = spansOf(this.block, this.found.nodes);
    const ranges = this.found.ranges.map((record) => ({ ...rangeEnds(record), record, kind: record.mark_populated ? "withheld" : "range" }));
    const hosts = this.found.total <= this.found.addresses.length ? this.found.addresses.map((record) => readMasked(record.address).number) : [];
    return rowsOf(this.block).map((row, index) => {
      const lane = el("div", { class: "lane" });
      for (const span of spans) this.drawSpan(lane, row, span);
      for (const range of ranges) this.drawRange(lane, row, range);
      for (const number of hosts) this.drawHost(lane, row, number);
      return el("div", { class: "map-row" }, el("span", { class: "map-start" }, addressText(row)), lane,
        el("span", { class: "map-end", data: { row: index } }));
    });
  }

  /** @param {HTMLElement} lane @param {import("./address.js").Block} row */
  drawSpan(lane, row, span) {
    const place = placeIn(row, span);
    if (!place) return;
    const href = span.kind === "part" ? this.zoom(span.block) : span.record ? hrefOf(["prefixes", span.record.id]) : null;
    const fresh = { prefix: blockText(span.block), vrf: this.record.vrf };
    const onClick = span.kind === "free" && this.mayChange ? () => this.onFree("prefixes", fresh) : null;
    const kind = `${span.kind} ${span.record?.status?.value ?? ""}${place.begins ? "" : " goes-on"}`;
    const made = this.stop(span.name, kind, href, onClick, place.begins ? {} : { "aria-hidden": "true", data: {} });
    made.style.setProperty("left", `${place.left * 100}%`);
    made.style.setProperty("width", `${place.width * 100}%`);
    if (place.width >= NAMED_WIDTH && place.begins && span.kind !== "free") made.append(el("span", { class: "cut" }, span.name));
    lane.append(made);
  }

  drawRange(lane, row, range) {
    const place = placeIn(row, range);
    if (!place) return;
    const title = `range ${range.record.start_address.split("/")[0]} – ${range.record.end_address.split("/")[0]}`;
    const name = [title, range.record.description, range.kind === "withheld" ? "filled by others" : ""].filter(Boolean).join(", ");
    const made = this.stop(name, `strip ${range.kind}`, hrefOf(["ip-ranges", range.record.id]), null, place.begins ? {} : { "aria-hidden": "true", data: {} });
    made.style.setProperty("left", `${place.left * 100}%`);
    made.style.setProperty("width", `${place.width * 100}%`);
    lane.append(made);
  }

  drawHost(lane, row, number) {
    const place = placeIn(row, { first: number, last: number });
    if (place) lane.append(el("span", { class: "tick", "aria-hidden": "true", style: { left: `${place.left * 100}%` } }));
  }

  /** Writes how many addresses a row has, where they are too many to be drawn. @param {number} row @param {number} count */
  sayCount(row, count) {
    const place = this.field.querySelector(`[data-row="${row}"]`);
    if (place && count > 0) place.textContent = count.toLocaleString("en");
  }

  /** One stop of the keyboard is on the map; the arrows go from part to part. @param {KeyboardEvent} event */
  onKey(event) {
    const at = this.stops.indexOf(document.activeElement);
    if (at < 0 || event.ctrlKey || event.metaKey || event.altKey) return;
    const columns = isGrid(this.block) ? getComputedStyle(this.field).gridTemplateColumns.split(" ").length : 1;
    const steps = { ArrowRight: 1, ArrowLeft: -1, ArrowDown: columns, ArrowUp: -columns, Home: -Infinity, End: Infinity };
    if (!(event.key in steps)) return;
    const next = this.stops[Math.max(0, Math.min(this.stops.length - 1, at + steps[event.key]))];
    this.stops[at].tabIndex = -1;
    next.tabIndex = 0;
    next.focus();
    event.preventDefault();
  }
}
