/**
 * The tree of a plan on the page: a grid of rows that open and close, by mouse and by keyboard.
 * @module
 */
import { asides, get, isLeft } from "./api.js";
import { blockText } from "./address.js";
import { announce, el } from "./dom.js";
import { bar, statusMark } from "./marks.js";
import { hasBelow, visibleRows } from "./plan.js";
import { hrefOf } from "./router.js";
import { RowWindow } from "./window.js";

const HEADINGS = ["Block", "Used", "Status", "Role", "Description"];
const UTILIZED = { prefix: "prefixes", aggregate: "aggregates" };

/** @param {number} count @param {string} one */
export const countOf = (count, one, many = `${one}s`) => `${count.toLocaleString("en")} ${count === 1 ? one : many}`;

export class Tree {
  /**
   * @param {import("./plan.js").Reader} reader
   * @param {import("./plan.js").PlanNode[]} roots
   * @param {{signal: AbortSignal, roleName: function(?number): string, rirName: function(number): string, onFault: function(Error): void,
   *   onMove?: function(import("./plan.js").PlanNode): void}} context
   */
  constructor(reader, roots, context) {
    Object.assign(this, { reader, roots, context, active: 0, figures: new Map(), rows: visibleRows(roots) });
    this.body = el("div", { role: "rowgroup" });
    const head = el("div", { role: "row", class: "tree-row head" }, HEADINGS.map((text) => el("span", { role: "columnheader" }, text)));
    this.element = el(
      "div",
      { class: "tree scroller", role: "treegrid", tabindex: 0, "aria-label": "Address plan", on: { keydown: (event) => this.onKey(event) } },
      el("div", { role: "rowgroup", class: "sticky" }, head),
      this.body,
    );
    this.element.addEventListener("focus", () => this.markActive());
    this.body.addEventListener("click", (event) => this.onClick(event));
    this.window = new RowWindow(this.element, this.body, (index) => this.drawRow(index), (first, last) => this.askFigures(first, last));
  }

  /** Begins once the element is in the page. */
  start() {
    this.refresh();
  }

  refresh() {
    this.rows = visibleRows(this.roots);
    this.active = Math.min(this.active, Math.max(0, this.rows.length - 1));
    this.element.setAttribute("aria-rowcount", String(this.rows.length + 1));
    this.window.reset(this.rows.length);
    this.markActive();
  }

  /** @param {number} index */
  drawRow(index) {
    const { node, level, at, of } = this.rows[index];
    const below = hasBelow(node);
    const row = el("div", {
      role: "row",
      id: `row-${index}`,
      class: `tree-row ${node.kind}${index === this.active ? " active" : ""}`,
      "aria-level": level,
      "aria-posinset": at,
      "aria-setsize": of,
      "aria-rowindex": index + 2,
      "aria-expanded": below ? String(node.open) : null,
      "aria-busy": node.busy ? "true" : null,
      data: { index },
    });
    row.append(
      el("span", { role: "gridcell", class: "place", style: { "--level": level - 1 } },
        el("span", { class: below ? "twist" : "twist none", "aria-hidden": "true" }), this.nameOf(node)),
      el("span", { role: "gridcell", class: "used" }, this.figureOf(node)),
      el("span", { role: "gridcell" }, node.kind === "prefix" ? statusMark(node.record.status) : ""),
      el("span", { role: "gridcell", class: "cut" }, this.roleOf(node)),
      el("span", { role: "gridcell", class: "cut muted" }, node.record?.description ?? ""),
    );
    return row;
  }

  /** @param {import("./plan.js").PlanNode} node */
  nameOf(node) {
    const below = node.count > 0 ? el("span", { class: "count" }, countOf(node.count, "prefix", "prefixes")) : null;
    const link = (path, text, name) => el("a", { href: hrefOf(path), tabindex: -1, class: name }, text);
    if (node.kind === "table") {
      const rd = node.record?.rd ? el("span", { class: "count" }, node.record.rd) : null;
      return [node.record ? link(["vrfs", node.vrf], node.record.name, "table-name") : el("span", { class: "table-name" }, "Global table"), rd, below];
    }
    if (node.kind === "aggregate") {
      return [link(["aggregates", node.record.id], node.record.prefix, "address"), el("span", { class: "tag" }, this.context.rirName(node.record.rir)), below];
    }
    if (node.kind === "prefix") return [link(["prefixes", node.record.id], node.record.prefix, "address"), below];
    if (node.kind === "note") return el("span", { class: "muted" }, node.text);
    return [el("span", { class: "address part-name" }, blockText(node.block)), below];
  }

  roleOf(node) {
    return node.kind === "prefix" ? this.context.roleName(node.record.role) : "";
  }

  figureOf(node) {
    if (!(node.kind in UTILIZED)) return "";
    const figure = this.figures.get(`${node.kind}/${node.record.id}`);
    return typeof figure === "number" ? bar(figure) : el("span", { class: "bar waiting", "aria-hidden": "true" });
  }

  /** Asks for the figures and counts of the rows in sight, six at once; those of rows that were scrolled away are left out. */
  askFigures(first, last) {
    this.sight = [first, last];
    for (let index = first; index < last; index += 1) {
      const { node } = this.rows[index];
      if (node.kind in UTILIZED) this.askFigure(node);
      else if (node.kind === "table" && node.count === null) this.askCount(node);
    }
  }

  /** @param {import("./plan.js").PlanNode} node */
  isInSight(node) {
    const [first, last] = this.sight;
    return this.rows.slice(first, last).some((row) => row.node === node);
  }

  async askFigure(node) {
    const key = `${node.kind}/${node.record.id}`;
    if (this.figures.has(key)) return;
    this.figures.set(key, null);
    const { signal } = this.context;
    const task = async () => (this.isInSight(node) ? get(`${UTILIZED[node.kind]}/${node.record.id}/utilization/`, {}, signal) : null);
    try {
      const answer = await asides.run(task, signal);
      if (answer === null) this.figures.delete(key);
      else this.figures.set(key, answer.utilization);
      if (answer !== null) this.redraw(node);
    } catch (fault) {
      this.figures.delete(key);
      if (!isLeft(fault) && fault.status !== 404) this.context.onFault(fault);
    }
  }

  async askCount(node) {
    if (node.asked) return;
    node.asked = true;
    const { signal } = this.context;
    try {
      const page = await asides.run(() => this.reader.source.page({ vrf_id: node.vrf, limit: 1 }), signal);
      node.count = page.count;
      if (page.count === 0 && node.record) node.children ??= [];
      this.redraw(node);
    } catch (fault) {
      node.asked = false;
      if (!isLeft(fault)) this.context.onFault(fault);
    }
  }

  redraw(node) {
    const [first, last] = this.sight ?? [0, this.rows.length];
    for (let index = first; index < last; index += 1) if (this.rows[index]?.node === node) this.window.redraw(index);
  }

  /** Opens or closes a node. @param {import("./plan.js").PlanNode} node @param {boolean} [open] */
  async toggle(node, open = !node.open) {
    if (!hasBelow(node) || node.busy) return;
    if (open && node.children === null) {
      node.busy = true;
      this.redraw(node);
      try {
        await this.reader.read(node);
      } catch (fault) {
        if (!isLeft(fault)) this.context.onFault(fault);
        return;
      } finally {
        node.busy = false;
        this.redraw(node);
      }
    }
    node.open = open;
    const top = this.element.scrollTop;
    this.refresh();
    this.element.scrollTop = top;
    announce(open ? `Opened, ${countOf(node.children.length, "row")}` : "Closed");
  }

  /** @param {MouseEvent} event */
  onClick(event) {
    const row = event.target.closest("[role=row]");
    if (!row) return;
    this.move(Number(row.dataset.index));
    if (!event.target.closest("a")) this.toggle(this.rows[this.active].node);
  }

  markActive() {
    for (const row of this.body.querySelectorAll(".active")) row.classList.remove("active");
    const row = this.window.drawn.get(this.active);
    row?.classList.add("active");
    if (row) this.element.setAttribute("aria-activedescendant", row.id);
    else this.element.removeAttribute("aria-activedescendant");
  }

  /** @param {number} index */
  move(index) {
    if (this.rows.length === 0) return;
    this.active = Math.max(0, Math.min(this.rows.length - 1, index));
    this.window.reveal(this.active);
    this.markActive();
    this.context.onMove?.(this.rows[this.active].node);
  }

  /** The row of the parent of the active one. */
  parentIndex() {
    const { level } = this.rows[this.active];
    for (let index = this.active - 1; index >= 0; index -= 1) if (this.rows[index].level < level) return index;
    return this.active;
  }

  /** @param {KeyboardEvent} event */
  onKey(event) {
    const row = this.rows[this.active];
    if (!row || event.ctrlKey || event.metaKey || event.altKey) return;
    const page = Math.max(1, Math.floor(this.element.clientHeight / this.window.height) - 2);
    const steps = { ArrowDown: 1, ArrowUp: -1, PageDown: page, PageUp: -page, Home: -Infinity, End: Infinity };
    if (event.key in steps) this.move(this.active + steps[event.key]);
    else if (event.key === "ArrowRight" && row.node.open) this.move(this.active + 1);
    else if (event.key === "ArrowRight") this.toggle(row.node, true);
    else if (event.key === "ArrowLeft" && row.node.open && hasBelow(row.node)) this.toggle(row.node, false);
    else if (event.key === "ArrowLeft") this.move(this.parentIndex());
    else if (event.key === "Enter") this.follow();
    else if (event.key === " ") this.toggle(row.node);
    else return;
    event.preventDefault();
  }

  /** Goes to the record of the active row, or opens what has none. */
  follow() {
    const link = this.window.drawn.get(this.active)?.querySelector("a");
    if (link) window.location.hash = new URL(link.href).hash;
    else this.toggle(this.rows[this.active].node);
  }

  end() {
    this.window.end();
  }
}
