/**
 * Records as a table: what is loaded can be sorted and saved as CSV, and more is loaded when asked for.
 * @module
 */
import { isLeft, PAGE } from "./api.js";
import { csvText, saveFile } from "./csv.js";
import { button, el, fill, spoken } from "./dom.js";
import { RowWindow } from "./window.js";

/**
 * @typedef {object} Column
 * @property {string} title
 * @property {string} [name] its name in a CSV
 * @property {boolean} [isAction] whether it has buttons in place of a member
 * @property {function(object): string} text
 * @property {function(object): (Node|string|Array)} [cell] what is shown if it is not the text
 * @property {function(object): *} [key] what it is sorted by if it is not the text
 * @property {string} [size] its width as CSS has it
 * @property {number} [rank] 1 is shown in the narrowest window, 2 in a wider one, 3 in a wide one
 */

/** The most rows that are loaded: a browser has no longer lists. */
const MOST_ROWS = 400_000;

/** @param {*} one @param {*} other */
const compare = (one, other) => (one < other ? -1 : one > other ? 1 : 0);

const collate = new Intl.Collator("en", { numeric: true, sensitivity: "base" });

export class RecordTable {
  /**
   * @param {object} given
   * @param {string} given.label what the table is, for screen readers
   * @param {string} given.file the name of its CSV
   * @param {Column[]} given.columns
   * @param {function(number, number): Promise<{rows: object[], total: number}>} given.load from an offset, at most so many
   * @param {string} [given.empty] what is said if there is nothing
   * @param {function(Error): void} given.onFault
   */
  constructor({ label, file, columns, load, empty, onFault }) {
    Object.assign(this, { label, file, columns, loadPage: load, empty: empty ?? "Nothing here", onFault, rows: [], total: null, sorted: null });
    this.body = el("div", { role: "rowgroup" });
    this.head = el("div", { role: "row", class: "table-row head" });
    const size = columns.map((column) => column.size ?? "minmax(0, 1fr)").join(" ");
    this.table = el("div", { role: "table", "aria-label": label, class: "table" }, el("div", { role: "rowgroup", class: "sticky" }, this.head), this.body);
    this.scroller = el("div", { class: "scroller", tabindex: 0, role: "region", "aria-label": `${label}, scrolled`, style: { "--columns": size } }, this.table);
    this.said = el("p", { class: "muted said", role: "status" });
    this.more = button("Load more", () => this.load(), { class: "button small" });
    this.all = button("Load all", () => this.load(true), { class: "button small" });
    this.save = button("CSV", () => this.saveCsv(), { class: "button small", title: "Save what is loaded as CSV" });
    this.element = el("div", { class: "table-box" }, el("div", { class: "table-bar" }, this.said,
      el("div", { class: "actions" }, this.more, this.all, this.save)), this.scroller);
    this.window = new RowWindow(this.scroller, this.body, (index) => this.drawRow(index));
    this.drawHead();
  }

  drawHead() {
    const cells = this.columns.map((column, index) => {
      const order = this.sorted?.index === index ? (this.sorted.down ? "descending" : "ascending") : "none";
      const head = column.isAction ? spoken(column.title) : button(column.title, () => this.sort(index), { class: "sort" });
      return el("span", { role: "columnheader", "aria-sort": column.isAction ? null : order, class: `rank-${column.rank ?? 1}` }, head);
    });
    const focused = [...this.head.querySelectorAll("button")].indexOf(document.activeElement);
    fill(this.head, cells);
    this.head.querySelectorAll("button")[focused]?.focus();
  }

  /** @param {number} index */
  drawRow(index) {
    const record = this.rows[index];
    const cells = this.columns.map((column) =>
      el("span", { role: "cell", class: `cut rank-${column.rank ?? 1}` }, column.cell ? column.cell(record) : column.text(record)));
    return el("div", { role: "row", class: "table-row", "aria-rowindex": index + 2 }, cells);
  }

  /** Loads a page more, or all pages. @param {boolean} [whole] */
  async load(whole = false) {
    if (this.loading) {
      this.stopped = true;
      return;
    }
    Object.assign(this, { loading: true, stopped: false, fault: null });
    try {
      do {
        const { rows, total } = await this.loadPage(this.rows.length, PAGE);
        this.rows.push(...rows);
        this.total = total;
        this.show();
        if (rows.length === 0) break;
      } while (whole && !this.stopped && this.rows.length < Math.min(this.total, MOST_ROWS));
    } catch (fault) {
      this.fault = fault;
      this.onFault(fault);
    }
    this.loading = false;
    this.show();
    if (this.fault && !isLeft(this.fault)) this.said.textContent = `${this.said.textContent}. ${this.fault.message}`;
  }

  show() {
    if (this.sorted && !this.loading) this.arrange();
    const [loaded, total] = [this.rows.length, this.total ?? 0];
    const isPart = loaded < total;
    const numbers = isPart ? `${loaded.toLocaleString("en")} of ${total.toLocaleString("en")} are loaded` : `${total.toLocaleString("en")} in all`;
    this.said.textContent = total === 0 ? this.empty : isPart && this.sorted ? `${numbers}; only these are sorted` : numbers;
    const isFull = !isPart || loaded >= MOST_ROWS;
    this.more.hidden = isFull || this.loading;
    this.all.hidden = isFull;
    this.all.textContent = this.loading ? "Stop" : "Load all";
    this.save.hidden = loaded === 0;
    this.scroller.hidden = loaded === 0;
    this.table.setAttribute("aria-rowcount", String(total + 1));
    this.window.reset(loaded);
  }

  arrange() {
    const { index, down } = this.sorted;
    const column = this.columns[index];
    const key = column.key ?? column.text;
    const keyed = this.rows.map((record) => ({ record, key: key(record) }));
    keyed.sort((one, other) => (typeof one.key === "string" ? collate.compare(one.key, other.key) : compare(one.key, other.key)));
    if (down) keyed.reverse();
    this.rows = keyed.map(({ record }) => record);
  }

  /** @param {number} index of the column */
  sort(index) {
    if (this.loading) return;
    this.sorted = { index, down: this.sorted?.index === index && !this.sorted.down };
    this.drawHead();
    this.show();
    this.scroller.scrollTop = 0;
  }

  saveCsv() {
    const columns = this.columns.filter((column) => !column.isAction);
    const header = columns.map((column) => column.name ?? column.title);
    saveFile(this.file, csvText(header, this.rows.map((record) => columns.map((column) => column.text(record)))));
  }

  end() {
    this.window.end();
  }
}

/** Loads pages of a list that is there whole. @param {object[]} list */
export const loadFrom = (list) => async (offset, most) => ({ rows: list.slice(offset, offset + most), total: list.length });
