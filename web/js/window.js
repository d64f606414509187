/**
 * A long list of rows of one height, of which only those in sight are elements.
 * @module
 */

/** How many rows above and below those in sight are drawn, too, and how many at most. */
const MARGIN = 8;
const MOST_DRAWN = 300;

export class RowWindow {
  /**
   * @param {HTMLElement} scroller the element that scrolls
   * @param {HTMLElement} body the element of the rows, inside it
   * @param {function(number): HTMLElement} draw makes the row of an index
   * @param {function(number, number): void} [onShown] is told which rows are drawn: from the first to before the last
   */
  constructor(scroller, body, draw, onShown) {
    Object.assign(this, { scroller, body, draw, onShown, count: 0, drawn: new Map(), height: 36 });
    body.classList.add("rows");
    scroller.addEventListener("scroll", () => this.later(), { passive: true });
    this.observer = new ResizeObserver(() => this.measure());
    this.observer.observe(scroller);
  }

  /** The height of a row is the style's, and another one in a narrow window. */
  measure() {
    const height = parseFloat(getComputedStyle(this.scroller).getPropertyValue("--row")) || 36;
    if (height !== this.height) this.clear();
    this.height = height;
    this.update();
  }

  /** Draws once before the next frame, however often it is called. */
  later() {
    if (this.asked || this.isEnded) return;
    this.asked = requestAnimationFrame(() => {
      this.asked = 0;
      this.update();
    });
  }

  /** Takes another number of rows, all to be drawn anew. @param {number} count */
  reset(count) {
    this.clear();
    this.count = count;
    this.measure();
  }

  clear() {
    for (const row of this.drawn.values()) row.remove();
    this.drawn.clear();
  }

  /** Draws one row anew if it is in sight. @param {number} index */
  redraw(index) {
    const old = this.drawn.get(index);
    if (!old) return;
    const row = this.placed(index);
    this.drawn.set(index, row);
    old.replaceWith(row);
  }

  /** @param {number} index */
  placed(index) {
    const row = this.draw(index);
    row.style.setProperty("transform", `translateY(${index * this.height}px)`);
    return row;
  }

  /** The rows in sight: from the first to before the last. */
  inSight() {
    const top = this.scroller.scrollTop - this.body.offsetTop;
    const first = Math.max(0, Math.floor(top / this.height) - MARGIN);
    const last = Math.min(this.count, Math.ceil((top + this.scroller.clientHeight) / this.height) + MARGIN);
    return [first, Math.min(Math.max(first, last), first + MOST_DRAWN)];
  }

  update() {
    if (this.isEnded) return;
    this.body.style.setProperty("height", `${this.count * this.height}px`);
    const [first, last] = this.inSight();
    for (const [index, row] of this.drawn) {
      if (index >= first && index < last) continue;
      row.remove();
      this.drawn.delete(index);
    }
    let before = null;
    for (let index = last - 1; index >= first; index -= 1) {
      let row = this.drawn.get(index);
      if (!row) {
        row = this.placed(index);
        this.drawn.set(index, row);
        this.body.insertBefore(row, before);
      }
      before = row;
    }
    this.onShown?.(first, last);
  }

  /** Scrolls until a row is in sight. @param {number} index */
  reveal(index) {
    const top = this.body.offsetTop + index * this.height;
    const { scrollTop, clientHeight } = this.scroller;
    if (top - this.body.offsetTop < scrollTop) this.scroller.scrollTop = top - this.body.offsetTop;
    else if (top + this.height > scrollTop + clientHeight) this.scroller.scrollTop = top + this.height - clientHeight;
    this.update();
  }

  /** The list is left: without the height of its view all its rows would be in sight. */
  end() {
    this.isEnded = true;
    this.observer.disconnect();
    cancelAnimationFrame(this.asked ?? 0);
  }
}
