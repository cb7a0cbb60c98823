// Rows of one height, of which only those in view are in the page.
//
// A browser has no room for a scrolled element of more than some millions of pixels. Where the rows need more, the
// scroll bar stands for all of them at a smaller scale, and wheel and keys move by rows.

const TALLEST = 6_000_000;
const SPARE = 6;

export class VirtualRows {
  /**
   * @param scroller element that scrolls, with `head` first in it, where there is one
   * @param make makes the element of a row, and `fill(element, index)` shows a row in it
   */
  constructor({ scroller, rowHeight, headHeight = 0, make, fill }) {
    Object.assign(this, { scroller, rowHeight, headHeight, make, fill, count: 0, exact: 0, rows: [] });
    this.spacer = document.createElement("div");
    this.spacer.className = "spacer";
    this.spacer.setAttribute("role", "rowgroup");
    scroller.append(this.spacer);
    scroller.addEventListener("scroll", () => this.scrolled());
    scroller.addEventListener("wheel", (event) => this.wheel(event), { passive: false });
    new ResizeObserver(() => this.layOut()).observe(scroller);
  }

  setCount(count) {
    this.count = count;
    this.layOut();
  }

  get visible() {
    return Math.max(1, Math.floor((this.scroller.clientHeight - this.headHeight) / this.rowHeight));
  }

  layOut() {
    const tall = this.count * this.rowHeight;
    this.isScaled = tall > TALLEST;
    this.spacer.style.height = `${Math.min(tall, TALLEST)}px`;
    const room = TALLEST - this.visible * this.rowHeight;
    this.scale = this.isScaled ? (this.count - this.visible) / room : 1 / this.rowHeight;
    this.scrolled();
  }

  // Where the scroll bar was moved by this very list, the exact row stays.
  scrolled() {
    const shown = this.scroller.scrollTop;
    if (!this.isScaled || Math.abs(this.exact / this.scale - shown) > 1) this.exact = shown * this.scale;
    if (this.isScaled) this.exact = Math.max(0, Math.min(this.exact, this.count - this.visible));
    this.draw();
  }

  wheel(event) {
    if (!this.isScaled || event.deltaX || event.ctrlKey) return;
    event.preventDefault();
    const lines = event.deltaMode ? event.deltaY : event.deltaY / this.rowHeight;
    this.goTo(this.exact + lines);
  }

  /** Has the row at the top, as far as there are rows below. */
  goTo(row) {
    this.exact = Math.max(0, Math.min(row, this.count - this.visible));
    this.scroller.scrollTop = this.exact / this.scale;
    this.draw();
  }

  /** Scrolls no farther than needed for a row to be in view. */
  reveal(row) {
    if (row < Math.ceil(this.exact)) this.goTo(row);
    else if (row >= Math.floor(this.exact) + this.visible) this.goTo(row - this.visible + 1);
  }

  draw() {
    const first = Math.max(0, Math.floor(this.exact) - (this.isScaled ? 0 : SPARE));
    const last = Math.min(this.count, Math.ceil(this.exact) + this.visible + SPARE);
    const top = this.isScaled ? this.scroller.scrollTop : first * this.rowHeight;
    this.provide(Math.max(0, last - first));
    this.rows.forEach((row, at) => {
      row.style.transform = `translateY(${top + at * this.rowHeight}px)`;
      this.fill(row, first + at);
    });
  }

  // As many elements of rows as are in view.
  provide(needed) {
    while (this.rows.length < needed) {
      const row = this.make();
      this.rows.push(row);
      this.spacer.append(row);
    }
    for (const row of this.rows.splice(needed)) row.remove();
  }
}
