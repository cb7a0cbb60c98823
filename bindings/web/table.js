// A table whose rows in view alone are in the page: a grid for the keyboard and for screen readers.
import { element } from "./dom.js";
import { Pages } from "./pages.js";
import { VirtualRows } from "./virtual.js";

const ROW_HEIGHT = 28;
const HEAD_HEIGHT = 32;
const PAGE = 256;
/** A text of more letters may be cut off in its cell, and is shown as a whole at the pointer. A number is never cut off. */
const LONG = 24;
/** The width of a digit, in pixels. */
const DIGIT = 7.8;
const NARROW = matchMedia("(max-width: 600px)");
let tables = 0;

// The least width of a column: its own, or the first of `minmax(..)`.
function leastWidth(width) {
  return width.match(/^max\(.*\)$|[\d.]+rem/)[0];
}

// The columns in their order; where there is little room, names come first.
function inOrder(columns) {
  const isName = ({ label }) => label === "Name";
  return NARROW.matches ? [...columns.filter(isName), ...columns.filter((it) => !isName(it))] : columns;
}

/** Has a cell show texts and nodes; a string alone is the usual case. */
function put(cell, content) {
  const isText = typeof content !== "object" || content === null;
  cell.title = isText && content?.length > LONG ? content : "";
  if (isText) cell.textContent = content ?? "";
  else cell.replaceChildren(...[content].flat().filter((it) => it !== null));
}

export class Table {
  /**
   * @param label what the table is, for screen readers
   * @param columns each `{ label, width, cell(row), number, by }`; with `by` the table is sorted by it at a click
   * @param choose is called with the row that is clicked, or on which Enter is pressed
   * @param sort is called with `by` of a column and whether it goes down
   */
  constructor({ label, columns: given, choose = () => {}, sort = null, empty = "Nothing to show." }) {
    Object.assign(this, { given, choose, sort, empty, active: -1, chosen: -1, count: 0, sorted: null });
    tables += 1;
    this.id = `table${tables}`;
    this.head = element("div", { class: "head", role: "row", "aria-rowindex": 1 });
    this.node = element("div", { class: "table", role: "grid", tabindex: 0, "aria-label": label,
      onkeydown: (event) => this.key(event), onfocus: () => this.focused() }, this.head);
    this.message = element("p", { class: "empty" }, empty);
    this.rows = new VirtualRows({ scroller: this.node, rowHeight: ROW_HEIGHT, headHeight: HEAD_HEIGHT,
      make: () => this.rowNode(), fill: (node, index) => this.fill(node, index) });
    this.arrange();
    new ResizeObserver(() => this.isNarrow === NARROW.matches || this.arrange()).observe(this.node);
  }

  // Puts the columns in the order for the width of the window, and makes the rows anew.
  arrange() {
    this.isNarrow = NARROW.matches;
    this.columns = inOrder(this.given);
    this.longest = this.columns.map(() => 0);
    this.head.replaceChildren(...this.columns.map((it) => this.headCell(it)));
    this.setWidths();
    this.markSorted();
    this.rows.provide(0);
    this.rows.layOut();
  }

  // Columns of numbers are as wide as the longest number that was shown.
  setWidths() {
    const widths = this.columns.map(({ width }, at) => (this.longest[at] ? `max(${width}, ${Math.ceil(this.longest[at] * DIGIT)}px)` : width));
    this.node.style.setProperty("--columns", widths.join(" "));
    this.node.style.setProperty("--least", `calc(${widths.map(leastWidth).join(" + ")} + ${widths.length * 14 + 26}px)`);
  }

  makeRoom(cells) {
    const before = this.longest.join();
    this.longest = this.longest.map((longest, at) => (this.columns[at].number ? Math.max(longest, cells[at].textContent.length) : 0));
    if (this.longest.join() !== before) this.setWidths();
  }

  headCell({ label, by, number, title }) {
    const text = by && this.sort ? element("button", { type: "button" }, label) : label;
    const cell = element("div", { role: "columnheader", class: number ? "number" : null, title }, text);
    if (by && this.sort) cell.addEventListener("click", () => this.sortBy(by));
    return cell;
  }

  sortBy(by) {
    this.sorted = { by, down: this.sorted?.by === by && !this.sorted.down };
    this.markSorted();
    this.sort(by, this.sorted.down);
  }

  // Says at the head of a column that the rows are sorted by it.
  markSorted() {
    const said = this.sorted?.down ? "descending" : "ascending";
    this.columns.forEach(({ by }, at) => {
      if (by && by === this.sorted?.by) this.head.children[at].setAttribute("aria-sort", said);
      else this.head.children[at].removeAttribute("aria-sort");
    });
  }

  /** Shows `count` rows, which `ask(first, size)` gives: a list or the promise of one. */
  show(count, ask) {
    this.count = count;
    this.active = -1;
    this.chosen = -1;
    this.pages = new Pages(PAGE, async (first, size) => ask(first, size), () => this.rows.draw());
    this.node.setAttribute("aria-rowcount", count + 1);
    this.node.removeAttribute("aria-activedescendant");
    if (count) this.message.remove();
    else this.node.append(this.message);
    this.node.scrollTop = 0;
    this.rows.exact = 0;
    this.rows.setCount(count);
  }

  /** Shows a list that is there as a whole. */
  showAll(list) {
    this.show(list.length, (first, size) => list.slice(first, first + size));
  }

  rowNode() {
    const cells = this.columns.map((it) => element("div", { role: "gridcell", class: it.number ? "number" : null }));
    const node = element("div", { class: "row", role: "row" }, cells);
    node.addEventListener("click", () => this.chooseAt(Number(node.dataset.index)));
    return node;
  }

  fill(node, index) {
    const row = this.pages.at(index);
    node.dataset.index = index;
    node.id = `${this.id}-${index}`;
    node.setAttribute("aria-rowindex", index + 2);
    node.setAttribute("aria-selected", index === this.chosen);
    node.classList.toggle("active", index === this.active);
    node.classList.toggle("waiting", !row);
    this.columns.forEach(({ cell }, at) => put(node.children[at], row ? cell(row) : ""));
    if (row) this.makeRoom(node.children);
  }

  chooseAt(index) {
    const row = this.pages.at(index);
    this.chosen = index;
    this.moveTo(index);
    if (row) this.choose(row);
  }

  focused() {
    if (this.active < 0 && this.count && this.node.matches(":focus-visible")) this.moveTo(Math.floor(this.rows.exact));
  }

  moveTo(index) {
    this.active = Math.max(0, Math.min(index, this.count - 1));
    this.rows.reveal(this.active);
    this.rows.draw();
    this.node.setAttribute("aria-activedescendant", `${this.id}-${this.active}`);
  }

  key(event) {
    const page = this.rows.visible - 1;
    const moves = { ArrowDown: this.active + 1, ArrowUp: this.active - 1, PageDown: this.active + page,
      PageUp: this.active - page, Home: 0, End: this.count - 1 };
    if (!this.count || event.target !== this.node || event.ctrlKey || event.altKey || event.metaKey) return;
    if (event.key in moves) this.moveTo(moves[event.key]);
    else if ((event.key === "Enter" || event.key === " ") && this.active >= 0) this.chooseAt(this.active);
    else return;
    event.preventDefault();
  }
}
