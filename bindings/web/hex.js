// The bytes of the file in base 16, with the part that was chosen, and the field and the symbol under the pointer or the cursor named.
import { factsOf, symbolText } from "./addresses.js";
import { element } from "./dom.js";
import { recordOf } from "./inspect.js";
import { Pages } from "./pages.js";
import { partAt } from "./parts.js";
import { escaped, hex, hexDigits, sizeText } from "./text.js";
import { VirtualRows } from "./virtual.js";

const NARROW = matchMedia("(max-width: 660px)");
const ROW_HEIGHT = 22;
const PAGE = 4096;

function printable(byte) {
  return byte >= 0x20 && byte < 0x7f ? String.fromCharCode(byte) : "·";
}

export class HexView {
  /** @param nodes the elements `grid`, `title`, `fields` and `place`, and `follow`, which is called with an address */
  constructor(nodes) {
    Object.assign(this, nodes, { file: null, part: null, cursor: 0, field: null, record: null, asked: 0 });
    this.rows = new VirtualRows({ scroller: this.grid, rowHeight: ROW_HEIGHT, make: () => this.rowNode(),
      fill: (node, index) => this.fill(node, index) });
    NARROW.addEventListener("change", () => this.file && this.layOut());
    new ResizeObserver(() => this.file && this.rows.reveal(Math.floor(this.cursor / this.inRow))).observe(this.grid);
    this.grid.addEventListener("keydown", (event) => this.key(event));
    this.grid.addEventListener("pointermove", ({ target }) => this.pointAt(target));
    this.grid.addEventListener("pointerleave", () => this.lookAt(this.cursor));
    this.grid.addEventListener("click", ({ target }) => this.pointAt(target, true));
  }

  open(file, client) {
    Object.assign(this, { file, client, part: null, record: null, field: null, cursor: 0 });
    const bytes = (offset, size) => client.ask("bytes", { offset, size: Math.max(0, Math.min(size, file.size - offset)) });
    this.pages = new Pages(PAGE, bytes, () => this.rows.draw());
    this.digits = Math.max(8, hexDigits(file.size).length);
    this.rows.exact = 0;
    this.grid.scrollTop = 0;
    this.layOut();
  }

  // Sixteen bytes in a row, or eight where there is little room.
  layOut() {
    this.inRow = NARROW.matches ? 8 : 16;
    const count = Math.ceil(this.file.size / this.inRow);
    this.grid.setAttribute("aria-rowcount", count);
    this.rows.provide(0);
    this.rows.setCount(count);
    this.reveal();
  }

  /** Has the row of the cursor in view, where rows have another length or the pane was closed. */
  reveal() {
    if (!this.file) return;
    this.rows.goTo(Math.floor(this.cursor / this.inRow) - 1);
  }

  /** Shows a part from its first byte on, or from another of its bytes. */
  show(part, offset = part.start) {
    this.part = part;
    this.record = null;
    const range = `${hex(part.start)} to ${hex(part.end)}, ${sizeText(part.end - part.start)}`;
    this.title.replaceChildren(element("strong", {}, escaped(part.label)), " ", element("span", {}, range));
    const row = Math.floor(offset / this.inRow);
    if (row < this.rows.exact || row >= this.rows.exact + this.rows.visible - 2) this.rows.goTo(row - 1);
    this.moveTo(offset);
  }

  rowNode() {
    const cells = Array.from({ length: this.inRow }, () => element("span", { class: "byte", role: "gridcell" }));
    const texts = Array.from({ length: this.inRow }, () => element("span", { class: "letter" }));
    return element("div", { class: "hexrow", role: "row" }, element("span", { class: "offset", role: "rowheader" }),
      element("span", { class: "bytes" }, cells), element("span", { class: "letters", "aria-hidden": true }, texts));
  }

  fill(node, row) {
    const [offset, bytes, letters] = node.children;
    offset.textContent = hexDigits(row * this.inRow, this.digits);
    node.setAttribute("aria-rowindex", row + 1);
    for (let at = 0; at < this.inRow; at += 1) this.fillByte(bytes.children[at], letters.children[at], row * this.inRow + at);
  }

  fillByte(cell, letter, offset) {
    const byte = offset < this.file.size ? this.pages.at(offset) : undefined;
    cell.textContent = byte === undefined ? "  " : hexDigits(byte, 2);
    letter.textContent = byte === undefined ? " " : printable(byte);
    const said = this.classOf(offset, byte);
    cell.className = `byte ${said}`;
    letter.className = `letter ${said}`;
    cell.id = `byte-${offset}`;
    cell.dataset.offset = offset;
    letter.dataset.offset = offset;
  }

  classOf(offset, byte) {
    const holds = (range) => range && range.start <= offset && offset < range.end;
    const words = [[holds(this.part), "inside"], [holds(this.record), "inrecord"], [holds(this.field), "infield"],
      [offset === this.cursor, "cursor"], [byte === 0, "zero"]];
    return words.filter(([is]) => is).map(([, word]) => word).join(" ");
  }

  pointAt(target, isClick = false) {
    const offset = Number(target.dataset?.offset ?? NaN);
    if (Number.isNaN(offset) || offset >= this.file.size) return;
    if (isClick) this.moveTo(offset);
    else this.lookAt(offset);
  }

  moveTo(offset) {
    this.cursor = Math.max(0, Math.min(offset, this.file.size - 1));
    this.rows.reveal(Math.floor(this.cursor / this.inRow));
    this.grid.setAttribute("aria-activedescendant", `byte-${this.cursor}`);
    this.lookAt(this.cursor);
  }

  /** Names the field at an offset, and marks its bytes. */
  async lookAt(offset) {
    this.asked += 1;
    const asked = this.asked;
    const holds = this.part && this.part.start <= offset && offset < this.part.end;
    const part = holds && this.part.sort !== "bare" ? this.part : partAt(this.file, offset);
    const isSame = this.record && this.record.part === part && this.record.start <= offset && offset < this.record.end;
    if (!isSame) {
      const record = part ? await recordOf(this.file, this.client, part, offset).catch(() => null) : null;
      if (asked !== this.asked) return;
      this.record = record && { ...record, part };
    }
    this.field = this.record?.fields.find((it) => it.start <= offset && offset < it.end) ?? null;
    this.rows.draw();
    this.describe(offset, part);
    const symbol = await symbolText(this.file, this.client, part, offset).catch(() => null);
    if (!symbol || asked !== this.asked) return;
    this.place.append(` › ${symbol}`);
    this.fields.querySelector(".bytefacts")?.append(element("dt", {}, "Symbol"), element("dd", {}, symbol));
  }

  describe(offset, part) {
    const where = [hex(offset, this.digits), part ? escaped(part.label) : null, this.record?.title, this.field?.name];
    this.place.textContent = where.filter((it, at, all) => it && it !== all[at - 1]).join(" › ");
    const rows = (this.record?.fields ?? []).map((field) => this.fieldRow(field));
    const list = rows.length ? element("div", { class: "fieldlist" }, rows) : this.facts(part, offset);
    this.fields.replaceChildren(...[list, this.followed()].filter(Boolean));
    this.fields.querySelector(".current")?.scrollIntoView({ block: "nearest" });
  }

  // What is known of a byte that is no field of a record: its part, its address and its segment.
  facts(part, offset) {
    return element("dl", { class: "facts bytefacts" }, factsOf(this.file, part, offset).filter(([, text]) => text)
      .flatMap(([name, text]) => [element("dt", {}, name), element("dd", {}, text)]));
  }

  // Buttons to the bytes at the addresses that the record has, in a file with loaded segments.
  followed() {
    const fields = (this.record?.fields ?? []).filter(({ address }) => typeof address === "bigint");
    if (!fields.length || !this.file.segmentParts.some(({ kind }) => kind.includes("load"))) return null;
    return element("p", { class: "follow" }, fields.map(({ name, address }) =>
      element("button", { type: "button", onclick: () => this.follow(address) }, `Bytes at ${name}, ${hex(address)}`)));
  }

  fieldRow(field) {
    const isCurrent = field === this.field;
    return element("button", { type: "button", tabindex: -1, class: isCurrent ? "fieldrow current" : "fieldrow",
      title: field.means, onclick: () => this.moveTo(field.start) },
    element("span", { class: "fieldname" }, field.name), element("span", { class: "fieldvalue" }, field.value),
    element("span", { class: "fieldmeans" }, field.means));
  }

  key(event) {
    const page = this.rows.visible * this.inRow;
    const start = this.cursor - (this.cursor % this.inRow);
    const moves = { ArrowRight: this.cursor + 1, ArrowLeft: this.cursor - 1, ArrowDown: this.cursor + this.inRow,
      ArrowUp: this.cursor - this.inRow, PageDown: this.cursor + page, PageUp: this.cursor - page,
      Home: event.ctrlKey ? 0 : start, End: event.ctrlKey ? this.file?.size - 1 : start + this.inRow - 1 };
    if (!this.file?.size || !(event.key in moves) || event.altKey || event.metaKey) return;
    event.preventDefault();
    this.moveTo(moves[event.key]);
  }
}
