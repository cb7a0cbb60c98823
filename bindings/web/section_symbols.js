// The symbols inside the section that is chosen: a strip of its addresses at true scale, and a table, the largest first.
import * as names from "./names.js";
import { tableOf } from "./addresses.js";
import { element, svg } from "./dom.js";
import { Table } from "./table.js";
import { escaped, grouped, hex, plural } from "./text.js";

const HEIGHT = 22;
// The last address, which no range goes past.
const LAST = 2n ** 64n - 1n;

function share(bytes, all) {
  return `${((100 * bytes) / all).toFixed(1)} %`;
}

export class SectionSymbols {
  /** @param choose is called with the part of the section and the offset of the symbol that is chosen */
  constructor(choose) {
    Object.assign(this, { choose, file: null, part: null, drawn: null, asked: 0, runs: [], rows: [] });
    this.head = element("h3", {});
    this.said = element("p", { class: "said" });
    this.strip = element("div", { class: "symbolstrip" });
    this.table = new Table({ label: "Symbols in the section", choose: (row) => this.choose(this.part, this.offsetOf(row.begin)), columns: [
      { label: "Bytes", width: "5rem", number: true, cell: ({ bytes }) => grouped(bytes) },
      { label: "Share", width: "4rem", number: true, cell: ({ bytes }) => share(bytes, this.size) },
      { label: "Name", width: "minmax(9rem, 1fr)", cell: ({ index, name }) => (index < 0 ? "no symbol" : escaped(name)) },
      { label: "Address", width: "6rem", number: true, cell: ({ begin }) => hex(begin) },
    ] });
    this.node = element("section", { class: "insidesection", hidden: true, "aria-label": "Symbols in the section that is chosen" },
      element("div", { class: "insidehead" }, this.head, this.said), this.strip, this.table.node);
    new ResizeObserver(() => this.drawStrip()).observe(this.strip);
  }

  open(file, client) {
    Object.assign(this, { file, client, part: null, drawn: null });
    this.node.hidden = true;
  }

  /** A part is chosen. */
  mark(part) {
    this.part = part;
    this.draw();
  }

  // The first address of the section: in an object file these are offsets in it.
  get begin() {
    return this.file.header.type === names.ET_REL ? 0n : this.part.section.header.address;
  }

  offsetOf(address) {
    const { start, end } = this.part;
    return Math.min(start + Number(address - this.begin), end - 1);
  }

  /** Shows the symbols of the part, where the panel is in view and the part is a section that has some. */
  async draw() {
    const { part } = this;
    if (!part || part === this.drawn || !this.node.parentElement?.checkVisibility()) return;
    this.drawn = part;
    this.asked += 1;
    const { asked } = this;
    const runs = await this.runsOf(part).catch(() => []);
    if (asked !== this.asked) return;
    this.runs = runs;
    this.node.hidden = !runs.some(([, , index]) => index >= 0);
    if (!this.node.hidden) this.show(part);
  }

  async runsOf({ sort, section, start, end }) {
    const table = tableOf(this.file);
    if (sort !== "section" || !table || typeof section.index !== "number" || section.index < 1) return [];
    const { begin } = this;
    const after = begin + BigInt(end - start);
    return this.client.ask("symbolPieces", { ...table, within: section.index, begin, end: after < LAST ? after : LAST });
  }

  show({ label, start, end }) {
    this.size = end - start;
    const bytes = new Map();
    for (const [begin, after, index] of this.runs) {
      const row = bytes.get(index) ?? { index, bytes: 0, begin };
      row.bytes += Number(after - begin);
      bytes.set(index, row);
    }
    this.rows = [...bytes.values()].sort((one, other) => other.bytes - one.bytes);
    const none = bytes.get(-1)?.bytes ?? 0;
    const count = bytes.size - (none ? 1 : 0);
    this.head.textContent = `Symbols in ${escaped(label)}`;
    this.said.textContent = `${plural(count, "symbol")}, the largest first; ${plural(none, "byte")} in none.`;
    this.table.show(this.rows.length, (first, size) => this.named(this.rows.slice(first, first + size)));
    this.drawStrip();
  }

  async named(rows) {
    const symbols = rows.filter(({ index }) => index >= 0);
    const texts = await this.client.ask("symbolNames", { section: tableOf(this.file).section, indices: symbols.map(({ index }) => index) });
    symbols.forEach((row, at) => {
      row.name = texts[at];
    });
    return rows;
  }

  // Of runs that would lie on the same pixels one is drawn.
  drawStrip() {
    const width = this.strip.clientWidth;
    if (this.node.hidden || !width || !this.size) return;
    const scale = width / this.size;
    let drawn = -1;
    let isOdd = false;
    const rects = [];
    for (const [begin, after, index] of this.runs) {
      const left = Number(begin - this.begin) * scale;
      const right = Number(after - this.begin) * scale;
      if (Math.round(right) <= drawn) continue;
      drawn = Math.round(right);
      isOdd = !isOdd;
      rects.push(svg("rect", { class: index < 0 ? "none" : isOdd ? "odd" : "even", x: left.toFixed(2), y: 0, width: Math.max(1, right - left).toFixed(2), height: HEIGHT,
        onclick: () => this.choose(this.part, this.offsetOf(begin)) }));
    }
    this.strip.replaceChildren(svg("svg", { width, height: HEIGHT, role: "img", "aria-label": this.said.textContent }, rects));
  }
}
