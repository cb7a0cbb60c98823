// The whole file as one strip at its true scale: its pieces above, its segments below.
import { svg } from "./dom.js";
import { lanesOf } from "./parts.js";
import { escaped, hex, sizeText } from "./text.js";

const HEIGHT = 60;
const EDGE = 3;
const PARTS = { top: 3, height: 26 };
const SEGMENTS = { top: 35, height: 6, step: 8 };
const MOST_LANES = 3;

export class Strip {
  /** @param choose is called with the part that is clicked */
  constructor(node, choose) {
    Object.assign(this, { node, choose, file: null, chosen: null });
    new ResizeObserver(() => this.draw()).observe(node);
  }

  open(file) {
    this.file = file;
    this.laneOf = lanesOf(file.segmentParts, MOST_LANES).laneOf;
    this.draw();
  }

  mark(part) {
    this.chosen = part;
    this.draw();
  }

  draw() {
    const { file, node } = this;
    const width = node.clientWidth;
    if (!file?.size || !width) return;
    const scale = (width - 2 * EDGE) / file.size;
    const seen = new Set();
    const rects = file.pieces.map((part) => this.rect(part, scale, PARTS.top, PARTS.height, seen));
    const segments = file.segmentParts.map((part) =>
      this.rect(part, scale, SEGMENTS.top + this.laneOf.get(part) * SEGMENTS.step, SEGMENTS.height, seen));
    const names = file.pieces.map((part) => this.nameOf(part, scale));
    node.replaceChildren(svg("svg", { width, height: HEIGHT, viewBox: `0 0 ${width} ${HEIGHT}`, role: "img",
      "aria-label": `The file from its first byte to its last, ${file.pieces.length} pieces` },
    [...rects, ...names, ...segments, this.marker(scale, width)].filter(Boolean)));
  }

  // The name of a part that has room for it.
  nameOf(part, scale) {
    const text = escaped(part.label);
    if (part.sort === "gap" || (part.end - part.start) * scale < text.length * 7.2 + 14) return null;
    return svg("text", { x: (EDGE + part.start * scale + 7).toFixed(2), y: PARTS.top + 17.5 }, text);
  }

  // Of parts that would lie on the same pixels one is drawn.
  rect(part, scale, top, height, seen) {
    const left = EDGE + part.start * scale;
    const width = Math.max((part.end - part.start) * scale, 1);
    const place = `${Math.round(left)} ${Math.round(width)} ${top}`;
    if (width < 2 && seen.has(place)) return null;
    seen.add(place);
    const text = `${escaped(part.label)}  ${hex(part.start)} to ${hex(part.end)}, ${sizeText(part.end - part.start)}`;
    return svg("rect", { class: `part ${part.kind}`, x: left.toFixed(2), y: top, width: Math.max(width - (width > 4 ? 1 : 0), 1).toFixed(2),
      height, rx: Math.min(2, width / 3).toFixed(1), onclick: () => this.choose(part) }, svg("title", {}, text));
  }

  marker(scale, width) {
    if (!this.chosen) return null;
    const wide = Math.max((this.chosen.end - this.chosen.start) * scale, 5);
    const left = Math.min(EDGE + this.chosen.start * scale, width - EDGE - wide);
    return svg("rect", { class: "marker", x: (left - 2).toFixed(2), y: 1, width: (wide + 3).toFixed(2), height: HEIGHT - 2, rx: 4 });
  }
}
