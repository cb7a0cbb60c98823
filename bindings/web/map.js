// The picture of the file's layout: its pieces from top to bottom on the left, segments on the right.
//
// Between two offsets where something begins or ends lies a stretch, whose height grows with the logarithm of its size, so
// that small parts can be read and large ones are seen to be large. Only what is in view is drawn.
import { element, svg } from "./dom.js";
import { isInSegment, lanesOf, lastUpTo } from "./parts.js";
import { escaped, hex, sizeText } from "./text.js";

const RULER = 92;
const SPACE = 28;
const LANE = 134;
/** In a narrower picture the segments have less of the width, and headings fewer words. */
const NARROW = 560;
const MOST_SEGMENT_LANES = 8;
const TOP = 40;
const TALLEST = 4_000_000;

function heightOf(size, isGap) {
  if (isGap) return Math.min(10 + 4 * Math.log10(size), 40);
  return 22 + 11 * Math.max(0, Math.log10(size / 64));
}

/** Where each boundary between stretches lies in the picture, from the top. */
function stretches({ pieces, segmentParts: segments, size }) {
  const ends = [...pieces, ...segments].flatMap(({ start, end }) => [start, end]);
  const offsets = Float64Array.from(new Set([0, size, ...ends])).sort();
  const tops = new Float64Array(offsets.length);
  let at = 0;
  for (const { end, sort } of pieces) {
    for (; at + 1 < offsets.length && offsets[at + 1] <= end; at += 1) tops[at + 1] = tops[at] + heightOf(offsets[at + 1] - offsets[at], sort === "gap");
  }
  const scale = Math.min(1, TALLEST / tops.at(-1));
  return { offsets, tops: tops.map((top) => TOP + top * scale) };
}

export class LayoutMap {
  /** @param choose is called with the part that is clicked, or on which Enter is pressed */
  constructor(choose) {
    Object.assign(this, { choose, file: null, active: -1, chosen: null });
    this.svg = svg("svg", { class: "map", role: "presentation" });
    this.spacer = element("div", { class: "spacer", role: "presentation" }, this.svg);
    this.node = element("div", { class: "mapscroll", role: "listbox", tabindex: 0, onscroll: () => this.draw(),
      "aria-label": "Parts of the file, from its first byte to its last; segments follow", onkeydown: (event) => this.key(event) },
    this.spacer);
    new ResizeObserver(() => this.draw()).observe(this.node);
  }

  open(file) {
    this.file = file;
    this.active = -1;
    this.chosen = null;
    Object.assign(this, stretches(file));
    this.laneOf = new Map();
    this.segmentLanes = this.packSegments(file.segmentParts);
    this.order = [...file.pieces, ...file.segmentParts];
    this.spacer.style.height = `${this.tops.at(-1) + 24}px`;
    this.node.scrollTop = 0;
    this.draw();
  }

  // Segments that are loaded come first: they seldom overlap, and then take one lane.
  packSegments(segments) {
    const loaded = segments.filter((it) => it.kind.includes("load"));
    const others = segments.filter((it) => !it.kind.includes("load"));
    const first = lanesOf(loaded, MOST_SEGMENT_LANES / 2);
    const rest = lanesOf(others, MOST_SEGMENT_LANES - first.count);
    for (const [segment, lane] of first.laneOf) this.laneOf.set(segment, lane);
    for (const [segment, lane] of rest.laneOf) this.laneOf.set(segment, first.count + lane);
    return first.count + rest.count;
  }

  topOf(offset) {
    return this.tops[lastUpTo(this.offsets, offset)];
  }

  get width() {
    return Math.max(300, this.node.clientWidth - 40);
  }

  boxOf(part, ownLane = this.laneOf.get(part)) {
    const { width } = this;
    const lane = Math.min(LANE, (width * (width < NARROW ? 0.3 : 0.45)) / Math.max(1, this.segmentLanes));
    const segmentsWidth = this.segmentLanes * lane;
    const partsWidth = width - RULER - SPACE - segmentsWidth;
    const top = this.topOf(part.start);
    const height = this.topOf(part.end) - top;
    if (part.sort === "segment") return { left: RULER + partsWidth + SPACE + ownLane * lane, width: lane - 6, top, height };
    return { left: RULER, width: partsWidth, top, height };
  }

  draw() {
    const { file, node } = this;
    if (!file?.size || !node.clientHeight) return;
    const from = node.scrollTop - 200;
    const to = node.scrollTop + node.clientHeight + 200;
    this.svg.setAttribute("width", this.width);
    this.svg.setAttribute("height", this.tops.at(-1) + 24);
    const inView = (part) => this.topOf(part.end) >= from && this.topOf(part.start) <= to;
    const drawn = this.order.filter(inView);
    this.svg.replaceChildren(...this.ruler(from, to), ...drawn.map((part) => this.partNode(part)), ...this.heads());
    const active = this.order[this.active];
    if (active) node.setAttribute("aria-activedescendant", `map-${active.id}`);
  }

  heads() {
    const text = (x, words) => svg("text", { class: "maphead", x, y: this.node.scrollTop + 18 }, words);
    const segment = this.file.segmentParts[0];
    const back = svg("rect", { class: "mapheadback", x: 0, y: this.node.scrollTop, width: "100%", height: 28 });
    const words = [text(RULER - 16, "Offset"), text(RULER, this.width < NARROW ? "Parts" : "Headers and sections")];
    words[0].classList.add("atend");
    if (segment) words.push(text(this.boxOf(segment, 0).left, "Segments"));
    return [back, ...words];
  }

  // Offsets where something begins, as far as their texts have room.
  ruler(from, to) {
    const nodes = [];
    let free = -Infinity;
    for (let at = lastUpTo(this.tops, from); at < this.offsets.length && this.tops[at] <= to; at += 1) {
      const top = this.tops[at];
      nodes.push(svg("line", { class: "tick", x1: RULER - 12, x2: RULER - 4, y1: top, y2: top }));
      if (top >= free) nodes.push(svg("text", { class: "tickname", x: RULER - 16, y: top + 4 }, hex(this.offsets[at])));
      free = top >= free ? top + 14 : free;
    }
    return nodes;
  }

  partNode(part) {
    const { left, width, top, height } = this.boxOf(part);
    const tall = Math.max(height - 1, 1.5);
    const box = svg("rect", { x: left, y: top, width, height: tall, rx: Math.min(4, tall / 3) });
    const edge = part.sort === "segment" || part.sort === "gap" ? null : svg("rect", { class: "edge", x: left, y: top, width: 4, height: tall, rx: 2 });
    const isActive = this.order[this.active] === part;
    const isChosen = this.chosen !== null && (part.whole ?? part).id === this.chosen.id;
    return svg("g", { class: `part ${part.kind}${isChosen ? " chosen" : ""}${isActive ? " active" : ""}`,
      id: `map-${part.id}`, role: "option", "aria-selected": isChosen, "aria-label": this.said(part),
      onclick: () => this.chooseAt(this.order.indexOf(part)) },
    [box, edge, ...this.texts(part, left, width, top, tall), svg("title", {}, this.said(part))].filter(Boolean));
  }

  texts(part, left, width, top, height) {
    if (height < 14) return [];
    const room = Math.floor((width - 20) / 8.2);
    const size = sizeText(part.end - part.start);
    const label = escaped(part.label);
    const shown = label.length > room ? `${label.slice(0, Math.max(1, room - 1))}…` : label;
    const seen = Math.max(top, Math.min(this.node.scrollTop + 30, top + height - 22));
    const y = seen + Math.min(15, height / 2 + 4);
    const name = svg("text", { class: "partname", x: left + 12, y }, shown);
    const fits = part.sort !== "segment" && shown.length + size.length + 3 < room;
    return [name, fits ? svg("text", { class: "partsize", x: left + width - 10, y }, size) : null];
  }

  said(part) {
    part.said ??= this.textOf(part);
    return part.said;
  }

  textOf(part) {
    const bytes = `${hex(part.start)} to ${hex(part.end)}, ${sizeText(part.end - part.start)}`;
    if (part.sort !== "segment") return `${escaped(part.label)}: ${bytes}${part.isCut ? ", cut off by the end of the file" : ""}`;
    const held = this.file.sections.filter((it) => it.index && isInSegment(it, part.segment)).map((it) => escaped(it.name ?? "?"));
    return `Segment ${part.segment.index} ${part.label}: ${bytes}. Sections: ${held.slice(0, 40).join(" ") || "none"}`;
  }

  chooseAt(index) {
    this.active = index;
    this.mark(this.order[index]);
    this.choose(this.order[index]);
  }

  /** Marks a part as chosen, without a call of `choose`. */
  mark(part) {
    this.chosen = part;
    this.draw();
  }

  key(event) {
    const moves = { ArrowDown: this.active + 1, ArrowUp: this.active - 1, Home: 0, End: this.order.length - 1 };
    const isChoice = (event.key === "Enter" || event.key === " ") && this.active >= 0;
    if (!isChoice && !(event.key in moves)) return;
    event.preventDefault();
    if (isChoice) this.chooseAt(this.active);
    else this.moveTo(Math.max(0, Math.min(moves[event.key], this.order.length - 1)));
  }

  moveTo(index) {
    this.active = index;
    const { top, height } = this.boxOf(this.order[index]);
    const { scrollTop, clientHeight } = this.node;
    if (top < scrollTop + 40) this.node.scrollTop = top - 60;
    else if (top + Math.min(height, 60) > scrollTop + clientHeight) this.node.scrollTop = top - clientHeight / 2;
    this.draw();
  }
}
