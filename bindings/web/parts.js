// The parts of a file, by the pieces that the reader lists: each byte is in one of them. The ranges of sections and segments
// are those of their headers, cut off at the end of the file.
import * as names from "./names.js";

const KINDS_BY_TYPE = { SYMTAB: "symbols", DYNSYM: "symbols", STRTAB: "symbols", SYMTAB_SHNDX: "symbols",
  RELA: "linking", REL: "linking", RELR: "linking", DYNAMIC: "linking", HASH: "linking", GNU_HASH: "linking",
  VERSYM: "linking", VERDEF: "linking", VERNEED: "linking", GROUP: "linking", NOTE: "note" };

/** The kinds of parts, in the order of the legend. */
export const KINDS = { header: "Headers", code: "Code", data: "Writable data", constant: "Read-only data",
  symbols: "Symbols and names", linking: "Linking", note: "Notes", other: "Not loaded", bare: "In a segment alone", gap: "No part" };

// What a piece belongs to, by the reader's number of it.
const OWNERS = [
  { id: "header", sort: "header", label: "ELF header", kind: "header" },
  { id: "segments", sort: "segments", label: "Program headers", kind: "header" },
  { id: "sections", sort: "sections", label: "Section headers", kind: "header" },
  { sort: "section" },
  { sort: "bare", kind: "bare" },
  { sort: "gap", label: "Between parts", kind: "gap" },
  { sort: "gap", label: "Behind all parts", kind: "gap" },
];

export function kindOf(header) {
  const type = KINDS_BY_TYPE[names.SECTION_TYPES[header.type]];
  if (type) return type;
  if (!(header.flags & names.SECTION_ALLOC)) return "other";
  if (header.flags & names.SECTION_EXECUTE) return "code";
  return header.flags & names.SECTION_WRITE ? "data" : "constant";
}

// A range of the file as plain numbers, cut off at its end.
function within(offset, size, fileSize) {
  const limit = BigInt(fileSize);
  const end = BigInt(offset) + BigInt(size);
  const cut = (number) => Number(number < limit ? number : limit);
  return { start: cut(BigInt(offset)), end: cut(end), isCut: end > limit };
}

function sectionPart(section, size) {
  const { header, index, name } = section;
  const isEmpty = header.type === names.NOBITS || header.type === 0;
  return { id: `section-${index}`, sort: "section", section, label: name || `Section ${index}`, kind: kindOf(header),
    ...within(header.offset, isEmpty ? 0 : header.size, size) };
}

function segmentPart(segment, { size, header: { machine } }) {
  const { header, index } = segment;
  return { id: `segment-${index}`, sort: "segment", segment, label: names.segmentType(header.type, machine),
    kind: `segment ${header.type === names.PT_LOAD ? "load" : "special"}`, ...within(header.offset, header.file_size, size) };
}

// A piece: of a section with the whole section, of which it may be a part.
function pieceOf({ begin, end, index, owner }, { sections, segments, header, size }) {
  const range = { start: Number(begin), end: Number(end) };
  const at = Number(index);
  const found = { id: `piece-${begin}`, ...OWNERS[owner], ...range };
  if (found.sort === "section") {
    const whole = sections[at] ? sectionPart(sections[at], size) : { ...found, id: `section-${at}`, label: `Section ${at}`, kind: "other" };
    return { ...whole, ...range, id: found.id, whole };
  }
  if (found.sort === "bare") found.label = `Segment ${at} ${segments[at] ? names.segmentType(segments[at].header.type, header.machine) : ""}`;
  return found;
}

const byStart = (one, other) => one.start - other.start || other.end - one.end;
const hasBytes = (part) => part.end > part.start;

/**
 * The pieces of a file, from its first byte to its last; its sections and segments with bytes, and the tables of the dynamic
 * segment.
 */
export function partsOf(file, listed) {
  const partOf = (section) => sectionPart(section, file.size);
  return { pieces: listed.map((piece) => pieceOf(piece, file)), sectionParts: file.sections.map(partOf).filter(hasBytes),
    segmentParts: file.segments.map((segment) => segmentPart(segment, file)).filter(hasBytes).sort(byStart),
    addedParts: file.added.map(partOf).filter(hasBytes) };
}

/** The number of bytes that no part has, between parts and behind all of them. */
export function unowned({ pieces }) {
  const sum = (label) => pieces.filter((it) => it.label === label && it.sort === "gap").reduce((all, { start, end }) => all + end - start, 0);
  return { between: sum(OWNERS[5].label), behind: sum(OWNERS[6].label) };
}

/** For each range the first lane where it overlaps nothing, and past `most` lanes the last: `{ count, laneOf }`. */
export function lanesOf(ranges, most) {
  const ends = [];
  const laneOf = new Map();
  for (const range of ranges) {
    const free = ends.findIndex((end) => end <= range.start);
    const lane = free < 0 ? Math.min(ends.length, most - 1) : free;
    ends[lane] = Math.max(ends[lane] ?? 0, range.end);
    laneOf.set(range, lane);
  }
  return { count: ends.length, laneOf };
}

/** The index of the last number of a sorted list that is at most `sought`. */
export function lastUpTo(list, sought) {
  let [low, high] = [0, list.length];
  while (high - low > 1) {
    const middle = (low + high) >> 1;
    if (list[middle] <= sought) low = middle;
    else high = middle;
  }
  return low;
}

/** The part that the byte at an offset belongs to; of bytes that are in a segment alone the table that lies there. */
export function partAt(file, offset) {
  file.starts ??= file.pieces.map(({ start }) => start);
  const piece = file.pieces[lastUpTo(file.starts, offset)];
  const holds = (part) => part.start <= offset && offset < part.end;
  return (piece.sort === "bare" && file.addedParts.find(holds)) || (piece.whole ?? piece);
}

/** Whether a section belongs to a segment, by readelf's rules: by offset, and by address where it is loaded. */
export function isInSegment({ header: section }, { header: segment }) {
  const isLoaded = (section.flags & names.SECTION_ALLOC) !== 0n;
  const hasNone = section.type === names.NOBITS;
  if (!fitsType(section, segment, isLoaded, hasNone)) return false;
  const inFile = hasNone || isWithin(section.offset, section.size, segment.offset, segment.file_size);
  const inMemory = !isLoaded || isWithin(section.address, section.size, segment.virtual_addr, segment.mem_size);
  return inFile && inMemory && !isAtEdge(section, segment);
}

// Thread-local sections go with segments of few types, and some segments hold only what is loaded.
function fitsType(section, segment, isLoaded, hasNone) {
  const isThread = (section.flags & names.SECTION_THREAD) !== 0n;
  if (isThread && hasNone && segment.type !== names.PT_TLS) return false;
  if (isThread && ![names.PT_TLS, names.PT_LOAD, names.PT_RELRO].includes(segment.type)) return false;
  if (!isThread && [names.PT_TLS, names.PT_PHDR].includes(segment.type)) return false;
  return isLoaded || !names.LOADED_SEGMENTS.includes(segment.type);
}

function isWithin(start, size, outer, outerSize) {
  return start >= outer && start - outer < outerSize && start - outer + size <= outerSize;
}

// Sections of no bytes at the ends of dynamic and note segments belong to none.
function isAtEdge(section, segment) {
  if (segment.type !== names.PT_DYNAMIC && segment.type !== names.PT_NOTE) return false;
  if (section.size || !segment.mem_size || section.type === names.NOBITS) return false;
  return section.offset <= segment.offset || section.offset - segment.offset >= segment.file_size;
}
