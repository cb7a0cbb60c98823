// Finds the symbols of a section by parts of their names and by what they are, batch by batch.
import { BATCH } from "./reader.js";
import { symbolAt, symbolNamesFrom, symbolsFrom } from "./records_of.js";
import { rangeText } from "./survey.js";

/** The indices found last, in the order that was asked for. */
let found = { section: -1, indices: [] };

// Bytes with ASCII capitals as small letters.
function small(byte) {
  return byte >= 0x41 && byte <= 0x5a ? byte + 0x20 : byte;
}

/** Whether `needle`, in small letters, is a part of the bytes. */
export function holds(bytes, needle) {
  const last = bytes.length - needle.length;
  for (let start = 0; start <= last; start += 1) {
    if (beginsAt(bytes, start, needle)) return true;
  }
  return false;
}

function beginsAt(bytes, start, needle) {
  for (let at = 0; at < needle.length; at += 1) {
    if (small(bytes[start + at]) !== needle[at]) return false;
  }
  return true;
}

function namesHold(reader, names, needle) {
  if (!needle.length) return () => true;
  return (at) => {
    const name = names[at];
    return name?.status === 0 && holds(reader.bytes(name.range.offset, name.range.size), needle);
  };
}

const DEFINED = { any: () => true, defined: (shndx) => shndx !== 0, undefined: (shndx) => shndx === 0 };

/** Whether a symbol is of the kind that the page asks for; `info` is the binding times 16, and the type. */
function isWanted({ type, binding, defined }) {
  return (symbol) =>
    (type === null || symbol.info % 16 === type) &&
    (binding === null || Math.floor(symbol.info / 16) === binding) &&
    DEFINED[defined](symbol.shndx);
}

/** How many symbols fit, of those looked at until the end or a stop. */
export async function findSymbols(reader, turns, given) {
  const { section, total } = given;
  const work = turns.begin("Finding symbols", total);
  const needle = Array.from(new TextEncoder().encode(given.text), small);
  const wanted = isWanted(given);
  const isByName = given.by === "text";
  const kept = [];
  let first = 0;
  while (!work.stopped) {
    const symbols = symbolsFrom(reader, { section, first });
    if (!symbols.length) break;
    const names = needle.length || isByName ? symbolNamesFrom(reader, { section, first }) : [];
    const textOf = (at) => (isByName && names[at]?.status === 0 ? rangeText(reader, names[at].range) : "");
    const isExact = (at) => needle.length > 0 && names[at]?.range.size === BigInt(needle.length);
    keep(kept, symbols, first, wanted, namesHold(reader, names, needle), { textOf, isExact });
    first += symbols.length;
    await work.turn(first);
  }
  const { stopped } = work;
  work.end();
  found = { section, indices: ordered(kept, given) };
  return { count: kept.length, looked: first, stopped };
}

function keep(kept, symbols, first, wanted, holdsText, { textOf, isExact }) {
  symbols.forEach((symbol, at) => {
    if (!wanted(symbol) || !holdsText(at)) return;
    kept.push({ index: first + at, value: symbol.value, size: symbol.size, text: textOf(at), rank: isExact(at) ? 0 : 1 });
  });
}

// In the order of a column; in that of their indices, names that are the whole text come first.
function ordered(kept, { by, down }) {
  const sign = down ? -1 : 1;
  const compare = (one, other) => (one[by] < other[by] ? -sign : one[by] > other[by] ? sign : one.index - other.index);
  if (by !== "index" || down) kept.sort(compare);
  else kept.sort((one, other) => one.rank - other.rank || one.index - other.index);
  return kept.map(({ index }) => index);
}

/** The symbols found last, from place `first` on. */
export function foundRows(reader, { section, first, size, versioned }) {
  if (found.section !== section) return [];
  const indices = found.indices.slice(first, first + Math.min(size, BATCH));
  return indices.map((index) => symbolAt(reader, section, index, versioned)).filter(Boolean);
}
