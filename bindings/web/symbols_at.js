// The symbol of an address, by an index that is built once for a table and a section; and the symbols of all addresses of a
// section.
import * as rows from "./records_of.js";
import { STATUS } from "./reader.js";
import { rangeText } from "./survey.js";

// The number of a symbol among the owners of pieces.
const IN_SYMBOL = 7;

/** The index that was built last: for which question, and its record, or null where it can't be built. */
let built = { asked: null, index: null };

// The table of symbols in a section, or that of the dynamic segment.
function tableOf(reader, section) {
  return section === null ? reader.find("dynamic_symbols_open") : reader.find("symbols_open", { section });
}

function indexFor(reader, { section, indices, within }) {
  const asked = `${section} ${within}`;
  if (built.asked !== asked) {
    const found = tableOf(reader, section);
    built = { asked, index: found.record ? reader.buildIndex({ indices, within }).record ?? null : null };
  }
  return built.index;
}

/** The innermost symbol that covers an address: its name, and the offset of the address in it; null if there is none. */
export function symbolAt(reader, given) {
  const index = indexFor(reader, given);
  const found = index ? reader.symbolAt(given.address).record : null;
  if (!found?.found) return null;
  const { status, record } = reader.one("text", { part: index.table.strings, index: found.symbol.name });
  return status === STATUS.OK ? { text: rangeText(reader, record), offset: found.offset } : null;
}

/** The pieces of addresses by symbols: `[begin, end, index]` each, with -1 as the index where there is no symbol. */
export function symbolPieces(reader, { section, ...given }) {
  const pieces = tableOf(reader, section).record ? reader.symbolPieces(given) : null;
  return (pieces ?? []).map(({ begin, end, index, owner }) => [begin, end, owner === IN_SYMBOL ? Number(index) : -1]);
}

/** The names of symbols at indices of a table. */
export function symbolNames(reader, { section, indices }) {
  return indices.map((index) => rows.symbolAt(reader, section, index)?.text ?? "");
}
