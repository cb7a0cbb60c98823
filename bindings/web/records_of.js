// Rows of the tables in sections: symbols, relocations, dynamic entries and notes, from an index on.
import { BATCH, STATUS } from "./reader.js";
import { faultOf, rangeText, textAt } from "./survey.js";
import { symbolVersions } from "./versions_of.js";

/** How many symbols the section has, and why it has none, where it can't be read. */
function countSymbols(reader, section) {
  const { status, record } = section === null ? reader.find("dynamic_symbols_open") : reader.find("symbols_open", { section });
  return { count: Number(record?.count ?? 0), fault: faultOf(reader, status) };
}

/**
 * How many records the section has, and why it has none, where it can't be read. An index gets the error NO_RECORD from
 * the number of records on, so that doubling and halving finds the number of those that are no symbols.
 */
export function count(reader, { call, section }) {
  if (call === "symbols") return countSymbols(reader, section);
  const at = (first) => reader.call(call, { section, first, out_count: 1 });
  const first = at(0);
  if (first !== STATUS.OK) return { count: 0, fault: first === STATUS.NO_RECORD ? null : faultOf(reader, first) };
  const has = (index) => at(index) === STATUS.OK;
  let below = 1;
  while (has(below)) below *= 2;
  return { count: between(Math.floor(below / 2), below, has), fault: null };
}

// The first index that isn't there: `there` is, `gone` isn't.
function between(there, gone, has) {
  while (gone - there > 1) {
    const middle = Math.floor((there + gone) / 2);
    if (has(middle)) there = middle;
    else gone = middle;
  }
  return gone;
}

/** How many symbols the dynamic segment has: what its entries and hash tables say, with no section header. */
export function countDynamicSymbols(reader) {
  return countSymbols(reader, null);
}

/** Symbols from an index on: those of a section, or of the dynamic segment where `section` is null. */
export function symbolsFrom(reader, { section, first }, room) {
  return countSymbols(reader, section).fault ? [] : reader.many("symbols", { first }, room).records;
}

/** The names of these symbols, each with a status. */
export function symbolNamesFrom(reader, { section, first }, room) {
  return countSymbols(reader, section).fault ? [] : reader.many("symbol_names", { first }, room).records;
}

/** Symbols with their names, and with their versions where they are those of the dynamic segment. */
export function symbolRows(reader, { section, first, size, versioned = false }) {
  const room = Math.min(size, BATCH);
  const symbols = symbolsFrom(reader, { section, first }, room);
  const names = symbolNamesFrom(reader, { section, first }, room);
  const versions = versioned ? symbolVersions(reader, first, room) : [];
  return symbols.map((symbol, at) => ({ ...symbolRow(reader, symbol, first + at, names[at]), version: versions[at] ?? null }));
}

function symbolRow(reader, symbol, index, name) {
  const fault = name ? faultOf(reader, name.status) : null;
  return { index, ...symbol, text: name && !fault ? rangeText(reader, name.range) : null, fault };
}

/** One symbol with its name. */
export function symbolAt(reader, section, index, versioned = false) {
  return symbolRows(reader, { section, first: index, size: 1, versioned })[0] ?? null;
}

/** Relocations, each with the symbol that it names in the section `symbols`. */
export function relocationRows(reader, { section, symbols, first, size }) {
  return reader.many("relocations", { section, first }, size).records.map((record, at) => {
    const named = record.symbol && symbols !== null ? symbolAt(reader, symbols, record.symbol) : null;
    return { index: first + at, ...record, named, unnamed: record.symbol && !named ? whyNot(reader, symbols, record) : null };
  });
}

/** The addresses of packed relative relocations (RELR). */
export function packedRows(reader, { section, first, size }) {
  const { records } = reader.many("packed_relocations", { section, first }, size);
  return records.map((offset, at) => ({ index: first + at, offset, isPacked: true }));
}

function whyNot(reader, section, record) {
  if (section === null) return null;
  return countSymbols(reader, section).fault ?? faultOf(reader, reader.call("symbols", { first: record.symbol, out_count: 1 }));
}

/**
 * What the entries of the dynamic segment name, with no section header: `rows`, of `{ tag, text }` or `{ tag, fault }`
 * for each library needed and each of `tags` that an entry has; or `fault` where there are no entries.
 */
export function dynamicTexts(reader, { needed, tags }) {
  const libraries = reader.many("dynamic_texts", { tag: needed, first: 0 });
  if (libraries.status !== STATUS.OK && libraries.status !== STATUS.NO_RECORD) return { rows: [], fault: faultOf(reader, libraries.status) };
  const said = ({ status, range }) => (status === STATUS.OK ? { text: rangeText(reader, range) } : { fault: faultOf(reader, status) });
  const rows = libraries.records.map((name) => ({ tag: needed, ...said(name) }));
  for (const tag of tags) {
    const { status, records: [text] } = reader.many("dynamic_texts", { tag, first: 0 }, 1);
    if (status !== STATUS.NO_RECORD) rows.push({ tag, ...said(text ?? { status }) });
  }
  return { rows, fault: null };
}

/** Dynamic entries, each with the text that its value is an index of, where its tag is one of `texts`. */
export function dynamicRows(reader, { section, strings, texts, first, size }) {
  return reader.many("dynamics", { section, first }, size).records.map((record, at) => {
    const isText = strings !== null && texts.includes(record.tag);
    return { index: first + at, ...record, ...(isText ? textAt(reader, strings, record.value) : {}) };
  });
}

/** The names and descriptions of notes, of which at most `most` bytes each. */
export function noteRows(reader, { notes, most }) {
  const front = ({ offset, size }) => reader.bytes(offset, size > most ? most : size).slice();
  return notes.map((note) => ({ name: front(note.name), desc: front(note.desc) }));
}

/** What a hash table says of a name, with the symbol that it finds in the section `symbols`. */
export function lookUp(reader, { section, symbols, name }) {
  const { status, record } = reader.lookUp(section, new TextEncoder().encode(name));
  if (!record) return { fault: faultOf(reader, status) };
  return { ...record, symbol: record.found ? symbolAt(reader, symbols, record.index) : null };
}
