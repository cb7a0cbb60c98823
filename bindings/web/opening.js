// Opens a file: asks the worker for all that the panels show, step by step, so that what is there is shown even where
// the work is stopped or a part can't be read.
import * as names from "./names.js";
import { loaderOf } from "./hardening.js";
import { partsOf } from "./parts.js";

// For each type of section the export that returns its records, and the table of tables that it belongs to.
const RECORD_CALLS = { [names.SYMTAB]: ["symbols", "symbol"], [names.DYNSYM]: ["symbols", "symbol"],
  [names.RELA]: ["relocations", "relocation"], [names.REL]: ["relocations", "relocation"],
  [names.RELR]: ["packed_relocations", "relocation"], [names.DYNAMIC]: ["dynamics", "dynamic"] };

/** Past so many notes no further section or segment is asked for them. */
const MOST_NOTES = 20000;
const MOST_ID_BYTES = 64n;
const MOST_PROPERTY_BYTES = 4096n;

/** Reads the file into the module: null, or why it can't be looked into, as `{ title, text }`. */
export async function load(client, module, source) {
  let loaded;
  try {
    loaded = await client.ask("load", { file: source, module });
  } catch (error) {
    return { title: `“${source.name}” could not be read.`, text: error.message };
  }
  if (!loaded.fits) {
    return { title: `“${source.name}” does not fit.`,
      text: `Its ${source.size.toLocaleString("en-US")} bytes are more than the memory that this browser gives the reader.` };
  }
  return loaded.stopped ? { title: `Reading “${source.name}” was stopped.`, text: "Nothing of it is shown." } : null;
}

/** What the file is and has: `{ fault }` where it is no ELF file, else all that the panels take. */
export async function survey(client, source) {
  const said = await client.ask("header");
  const file = { name: source.name, size: source.size, ...said };
  if (file.fault) return file;
  file.sectionsEnd = await client.ask("sections");
  file.sections = file.sectionsEnd.sections;
  file.segmentsEnd = await client.ask("segments");
  file.segments = file.segmentsEnd.segments;
  await findTables(client, file);
  file.added.push(...noteSegments(file).filter(({ part }) => part).map(({ place, part, align }, at) => noteSection(place, part, align, at)));
  Object.assign(file, partsOf(file, await client.ask("pieces")));
  await findNotes(client, file);
  file.buildId = await buildIdIn(client, file.notes) ?? await buildIdIn(client, await segmentNotes(client, file));
  await findFacts(client, file);
  file.load = await client.ask("loading", { loader: loaderOf(file), isBigEndian: file.header.encoding === 2 });
  file.features = await featuresIn(client, file);
  file.protections = await client.ask("protections", { tables: symbolTablesOf(file) });
  file.versions = hasDynamic(file) ? await client.ask("versions") : { listed: [], fault: null, ofSymbols: false };
  return file;
}

// The sections that hold records, each with how many, and the hash tables.
async function findTables(client, file) {
  const tables = { symbol: [], relocation: [], dynamic: [] };
  const add = async (section, strings) => {
    const [call, kind] = RECORD_CALLS[section.header.type] ?? [];
    if (call) tables[kind].push({ section, strings, ...await client.ask("count", { call, section: section.index }) });
  };
  for (const section of file.sections) await add(section, file.sections[section.header.link]?.data ?? null);
  Object.assign(file, { added: [], segmentTables: null });
  tables.hash = file.sections.filter(isHash).map((section) => ({ section, fault: null }));
  if (hasDynamic(file)) await addSegmentTables(client, file, tables, add);
  file.symbolTables = tables.symbol;
  file.relocationTables = tables.relocation;
  file.dynamicTables = tables.dynamic;
  file.hashTables = tables.hash.map(({ section, fault }) =>
    ({ section, gnu: section.header.type === names.GNU_HASH, said: fault, running: false, listeners: [] }));
}

function isHash({ header: { type } }) {
  return type === names.HASH || type === names.GNU_HASH;
}

// The segment of a type, if it has bytes: in a file of debugging data alone a section without bytes has its address.
function segmentOf({ sections, segments }, type) {
  const isEmpty = ({ header }) => sections.some((it) => it.header.type === names.NOBITS && it.header.address === header.virtual_addr);
  const found = segments.find(({ header }) => header.type === type);
  return found && !isEmpty(found) ? found : null;
}

function hasDynamic(file) {
  return segmentOf(file, names.PT_DYNAMIC) !== null;
}

// Adds what the dynamic segment names of each kind that no section has.
async function addSegmentTables(client, file, tables, add) {
  const has = (kind, type) => tables[kind].some(({ section, count }) => count && (type ?? section.header.type) === section.header.type);
  if (!has("symbol", names.DYNSYM)) await addSegmentSymbols(client, tables.symbol);
  const isMissing = { dynamic: !has("dynamic"), relocation: !has("relocation"), hash: !tables.hash.length };
  if (!Object.values(isMissing).includes(true)) return;
  const { header, data, dataFault } = segmentOf(file, names.PT_DYNAMIC);
  const loaded = file.segments.filter((it) => it.header.type === names.PT_LOAD).map((it) =>
    ({ start: it.header.virtual_addr, end: it.header.virtual_addr + it.header.file_size }));
  const given = { range: data, address: header.virtual_addr, fileClass: file.header.file_class, loaded };
  const { sections, missing, fault } = data ? await client.ask("segmentTables", given) : { sections: [], missing: [], fault: dataFault };
  file.segmentTables = given;
  file.added = sections;
  for (const section of sections) {
    const [, kind] = RECORD_CALLS[section.header.type] ?? [];
    if (isMissing[kind]) await add(section, sections.find(({ header: { type } }) => type === names.STRTAB)?.data ?? null);
  }
  const none = ({ name, type, fault: why }) => ({ section: { index: null, name, header: { type } }, strings: null, count: 0, fault: why });
  if (fault && isMissing.dynamic) tables.dynamic.push(none({ name: "PT_DYNAMIC", type: names.DYNAMIC, fault }));
  if (isMissing.relocation) tables.relocation.push(...missing.filter(({ type }) => RECORD_CALLS[type]?.[1] === "relocation").map(none));
  const unread = missing.map(none).filter(({ section }) => isHash(section));
  if (isMissing.hash) tables.hash = [...sections.filter(isHash).map((section) => ({ section, fault: null })), ...unread];
}

// The symbols of the dynamic segment, where no section has them: why they can't be read is said where other symbols aren't
// there, or a section of them can't be read either.
async function addSegmentSymbols(client, tables) {
  const counted = await client.ask("countDynamicSymbols");
  const section = { index: null, name: "the dynamic segment", header: { type: names.DYNSYM, link: null } };
  const isAsked = !tables.length || tables.some(({ section: { header } }) => header.type === names.DYNSYM);
  if (counted.count || isAsked) tables.push({ section, strings: null, ...counted });
}

function noteSegments(file) {
  return file.segments.filter(({ header }) => header.type === names.PT_NOTE).map(({ index, header, data, dataFault }) =>
    ({ place: `Segment ${index}`, part: data, align: header.align, why: dataFault }));
}

// A segment of notes as the section that it would be.
function noteSection(name, { offset, size }, align, at) {
  const header = { type: names.NOTE, flags: names.SECTION_ALLOC, offset, size, align };
  return { index: `notes-${at}`, name, header, isAdded: true };
}

// Where notes are: sections of notes, and segments of notes where no section can be read.
function notePlaces(file) {
  const sections = file.sections.filter(({ header }) => header.type === names.NOTE)
    .map((it) => ({ place: it.name ?? `Section ${it.index}`, part: it.data, align: it.header.align, why: it.dataFault }));
  return sections.some(({ part }) => part) ? sections : [...sections, ...noteSegments(file)];
}

// The notes of the segments, as far as their sections don't show them.
async function segmentNotes(client, file) {
  const others = { notes: [] };
  await readNotes(client, others, file.notes.length ? noteSegments(file) : []);
  return others.notes;
}

async function findNotes(client, file) {
  await readNotes(client, file, notePlaces(file));
}

async function readNotes(client, file, places) {
  Object.assign(file, { notes: [], notesFaults: [], notesCut: false });
  for (const { place, part, align, why } of places) {
    if (file.notesCut) return;
    const { notes, fault, cut } = part ? await client.ask("notes", { part, align }) : { notes: [], fault: why };
    for (const note of notes) file.notes.push({ ...note, start: Number(note.start), place });
    if (fault) file.notesFaults.push({ place, fault });
    file.notesCut ||= cut || file.notes.length > MOST_NOTES;
  }
}

// The build id: the description of the first note of type 3 by GNU; or null.
async function buildIdIn(client, all) {
  const notes = all.filter(({ type, name }) => type === names.NOTE_BUILD_ID && name.size === 4n);
  const shown = notes.length ? await client.ask("noteRows", { notes: notes.slice(0, 64), most: MOST_ID_BYTES }) : [];
  const found = shown.find(({ name }) => names.GNU_OWNER.every((byte, at) => name[at] === byte));
  return found ? [...found.desc] : null;
}

// The tables of symbols that can be read, the dynamic ones marked.
function symbolTablesOf({ symbolTables }) {
  return symbolTables.filter(({ count }) => count).map(({ section: { index, header }, count }) =>
    ({ section: index, count, isDynamic: header.type === names.DYNSYM }));
}

// The bits of the features that the property note has: a list of properties, each its type, the size of its data and the data,
// padded to the size of an address.
async function featuresIn(client, { notes, header }) {
  const wanted = names.FEATURE_TYPES[header.machine];
  const all = notes.filter(({ type, name }) => type === names.NOTE_PROPERTIES && name.size === 4n);
  const shown = wanted && all.length ? await client.ask("noteRows", { notes: all.slice(0, 64), most: MOST_PROPERTY_BYTES }) : [];
  const align = header.file_class === 1 ? 4 : 8;
  for (const { name, desc } of shown) {
    const view = new DataView(desc.buffer, desc.byteOffset, desc.byteLength);
    const number = (at) => view.getUint32(at, header.encoding !== 2);
    const isOfGnu = names.GNU_OWNER.every((byte, at) => name[at] === byte);
    for (let at = 0; isOfGnu && at + 12 <= desc.length; at += 8 + Math.ceil(number(at + 4) / align) * align) {
      if (number(at) === wanted && number(at + 4) === 4) return number(at + 8);
    }
  }
  return 0;
}

// The interpreter, and what the dynamic entries name.
async function findFacts(client, file) {
  const segment = segmentOf(file, names.PT_INTERP);
  const part = segment && { offset: segment.header.offset, size: segment.header.file_size };
  file.interpreter = part ? await client.ask("text", { part, index: 0 }) : null;
  Object.assign(file, { named: [], namedFault: null, dynamicValues: null });
  for (const { section, strings, count } of file.dynamicTables) {
    if (!count) continue;
    const rows = await client.ask("dynamic", { section: section.index, strings, texts: names.TEXT_TAGS, first: 0, size: Math.min(count, 2048) });
    if (!section.isAdded) file.named.push(...rows.filter(({ tag }) => names.TEXT_TAGS.includes(tag)));
    const end = rows.findIndex(({ tag }) => tag === 0n);
    file.dynamicValues ??= new Map(rows.slice(0, end < 0 ? rows.length : end).map(({ tag, value }) => [tag, value]));
  }
  if (file.dynamicTables.some(({ section, count }) => count && !section.isAdded) || !hasDynamic(file)) return;
  const tags = names.TEXT_TAGS.filter((it) => it !== names.NEEDED);
  const { rows, fault } = await client.ask("dynamicTexts", { needed: names.NEEDED, tags });
  Object.assign(file, { named: rows, namedFault: fault });
}
