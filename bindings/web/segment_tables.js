// The tables that the dynamic segment names, for a file that has no sections for them.
//
// They are read like those of sections: a section header for each is added behind the file's bytes, and the calls for sections
// read it. Where the bytes at an address lie is asked of the reader.
import * as names from "./names.js";
import { fieldsOf } from "./fields.js";
import { STATUS } from "./reader.js";
import { faultOf } from "./survey.js";

const REL = 17n;
const PLTREL = 20n;
/** Each table: its tag, the tags of its address and its size, and the type that its section would have. */
const TABLES = [["DT_STRTAB", 5n, 10n, names.STRTAB], ["DT_RELA", 7n, 8n, names.RELA], ["DT_REL", REL, 18n, names.REL],
  ["DT_JMPREL", 23n, 2n, names.RELA], ["DT_RELR", 36n, 35n, names.RELR]];
/** The hash tables, each with its tag and type. */
const HASHES = [["DT_GNU_HASH", 0x6ffffef5n, names.GNU_HASH], ["DT_HASH", 4n, names.HASH]];
const RECORDS = { [names.DYNAMIC]: "dynamic", [names.RELA]: "rela", [names.REL]: "rel", [names.DYNSYM]: "symbol" };

function sectionFor({ name, type, address }, data, fileClass) {
  const entry = RECORDS[type] ? fieldsOf(RECORDS[type], fileClass).size : 0;
  const header = { name: 0, type, flags: names.SECTION_ALLOC, address, offset: data.offset, size: data.size, link: 0, info: 0,
    align: 1n, entry_size: BigInt(entry) };
  return { name, nameFault: null, header, data, dataFault: null, check: null, isAdded: true };
}

// The value of the first entry with each tag, up to the entry that ends them.
function valuesOf(entries) {
  const end = entries.findIndex(({ tag }) => tag === 0n);
  const values = new Map();
  for (const { tag, value } of entries.slice(0, end < 0 ? entries.length : end)) if (!values.has(tag)) values.set(tag, value);
  return values;
}

// The hash tables, whose sizes no entry has: each ends where the next part begins that an entry names, or with its segment's
// bytes. What lies behind a table doesn't change what is read of it.
function hashTables(values, loaded) {
  const starts = names.ADDRESS_TAGS.filter((tag) => values.has(tag)).map((tag) => values.get(tag));
  return HASHES.filter(([, tag]) => values.has(tag)).map(([name, tag, type]) => {
    const address = values.get(tag);
    const { end } = loaded.find((it) => it.start <= address && address < it.end) ?? { end: address + 1n };
    const next = [...starts, end].filter((it) => it > address).reduce((one, other) => (one < other ? one : other));
    return { name, type, address, size: next - address };
  });
}

// The tables that the entries name, with their addresses and sizes; and why, where it is known, the file hasn't their bytes.
function named(reader, values, { fileClass, loaded }) {
  const isRel = values.get(PLTREL) === REL;
  const tables = TABLES.filter(([, at, size]) => values.has(at) && values.get(size)).map(([name, at, size, type]) =>
    ({ name, type: name === "DT_JMPREL" && isRel ? names.REL : type, address: values.get(at), size: values.get(size) }));
  const { status, record } = reader.find("dynamic_symbols_open");
  const fault = faultOf(reader, status);
  const hashes = hashTables(values, loaded).map((it) => ({ ...it, fault }));
  if (!record || !values.has(names.SYMTAB_TAG)) return [...tables, ...hashes];
  const size = record.count * BigInt(fieldsOf("symbol", fileClass).size);
  return [...tables, ...hashes, { name: "DT_SYMTAB", type: names.DYNSYM, address: values.get(names.SYMTAB_TAG), size }];
}

// Gives sections their indices, from -1 down, and adds their headers: symbols refer to names, hash tables to symbols, and
// relocations too, where there are some.
function added(reader, sections, layout) {
  const place = (type, least = 0n) => sections.findIndex(({ header }) => header.type === type && header.size >= least);
  const linkOf = ({ type }) => {
    if (type === names.RELA || type === names.REL) return place(names.DYNSYM, 1n);
    return place(type === names.HASH || type === names.GNU_HASH ? names.DYNSYM : names.STRTAB);
  };
  const links = sections.map(({ header }) => linkOf(header));
  reader.addSections(sections.map(({ header }, at) => ({ ...header, link: links[at] < 0 ? sections.length : links[at] })), layout);
  return sections.map((section, at) => ({ ...section, index: -1 - at, header: { ...section.header, link: links[at] < 0 ? 0 : -1 - links[at] } }));
}

/**
 * The sections that the entries of the dynamic segment, a range of the file at an address, are for, the first that of the
 * entries; and `missing`, the tables that the file hasn't the bytes of. Or `fault`, why there are no entries. `loaded` are
 * the addresses `{ start, end }` of the bytes of loaded segments.
 */
export function segmentTables(reader, { range, address, fileClass, loaded }) {
  const layout = fieldsOf("section", fileClass);
  const entries = sectionFor({ name: "PT_DYNAMIC", type: names.DYNAMIC, address }, range, fileClass);
  added(reader, [entries], layout);
  const { status, records } = reader.many("dynamics", { section: -1, first: 0 });
  if (status !== STATUS.OK) return { sections: [], missing: [], fault: status === STATUS.NO_RECORD ? null : faultOf(reader, status) };
  const sections = [entries];
  const missing = [];
  for (const table of named(reader, valuesOf(records), { fileClass, loaded })) {
    const bytes = table.fault ? {} : reader.one("bytes_at", { address: table.address, count: table.size });
    if (bytes.record) sections.push(sectionFor(table, bytes.record, fileClass));
    else missing.push({ ...table, fault: table.fault ?? faultOf(reader, bytes.status) });
  }
  return { sections: added(reader, sections, layout), missing, fault: null };
}
