// Names what the bytes at an offset are: the part, the record in it, and the record's fields with their values.
// The reader's results say where parts and records lie and what values they have; fields.js labels the bytes.
import * as names from "./names.js";
import { fieldsOf } from "./fields.js";
import { escaped, grouped, hex } from "./text.js";

const RECORDS = { [names.SYMTAB]: ["symbol", "symbols", "Symbol"], [names.DYNSYM]: ["symbol", "symbols", "Symbol"],
  [names.RELA]: ["rela", "relocations", "Relocation"], [names.REL]: ["rel", "relocations", "Relocation"],
  [names.DYNAMIC]: ["dynamic", "dynamic", "Dynamic entry"] };

const MEANINGS = { EI_CLASS: names.CLASSES, EI_DATA: names.ENCODINGS, EI_OSABI: names.OS_ABIS,
  e_type: names.FILE_TYPES, e_machine: names.MACHINES, sh_type: names.SECTION_TYPES, p_type: names.SEGMENT_TYPES,
  d_tag: names.DYNAMIC_TAGS };

/** The fields whose values are addresses in memory. */
const ADDRESSES = ["e_entry", "sh_addr", "p_vaddr", "st_value", "r_offset"];

/** The value of a field, in base 16 and by its name. */
function valueText(field, values, file) {
  if (!values || (field.member === null && field.name !== "r_info")) return "";
  if (field.name === "r_info") {
    const type = names.nameOf(names.RELOCATION_TYPES[file.header.machine] ?? {}, values.type);
    return `symbol ${values.symbol}, ${type}`;
  }
  const value = values[field.member];
  const named = MEANINGS[field.name]?.[Number(value)] ?? flagsText(field, value);
  return named ? `${hex(value)}  ${named}` : hex(value);
}

function flagsText({ name }, value) {
  if (name === "sh_flags") return names.flagNames(names.SECTION_FLAGS, value);
  if (name === "p_flags") return names.flagNames(names.SEGMENT_FLAGS, value);
  if (name === "st_info") {
    return `${names.nameOf(names.SYMBOL_BINDINGS, Math.floor(value / 16))} ${names.nameOf(names.SYMBOL_TYPES, value % 16)}`;
  }
  return "";
}

function addressOf({ name, member }, values) {
  const isAddress = values && ADDRESSES.includes(name) && BigInt(values[member]) !== 0n;
  return isAddress ? BigInt(values[member]) : null;
}

function recordAt(file, record, start, title, values) {
  const { fields, size } = fieldsOf(record, file.header.file_class);
  const placed = fields.map((it) => ({ name: it.name, means: it.means, start: start + it.at, end: start + it.at + it.size,
    value: valueText(it, values, file), address: addressOf(it, values) }));
  return { title, start, end: start + size, fields: placed };
}

function tableEntry(file, part, offset) {
  const isSections = part.sort === "sections";
  const { sh_entry_size, ph_entry_size, sh_offset, ph_offset } = file.header;
  const step = isSections ? sh_entry_size : ph_entry_size;
  const start = Number(isSections ? sh_offset : ph_offset);
  const index = Math.floor((offset - start) / step);
  const item = (isSections ? file.sections : file.segments)[index];
  const said = isSections ? escaped(item?.name ?? "") : names.segmentType(item?.header.type ?? 0, file.header.machine);
  const title = `${isSections ? "Section" : "Program"} header ${index}${item && said ? ` of ${said}` : ""}`;
  return recordAt(file, isSections ? "section" : "segment", start + index * step, title, item?.header);
}

async function sectionRecord(file, client, part, offset) {
  const { section } = part;
  const [record, call, title] = RECORDS[section.header.type];
  const { size } = fieldsOf(record, file.header.file_class);
  const index = Math.floor((offset - part.start) / size);
  const [values] = await client.ask(call, { section: section.index, symbols: null, strings: null, texts: [], first: index, size: 1 });
  const named = values?.text ? ` ${escaped(values.text)}` : "";
  const found = recordAt(file, record, part.start + index * size, `${title} ${grouped(index)}${named}`, values);
  return { ...found, values };
}

function noteRecord(file, part, offset) {
  const note = file.notes.find((it) => it.start <= offset && offset < Number(it.rest.offset));
  if (!note) return null;
  const range = ({ offset: start, size }) => [Number(start), Number(start + size)];
  const field = (name, means, [start, end], value = "") => ({ name, means, start, end, value });
  const at = note.start;
  const fields = [field("n_namesz", "Size of the name", [at, at + 4], hex(note.name.size)),
    field("n_descsz", "Size of the description", [at + 4, at + 8], hex(note.desc.size)),
    field("n_type", "Type", [at + 8, at + 12], hex(note.type)), field("name", "Owner", range(note.name)),
    field("desc", "Description", range(note.desc))];
  return { title: "Note", start: at, end: Number(note.rest.offset), fields };
}

async function textRecord(client, part, offset) {
  const range = { offset: BigInt(part.start), size: BigInt(part.end - part.start) };
  const { text, fault } = await client.ask("text", { part: range, index: offset - part.start });
  const value = fault ? fault.message : escaped(text).slice(0, 200);
  return { title: "Text", start: offset, end: offset + 1,
    fields: [{ name: "text", means: "The text from this byte on", start: offset, end: offset + 1, value }] };
}

/** The record at an offset of a part: its title, range and fields; or null where the part holds no records. */
export async function recordOf(file, client, part, offset) {
  if (part.sort === "header") return recordAt(file, "header", 0, "ELF header", file.header);
  if (part.sort === "sections" || part.sort === "segments") return tableEntry(file, part, offset);
  if (part.sort !== "section") return null;
  const { type } = part.section.header;
  if (RECORDS[type]) return sectionRecord(file, client, part, offset);
  if (type === names.NOTE) return noteRecord(file, part, offset);
  return type === names.STRTAB ? textRecord(client, part, offset) : null;
}
