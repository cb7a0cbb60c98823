// The symbol of the byte at an offset: its address by the loaded segments, or its place in a section of an object file.
import * as names from "./names.js";
import { KINDS } from "./parts.js";
import { escaped, hex } from "./text.js";

// The address of a byte, and the section that its symbol is in, or 0; null where the byte has no address.
function addressOf({ header, segments }, part, offset) {
  if (header.type === names.ET_REL) {
    const isSection = part?.sort === "section" && part.section.header.flags & names.SECTION_ALLOC;
    return isSection ? { address: BigInt(offset - part.start), within: part.section.index } : null;
  }
  const at = BigInt(offset);
  const holds = ({ header: it }) => it.type === names.PT_LOAD && it.offset <= at && at - it.offset < it.file_size;
  const load = segments.find(holds)?.header;
  return load ? { address: load.virtual_addr + (at - load.offset), within: 0 } : null;
}

/** The table of symbols that are asked, and the section of their section indices that need more than 16 bits. */
export function tableOf({ symbolTables, sections }) {
  const tables = symbolTables.filter(({ count }) => count);
  const table = tables.find(({ section }) => section.header.type === names.SYMTAB) ?? tables[0];
  if (!table) return null;
  const { index } = table.section;
  const wide = sections.find(({ header }) => index !== null && header.type === names.SYMTAB_SHNDX && header.link === index);
  return { section: index, indices: wide ? { offset: wide.header.offset, size: wide.header.size } : { offset: 0n, size: 0n } };
}

/** The symbol that covers the byte at an offset, as `main+0x4`; null if none does. */
export async function symbolText(file, client, part, offset) {
  const [place, table] = [addressOf(file, part, offset), tableOf(file)];
  const found = place && table ? await client.ask("symbolAt", { ...place, ...table }) : null;
  return found ? `${escaped(found.text)}+${hex(found.offset)}` : null;
}

/** What is known of the byte at an offset, as names and texts: the part that it belongs to, its address, and the loaded segment. */
export function factsOf(file, part, offset) {
  const { machine } = file.header;
  const section = part?.sort === "section" ? part.section : null;
  const place = addressOf(file, part, offset);
  const load = file.segmentParts.find(({ segment, start, end }) => segment.header.type === names.PT_LOAD && start <= offset && offset < end);
  const flags = load ? names.flagNames(names.SEGMENT_FLAGS, load.segment.header.flags) : "";
  return [
    ["Part", part?.sort === "gap" ? "none: no part of the file claims it" : part && `${escaped(part.label)}${KINDS[part.kind] ? `, ${KINDS[part.kind].toLowerCase()}` : ""}`],
    ["Section type", section && section.index >= 0 ? names.sectionType(section.header.type, machine) : ""],
    [file.header.type === names.ET_REL ? "Offset in it" : "Address", place ? hex(place.address) : ""],
    ["Segment", load ? `${load.segment.index}, ${load.label}${flags ? `, ${flags}` : ""}` : ""],
  ];
}
