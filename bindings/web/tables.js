// The tables of sections and segments.
import * as names from "./names.js";
import { element, notice, faultNode, verdictNode } from "./dom.js";
import { isInSegment } from "./parts.js";
import { Table } from "./table.js";
import { escaped, grouped, hex, hexDigits, plural } from "./text.js";

/** A panel of the page: a heading, what is said of the whole, and a table or another node that takes the rest. */
export function panel(title, said, body, ...tools) {
  const heading = element("div", { class: "panelhead" }, element("h2", {}, title), element("p", { class: "said" }, said), ...tools);
  return element("div", { class: "panel" }, heading, body);
}

export function address(number, fileClass) {
  return hexDigits(number, fileClass === 1 ? 8 : 16);
}

/** A section's name, or why it has none. */
export function sectionName({ name, nameFault }) {
  if (nameFault) return faultNode(nameFault);
  return escaped(name);
}

function endedNotice({ ended, total }, listed, what) {
  if (!ended) return null;
  return notice("error", `The file says that it has ${plural(total, what)}; ${grouped(listed)} can be read. At index ${grouped(listed)}: `,
    faultNode(ended));
}

/** Whether a section has bytes of its own: types NULL and NOBITS have none. */
export function hasData({ header, isSegment }) {
  return isSegment || (header.type !== 0 && header.type !== names.NOBITS);
}

// What the check of each section or segment says; and why its data can't be read, where that is another error.
function verdictColumns(list) {
  const dataFault = (item) => (hasData(item) ? item.dataFault : null);
  const isOther = (item) => dataFault(item) && dataFault(item).status !== item.check?.status;
  const width = list.some((item) => item.check) ? "minmax(8rem, 1.4fr)" : "5rem";
  const check = { label: "Check", width, cell: (item) => verdictNode(item.check) };
  const data = { label: "Data", width: "minmax(9rem, 1fr)", cell: (item) => (dataFault(item) ? faultNode(dataFault(item)) : "") };
  return list.some(isOther) ? [check, data] : [check];
}

export function sectionsPanel(file, choose) {
  const { file_class: fileClass, machine } = file.header;
  const table = new Table({ label: "Sections", empty: "The file has no section headers.", choose: ({ index }) => choose(index), columns: [
    { label: "Nr", width: "2.5rem", number: true, cell: ({ index }) => `${index}` },
    { label: "Name", width: "minmax(8rem, 1.4fr)", cell: (it) => sectionName(it) },
    { label: "Type", width: "7.5rem", cell: ({ header }) => names.sectionType(header.type, machine) },
    { label: "Address", width: fileClass === 1 ? "5rem" : "8rem", number: true, cell: ({ header }) => address(header.address, fileClass) },
    { label: "Offset", width: "4rem", number: true, cell: ({ header }) => hexDigits(header.offset, 6) },
    { label: "Size", width: "4rem", number: true, cell: ({ header }) => hexDigits(header.size, 6) },
    { label: "Entry", width: "3rem", number: true, title: "Size of an entry", cell: ({ header }) => hexDigits(header.entry_size, 2) },
    { label: "Flags", width: "3rem", cell: ({ header }) => flagsNode(names.SECTION_FLAGS, header.flags) },
    { label: "Link", width: "3rem", number: true, cell: ({ header }) => `${header.link}` },
    { label: "Info", width: "3rem", number: true, cell: ({ header }) => `${header.info}` },
    { label: "Align", width: "3.5rem", number: true, cell: ({ header }) => `${header.align}` },
    ...verdictColumns(file.sections),
  ] });
  table.showAll(file.sections);
  const said = `${plural(file.sections.length, "section")}. Numbers are hexadecimal but for link, info and alignment.`;
  return { node: panel("Sections", said, element("div", { class: "fill" }, endedNotice(file.sectionsEnd, file.sections.length, "section"), table.node)), table };
}

export function flagsNode(flags, number) {
  const text = names.letters(flags, number);
  return text ? element("span", { title: names.flagNames(flags, number) }, text) : "";
}

function heldNames(file, segment) {
  return file.sections.filter((it) => it.index && isInSegment(it, segment)).map(({ name }) => escaped(name ?? "?")).join(" ");
}

export function segmentsPanel(file, choose) {
  const { file_class: fileClass, machine } = file.header;
  const kept = new Map();
  const held = (segment) => {
    if (!kept.has(segment)) kept.set(segment, heldNames(file, segment));
    return kept.get(segment);
  };
  const wide = fileClass === 1 ? "5rem" : "8rem";
  const table = new Table({ label: "Segments", empty: "The file has no program headers.", choose: ({ index }) => choose(index), columns: [
    { label: "Nr", width: "2.5rem", number: true, cell: ({ index }) => `${index}` },
    { label: "Type", width: "7rem", cell: ({ header }) => names.segmentType(header.type, machine) },
    { label: "Offset", width: "4.5rem", number: true, cell: ({ header }) => hexDigits(header.offset, 6) },
    { label: "Address", width: wide, number: true, cell: ({ header }) => address(header.virtual_addr, fileClass) },
    { label: "Physical", width: wide, number: true, cell: ({ header }) => address(header.physical_addr, fileClass) },
    { label: "In file", width: "4.5rem", number: true, cell: ({ header }) => hexDigits(header.file_size, 6) },
    { label: "In memory", width: "5rem", number: true, cell: ({ header }) => hexDigits(header.mem_size, 6) },
    { label: "Flags", width: "3rem", cell: ({ header }) => flagsNode(names.SEGMENT_FLAGS, header.flags) },
    { label: "Align", width: "4.5rem", number: true, cell: ({ header }) => hex(header.align) },
    ...verdictColumns(file.segments),
    { label: "Sections", width: "minmax(4rem, 2fr)", cell: (it) => element("span", { title: held(it) }, held(it)) },
  ] });
  table.showAll(file.segments);
  const said = `${plural(file.segments.length, "segment")}, with the sections that lie in each. Numbers are hexadecimal.`;
  return { node: panel("Segments", said, element("div", { class: "fill" }, endedNotice(file.segmentsEnd, file.segments.length, "segment"), table.node)), table };
}
