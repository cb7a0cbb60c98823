// The panels of relocations, dynamic entries, notes and hash tables.
import * as names from "./names.js";
import { element, notice, faultNode, select } from "./dom.js";
import { symbolName } from "./symbols.js";
import { address, panel } from "./tables.js";
import { Table } from "./table.js";
import { escaped, escapedBytes, grouped, hex, hexBytes, hexDigits, plural, sizeText } from "./text.js";

const MOST_NOTE_BYTES = 64n;

function nameOfSection(section) {
  return escaped(section.name || `Section ${section.index}`);
}

// A panel whose table shows one of several sections, with a choice where there are more than one.
function chosenPanel(title, tables, table, { show, none, what }) {
  const said = element("span", { role: "status" });
  const fault = element("div");
  const choice = select("Section", tables.map(({ section, count }, at) => [at, `${nameOfSection(section)} (${grouped(count)})`]), () => change());
  const change = () => {
    const current = tables[Number(choice.chosen.value)];
    said.textContent = current ? plural(current.count, ...what) : none;
    fault.replaceChildren(...(current?.fault ? [notice("error", "These can't be read: ", faultNode(current.fault))] : []));
    if (current) show(current);
    else table.show(0, () => []);
  };
  change();
  const tools = element("div", { class: "tools" }, tables.length ? choice.node : null);
  return { node: panel(title, said, element("div", { class: "fill" }, fault, table.node), tools), table };
}

// An addend is a number of 64 bits, or of 32 in class 32, with a sign.
function addendText(file, { addend, has_addend: has }) {
  if (!has) return "";
  const bits = file.header.file_class === 1 ? 32 : 64;
  const signed = BigInt.asIntN(bits, addend);
  return signed < 0n ? `-${(-signed).toString(16)}` : signed.toString(16);
}

function relocationSymbol(file, { symbol, named, unnamed }) {
  if (!symbol) return "";
  if (unnamed) return faultNode(unnamed);
  return named ? symbolName(file, named) : `${symbol}`;
}

export function relocationsPanel(file, client, choose) {
  const { file_class: fileClass, machine } = file.header;
  const types = names.RELOCATION_TYPES[machine] ?? {};
  let current = null;
  const table = new Table({ label: "Relocations", choose: (row) => choose(current.section.index, row), columns: [
    { label: "Nr", width: "4rem", number: true, cell: ({ index }) => `${index}` },
    { label: "Offset", width: fileClass === 1 ? "5rem" : "8rem", number: true, cell: ({ offset }) => address(offset, fileClass) },
    { label: "Type", width: "14rem", cell: ({ type, isPacked }) => (isPacked ? "relative, packed" : names.nameOf(types, type)) },
    { label: "Addend", width: "8rem", number: true, cell: (it) => addendText(file, it) },
    { label: "Symbol", width: "4.5rem", number: true, cell: ({ symbol }) => `${symbol ?? ""}` },
    { label: "Name", width: "minmax(16rem, 1fr)", cell: (it) => relocationSymbol(file, it) },
  ] });
  const show = (it) => {
    current = it;
    const { index: section, header } = it.section;
    if (header.type === names.RELR) {
      table.show(it.count, (first, size) => client.ask("packed", { section, first, size }));
      return;
    }
    const hasSymbols = header.link < 0 || file.symbolTables.some((other) => other.section.index === header.link);
    const symbols = hasSymbols ? header.link : null;
    table.show(it.count, (first, size) => client.ask("relocations", { section, symbols, first, size }));
  };
  return chosenPanel("Relocations", file.relocationTables, table, { show, none: "The file has no relocations.", what: ["relocation"] });
}

// The section that begins at an address.
function sectionAt(file, address) {
  const section = file.sections.find(({ header }) => header.flags & names.SECTION_ALLOC && header.address === address);
  return section ? element("span", { class: "borrowed" }, nameOfSection(section)) : "";
}

/** What the value of a dynamic entry is, by its tag. */
function dynamicValue(file, { tag, value, text, fault }) {
  if (fault) return [hex(value), " ", faultNode(fault)];
  if (text !== undefined) return escaped(text);
  const flags = names.DYNAMIC_FLAGS[Number(tag)];
  if (flags) return names.flagNames(flags, value) || "none";
  if (names.SIZE_TAGS.includes(tag)) return sizeText(value) + (value > 1023n ? ` (${value})` : "");
  if (names.COUNT_TAGS.includes(tag)) return `${value}`;
  if (tag === 20n) return names.nameOf(names.DYNAMIC_TAGS, value);
  return names.ADDRESS_TAGS.includes(tag) ? sectionAt(file, value) : "";
}

export function dynamicPanel(file, client, choose) {
  let current = null;
  const table = new Table({ label: "Dynamic entries", choose: (row) => choose(current.section.index, row), columns: [
    { label: "Nr", width: "3rem", number: true, cell: ({ index }) => `${index}` },
    { label: "Tag", width: "11rem", number: true, cell: ({ tag }) => hex(tag, 16) },
    { label: "Name", width: "10rem", cell: ({ tag }) => names.dynamicTag(tag, file.header.machine) },
    { label: "Value", width: "11rem", number: true, cell: ({ value }) => hex(value) },
    { label: "Means", width: "minmax(16rem, 1fr)", cell: (it) => dynamicValue(file, it) },
  ] });
  const show = (it) => {
    current = it;
    table.show(it.count, (first, size) =>
      client.ask("dynamic", { section: it.section.index, strings: it.strings, texts: names.TEXT_TAGS, first, size }));
  };
  const none = "The file has no dynamic entries.";
  return chosenPanel("Dynamic entries", file.dynamicTables, table, { show, none, what: ["dynamic entry", "dynamic entries"] });
}

function textOf(said) {
  return said?.fault ? faultNode(said.fault) : escaped(said?.text ?? "");
}

/** The versions that the file defines and needs. */
export function versionsPanel(file) {
  const { listed, fault } = file.versions;
  const library = (it) => (it.kind === 1 && it.flags & 1 ? element("span", { class: "borrowed" }, "this file itself") : textOf(it.library));
  const table = new Table({ label: "Versions", empty: "The file defines and needs no versions.", columns: [
    { label: "Nr", width: "4rem", number: true, title: "The number by which symbols refer to it", cell: ({ number }) => `${number}` },
    { label: "Kind", width: "6rem", cell: ({ kind }) => names.nameOf(names.VERSION_KINDS, kind) },
    { label: "Name", width: "minmax(12rem, 1fr)", cell: (it) => textOf(it.fault ? it : it.name) },
    { label: "Library", width: "minmax(12rem, 1fr)", cell: library },
    { label: "Flags", width: "6rem", cell: ({ flags }) => names.flagNames(names.VERSION_FLAGS, flags) },
    { label: "Hash", width: "6rem", number: true, cell: ({ hash }) => hexDigits(hash, 8) },
  ] });
  table.showAll(listed);
  const why = fault ? [notice("error", "The versions end early: ", faultNode(fault))] : [];
  const said = `${plural(listed.length, "version")} that the file defines, or needs of libraries.`;
  return { node: panel("Versions", said, element("div", { class: "fill" }, why, table.node)), table };
}

// The owner of a note without the zero byte that ends it.
function ownerOf(bytes) {
  return escapedBytes(bytes.at(-1) === 0 ? bytes.subarray(0, -1) : bytes);
}

function noteType(owner, type) {
  return names.NOTE_TYPES[owner]?.[type] ?? hex(type);
}

export function notesPanel(file, client, choose) {
  const table = new Table({ label: "Notes", empty: "The file has no notes.", choose, columns: [
    { label: "In", width: "12rem", cell: ({ place }) => escaped(place) },
    { label: "Offset", width: "6.5rem", number: true, cell: ({ start }) => hexDigits(start, 6) },
    { label: "Owner", width: "8rem", cell: ({ shown }) => ownerOf(shown.name) },
    { label: "Type", width: "11rem", cell: ({ type, shown }) => noteType(ownerOf(shown.name), type) },
    { label: "Size", width: "5rem", number: true, title: "Size of the description", cell: ({ desc }) => `${desc.size}` },
    { label: "Description", width: "minmax(18rem, 1fr)", cell: ({ desc, shown }) =>
      `${hexBytes(shown.desc)}${desc.size > MOST_NOTE_BYTES ? "…" : ""}` },
  ] });
  table.show(file.notes.length, async (first, size) => {
    const notes = file.notes.slice(first, first + size);
    const shown = await client.ask("noteRows", { notes, most: MOST_NOTE_BYTES });
    return notes.map((note, at) => ({ ...note, shown: shown[at] }));
  });
  const fault = file.notesFaults.map(({ place, fault: why }) => notice("error", `${escaped(place)}: `, faultNode(why)));
  const cut = file.notesCut ? [notice("note", "Further notes are not listed.")] : [];
  return { node: panel("Notes", plural(file.notes.length, "note"), element("div", { class: "fill" }, fault, cut, table.node)), table };
}

/** What the check of a hash table says, as a node. */
export function checkNode({ said }) {
  if (!said) return element("span", { class: "pending" }, "not checked yet");
  if (said.failed) return element("span", { class: "pending" }, said.failed);
  return said.status === 0 ? element("span", { class: "fine" }, "passes its check") : element("span", { class: "fault" }, said.message);
}

function lookUpForm(file, client, table) {
  const result = element("output", { class: "result" });
  const name = element("input", { type: "text", spellcheck: "false", autocomplete: "off", placeholder: "a whole name, as malloc" });
  const submit = async (event) => {
    event.preventDefault();
    const given = { section: table.section.index, symbols: table.section.header.link, name: name.value };
    const said = await client.ask("lookUp", given);
    result.replaceChildren(...[lookUpSaid(file, said)].flat());
  };
  return element("form", { class: "lookup", onsubmit: submit },
    element("label", { class: "field grow" }, element("span", {}, "Look up a symbol"), name), element("button", { type: "submit" }, "Look up"), result);
}

function lookUpSaid(file, { fault, found, index, looked_at: steps, symbol }) {
  if (fault) return faultNode(fault);
  const cost = `${plural(steps, "entry", "entries")} of the table looked at.`;
  if (!found) return `Not found. ${cost}`;
  const value = symbol ? ` at ${hex(symbol.value)}, ${sizeText(symbol.size)}` : "";
  return `Symbol ${index}${value}. ${cost}`;
}

/** The hash tables, each with its check and a form to look a symbol up. */
export function hashesPanel(file, client, { choose, check }) {
  const cards = file.hashTables.map((table) => {
    const checked = element("p", { class: "checked" });
    const draw = () => checked.replaceChildren(checkNode(table),
      table.running ? element("button", { type: "button", onclick: () => check.stop(table) }, "Stop the check") : "");
    table.listeners.push(draw);
    draw();
    return element("section", { class: "card" },
      element("h3", {}, nameOfSection(table.section), element("span", { class: "sort" }, table.gnu ? "GNU hash table" : "gABI hash table")),
      checked, ...(table.section.index === null ? [] : [lookUpForm(file, client, table),
        element("button", { type: "button", class: "quiet", onclick: () => choose(table.section.index) }, "Show its bytes")]));
  });
  const said = file.hashTables.length ? "A table that passes its check finds a symbol wherever one that isn't local has the name; GNU's, wherever one is defined too." : "The file has no hash table of symbols.";
  return { node: panel("Hash tables", said, element("div", { class: "cards" }, cards)) };
}
