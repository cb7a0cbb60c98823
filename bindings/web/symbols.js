// The tables of symbols, with a filter.
import * as names from "./names.js";
import { element, notice, faultNode, select } from "./dom.js";
import { address, panel } from "./tables.js";
import { Table } from "./table.js";
import { escaped, grouped, plural } from "./text.js";

const PAUSE = 120;

/** The section that a symbol belongs to, by its name or by what its index means. */
function sectionOf(file, { shndx }) {
  const special = names.SYMBOL_SECTIONS[shndx];
  if (special) return element("span", { class: "special" }, special);
  const section = file.sections[shndx];
  return section?.name ? element("span", { title: `Section ${shndx}` }, escaped(section.name)) : `${shndx}`;
}

/** A symbol's name: that of its section where it stands for one; or why it can't be read. */
export function symbolName(file, { text, fault, info, shndx }) {
  if (fault) return faultNode(fault);
  if (text) return escaped(text);
  const section = info % 16 === names.SECTION_SYMBOL ? file.sections[shndx] : null;
  return section?.name ? element("span", { class: "borrowed" }, escaped(section.name)) : "";
}

// A version as it follows a symbol's name: `@@V` where it is the default of the name, and else `@V`.
function versionOf({ version }) {
  if (!version?.kind) return "";
  const { name, library, kind, hidden } = version;
  if (name.fault) return faultNode(name.fault);
  const title = kind === 2 ? `needed of ${escaped(library?.text ?? "")}` : hidden ? "not the default version" : "the default version";
  return element("span", { title }, `${kind === 1 && !hidden ? "@@" : "@"}${escaped(name.text)}`);
}

function columns(file) {
  const fileClass = file.header.file_class;
  return [
    { label: "Nr", width: "3rem", number: true, by: "index", cell: ({ index }) => `${index}` },
    { label: "Value", width: fileClass === 1 ? "5rem" : "8rem", number: true, by: "value", cell: ({ value }) => address(value, fileClass) },
    { label: "Size", width: "3.5rem", number: true, by: "size", cell: ({ size }) => `${size}` },
    { label: "Type", width: "4.5rem", cell: ({ info }) => names.nameOf(names.SYMBOL_TYPES, info % 16) },
    { label: "Binding", width: "4.5rem", cell: ({ info }) => names.nameOf(names.SYMBOL_BINDINGS, Math.floor(info / 16)) },
    { label: "Visibility", width: "6rem", cell: ({ other }) => names.VISIBILITIES[other % 4] },
    { label: "Section", width: "6.5rem", cell: (it) => sectionOf(file, it) },
    { label: "Name", width: "minmax(12rem, 1fr)", by: "text", cell: (it) => symbolName(file, it) },
    ...(file.versions.ofSymbols ? [{ label: "Version", width: "10rem", cell: versionOf }] : []),
  ];
}

/** The panel of symbols: `tables` are the sections that hold some, each with its count. */
export class SymbolsPanel {
  constructor(file, client, choose) {
    Object.assign(this, { file, client, order: { by: "index", down: false }, timer: 0, asked: 0 });
    const tables = file.symbolTables;
    const readable = tables.filter(({ count }) => count);
    this.current = readable.find(({ section }) => section.header.type === names.SYMTAB) ?? readable[0] ?? tables[0];
    this.table = new Table({ label: "Symbols", columns: columns(file), empty: "No symbols.",
      choose: (row) => choose(this.current.section.index, row), sort: (by, down) => this.sortBy(by, down) });
    this.said = element("span", { role: "status" });
    this.fault = element("div");
    this.node = panel("Symbols", this.said, element("div", { class: "fill" }, this.fault, this.table.node), this.tools(tables));
    this.showTable();
  }

  tools(tables) {
    const changed = () => this.later(0);
    const any = [["", "any"]];
    const choices = (list) => [...any, ...Object.entries(list)];
    this.tableChoice = select("Table", tables.map(({ section, count }, at) =>
      [at, `${escaped(section.name ?? `Section ${section.index}`)} (${grouped(count)})`]), () => this.changeTable(tables));
    this.tableChoice.chosen.value = Math.max(0, tables.indexOf(this.current));
    this.text = element("input", { type: "search", placeholder: "part of a name", spellcheck: "false", autocomplete: "off",
      oninput: () => this.later(PAUSE) });
    this.type = select("Type", choices(names.SYMBOL_TYPES), changed);
    this.binding = select("Binding", choices(names.SYMBOL_BINDINGS), changed);
    this.defined = select("Defined", [["any", "any"], ["defined", "defined"], ["undefined", "undefined"]], changed);
    return element("div", { class: "tools" }, this.tableChoice.node,
      element("label", { class: "field grow" }, element("span", {}, "Filter"), this.text), this.type.node, this.binding.node, this.defined.node);
  }

  changeTable(tables) {
    this.current = tables[Number(this.tableChoice.chosen.value)];
    this.showTable();
  }

  sortBy(by, down) {
    this.order = { by, down };
    this.later(0);
  }

  later(pause) {
    clearTimeout(this.timer);
    this.timer = setTimeout(() => this.find(), pause);
  }

  wanted() {
    const number = ({ chosen }) => (chosen.value === "" ? null : Number(chosen.value));
    return { text: this.text.value, type: number(this.type), binding: number(this.binding), defined: this.defined.chosen.value, ...this.order };
  }

  isAll({ text, type, binding, defined, by, down }) {
    return !text && type === null && binding === null && defined === "any" && by === "index" && !down;
  }

  showTable() {
    if (!this.current) return this.showNone();
    const { fault } = this.current;
    this.fault.replaceChildren(...(fault ? [notice("error", "The symbols can't be read: ", faultNode(fault))] : []));
    return this.find();
  }

  // Whether the symbols are those of the dynamic segment, which have the versions.
  isDynamic({ index, header }) {
    const { dynamicValues, versions } = this.file;
    return versions.ofSymbols && (index === null || (header.type === names.DYNSYM && header.address === dynamicValues?.get(names.SYMTAB_TAG)));
  }

  showNone() {
    this.said.textContent = "The file has no table of symbols.";
    this.table.show(0, () => []);
  }

  async find() {
    if (!this.current) return;
    this.asked += 1;
    const { asked, current: { section: { index: section }, count } } = this;
    const versioned = this.isDynamic(this.current.section);
    const wanted = this.wanted();
    if (this.isAll(wanted)) {
      this.said.textContent = plural(count, "symbol");
      this.table.show(count, (first, size) => this.client.ask("symbols", { section, first, size, versioned }));
      return;
    }
    const found = await this.client.ask("find", { section, total: count, ...wanted });
    if (asked !== this.asked) return;
    const partly = found.stopped ? `, stopped after ${grouped(found.looked)}` : "";
    this.said.textContent = `${grouped(found.count)} of ${plural(count, "symbol")}${partly}`;
    this.table.show(found.count, (first, size) => this.client.ask("found", { section, first, size, versioned }));
  }
}
