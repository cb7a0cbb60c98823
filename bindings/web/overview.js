// The first panel: what people look for first, what the file is, what the checks say, and its header.
import * as names from "./names.js";
import { element, faultNode, verdictNode } from "./dom.js";
import { fieldsOf } from "./fields.js";
import { hardeningOf, isPie } from "./hardening.js";
import { checkNode } from "./linking.js";
import { unowned } from "./parts.js";
import { hasData } from "./tables.js";
import { escaped, grouped, hex, hexBytes } from "./text.js";

/** The words that say what a file is: `Shared object`, `x86-64`, `ELF64`, `little-endian`. */
export function kindWords(file) {
  const { header } = file;
  const type = isPie(file) ? "Program (PIE)" : names.FILE_TYPE_TEXTS[header.type];
  return [type ?? `Type ${hex(header.type)}`, names.nameOf(names.MACHINES, header.machine),
    names.nameOf(names.CLASSES, header.file_class), names.ENCODINGS[header.encoding] ?? "little-endian"];
}

function card(title, ...children) {
  return element("section", { class: "card" }, element("h3", {}, title), ...children);
}

function facts(pairs) {
  return element("dl", { class: "facts" }, pairs.flatMap(([name, value]) =>
    [element("dt", {}, name), element("dd", {}, ...[value].flat())]));
}

function textOrFault({ text, fault }) {
  return fault ? faultNode(fault) : element("code", {}, escaped(text));
}

function identity(file) {
  const { header, counts } = file;
  return card("What it is", facts([
    ["Kind", kindWords(file).slice(0, 2).join(", ")],
    ["Format", `${kindWords(file)[2]}, ${kindWords(file)[3]}, ${names.nameOf(names.OS_ABIS, header.os_abi)}`],
    ["Entry point", element("code", {}, hex(header.entry_point))],
    ["Sections", grouped(counts.sections)], ["Segments", grouped(counts.segments)],
    ["Interpreter", file.interpreter ? textOrFault(file.interpreter) : "none"],
  ]));
}

// What people look for first: how the file is hardened, which libraries it needs, and its build id.
function glance(file) {
  const entries = (tag) => file.named.filter((it) => it.tag === tag);
  const needed = entries(names.NEEDED);
  const others = [["Own name", 14n], ["Run path", 29n], ["Old run path", 15n]].filter(([, tag]) => entries(tag).length)
    .map(([name, tag]) => [name, entries(tag).map(textOrFault)]);
  const list = element("ul", { class: "libraries" }, needed.map((it) => element("li", {}, textOrFault(it))));
  const noLibraries = file.namedFault ? faultNode(file.namedFault) : "none";
  const noId = file.notesFaults.length ? faultNode(file.notesFaults[0].fault) : "none";
  const rows = hardeningOf(file);
  const hardened = rows.map(({ name, said, sort, means }) => element("div", { title: means }, element("dt", {}, name), element("dd", { class: sort }, said)));
  const meanings = rows.length ? [["Loads", LOADERS[file.load.loader].means], ...rows.map(({ name, means }) => [name, means])] : [];
  return element("section", { class: "card wide first", "aria-label": "At a glance" },
    hardened.length ? element("dl", { class: "hardened" }, hardened) : null,
    facts([["Loads", loadsNode(file)], ...withoutPlan(file), ["Libraries needed", needed.length ? list : noLibraries], ...others,
      ["Build id", file.buildId ? element("code", { class: "id" }, hexBytes(file.buildId)) : noId]]),
    meanings.length ? element("details", { class: "meanings" }, element("summary", {}, "What these words mean"), facts(meanings)) : null);
}

// Which loader is asked, by the kind of the file, and what about.
const LOADERS = {
  [names.LINUX]: { title: "By Linux, which starts programs",
    means: "Whether Linux starts the file as a program, by its headers. Libraries and symbols aren't looked for." },
  [names.GLIBC]: { title: "By glibc, which loads shared libraries",
    means: "Whether glibc loads the file as a shared library, by its headers. Libraries and symbols aren't looked for." },
};

// Whether the loader of its kind maps the file. Object files and core files are no files to load.
function loadsNode({ header: { type }, load: { fault, loader } }) {
  const isOther = type === names.ET_REL || type === names.ET_CORE;
  const sort = fault ? (isOther ? "hint" : "bad") : "fine";
  return element("span", { class: sort, title: isOther ? null : LOADERS[loader].title }, fault ? `no: ${fault.message}` : "yes");
}

const PAGES = "Pages in memory";

// What isn't known of a file that is loaded, but has no plan.
function withoutPlan({ load: { fault, planFault } }) {
  if (fault || !planFault) return [];
  return [[PAGES, [element("span", { class: "weak" }, `not known: ${planFault.message}`),
    element("p", { class: "hint" }, "RELRO, NX and W+X are read from the program headers.")]]];
}

// What the checks of all sections or segments say.
function checkedAll(list, what) {
  const fault = list.filter(({ check }) => check);
  if (!fault.length) return verdictNode(null);
  return [faultNode(fault[0].check), ` at ${what} ${fault[0].index}${fault.length > 1 ? `, and ${fault.length - 1} more` : ""}`];
}

function checks(file) {
  const hashes = file.hashTables.map((table) => {
    const said = element("span", {});
    const draw = () => said.replaceChildren(checkNode(table));
    table.listeners.push(draw);
    draw();
    return [`Hash table ${escaped(table.section.name ?? table.section.index)}`, said];
  });
  const lists = [["Sections", file.sections, "section"], ["Segments", file.segments, "segment"]]
    .filter(([, list]) => list.length).map(([name, list, what]) => [name, checkedAll(list, what)]);
  return card("What the checks say", facts([["Header", verdictNode(file.check)], ...lists, ...hashes]));
}

// All that can't be read, each with where.
function faultList(file) {
  const lists = [
    [file.sectionsEnd.ended && ["Section headers end early", file.sectionsEnd.ended]],
    [file.segmentsEnd.ended && ["Program headers end early", file.segmentsEnd.ended]],
    [file.namesFault && file.sections.length && ["Names of sections", file.namesFault]],
    file.sections.map((it) => it.nameFault && !file.namesFault && [`Name of section ${it.index}`, it.nameFault]),
    file.sections.map((it) => hasData(it) && it.dataFault && [`Data of ${sectionWords(it)}`, it.dataFault]),
    file.segments.map((it) => it.dataFault && [`Data of segment ${it.index}`, it.dataFault]),
    [...file.symbolTables, ...file.relocationTables, ...file.dynamicTables.filter(({ section }) => section.index !== null)]
      .map(({ section, fault }) => fault && [`Records of ${sectionWords(section)}`, fault]),
    [file.namedFault && ["Entries of the dynamic segment", file.namedFault]],
    [file.versions.fault && ["Versions", file.versions.fault]],
    [!file.load.fault && file.load.planFault && [PAGES, file.load.planFault]],
    file.notesFaults.map(({ place, fault }) => [`Notes of ${escaped(place)}`, fault]),
  ];
  return lists.flat().filter(Boolean);
}

function sectionWords({ index, name }) {
  if (index === null || index < 0) return escaped(name);
  return name ? `section ${index}, ${escaped(name)}` : `section ${index}`;
}

const MOST_FAULTS = 200;

function fault(file) {
  const all = faultList(file);
  if (!all.length) return card("What can't be read", element("p", { class: "hint" }, "Nothing: all parts that the reader knows can be read."));
  const rows = all.slice(0, MOST_FAULTS).map(([what, why]) => element("li", {}, element("span", {}, what), faultNode(why)));
  const more = all.length > rows.length ? element("p", { class: "hint" }, `And ${grouped(all.length - rows.length)} more.`) : null;
  return card("What can't be read", element("ul", { class: "faults" }, rows), more);
}

function layoutFacts(file) {
  const { between, behind } = unowned(file);
  return card("How its bytes are used", facts([["Pieces", grouped(file.pieces.length)],
    ["Bytes of no part", `${grouped(between + behind)}: ${grouped(between)} between parts, ${grouped(behind)} behind all parts`]]));
}

function headerValue({ header }, { member, name }) {
  const named = { EI_CLASS: names.CLASSES, EI_DATA: names.ENCODINGS, EI_OSABI: names.OS_ABIS, e_type: names.FILE_TYPES,
    e_machine: names.MACHINES }[name]?.[header[member]];
  const number = /size|num|ndx|VERSION|version/.test(name) ? `${header[member]}` : hex(header[member]);
  return [number, named ?? ""];
}

function headerTable(file, show) {
  const rows = fieldsOf("header", file.header.file_class).fields.filter(({ member }) => member).map((field) => {
    const [number, named] = headerValue(file, field);
    return element("tr", {}, element("th", { scope: "row" }, element("button", { type: "button", class: "plain", onclick: () => show(field.at) }, field.name)),
      element("td", { class: "number" }, number), element("td", {}, named), element("td", { class: "means" }, field.means));
  });
  return element("section", { class: "card wide" }, element("h3", {}, "ELF header"),
    element("table", { class: "plain" }, element("caption", { class: "hidden" }, "Fields of the ELF header"),
      element("thead", {}, element("tr", {}, ["Field", "Value", "Name", "Meaning"].map((it) => element("th", { scope: "col" }, it)))),
      element("tbody", {}, rows)));
}

export function overviewPanel(file, show) {
  const cards = [glance(file), identity(file), checks(file), fault(file), layoutFacts(file), headerTable(file, show)];
  return { node: element("div", { class: "panel" }, element("h2", { class: "hidden" }, "Overview"), element("div", { class: "scroll" }, element("div", { class: "overview" }, cards))) };
}
