// The page: choosing a file, its tabs, the hex view and the progress bar.
import { byId, element } from "./dom.js";
import * as names from "./names.js";
import { Client } from "./client.js";
import { Dock } from "./dock.js";
import { HexView } from "./hex.js";
import { LayoutMap } from "./map.js";
import { Strip } from "./strip.js";
import { checkHashes, stopCheck } from "./checks.js";
import { dynamicPanel, hashesPanel, notesPanel, relocationsPanel, versionsPanel } from "./linking.js";
import { escaped, grouped, plural, sizeText } from "./text.js";
import { fieldsOf } from "./fields.js";
import { kindWords, overviewPanel } from "./overview.js";
import { load, survey } from "./opening.js";
import { panel, sectionsPanel, segmentsPanel } from "./tables.js";
import { KINDS, partAt, unowned } from "./parts.js";
import { Places } from "./places.js";
import { Progress } from "./progress.js";
import { SectionSymbols } from "./section_symbols.js";
import { SymbolsPanel } from "./symbols.js";
import { Tabs } from "./tabs.js";
import { takeFiles } from "./choosing.js";

// A module of one memory with 64-bit addresses: what the reader's module needs of the browser.
const WIDE_MEMORY = Uint8Array.of(0, 0x61, 0x73, 0x6d, 1, 0, 0, 0, 5, 3, 1, 4, 1);
// Where there is little room the bytes are shown when a part of the file is chosen.
const NARROW = matchMedia("(max-width: 600px)");
const RECORDS = { symbols: "symbol", relocations: "rela", dynamic: "dynamic" };

const page = { client: null, module: null, file: null, source: null };
const progress = new Progress(() => page.client?.ask("stop"));
const hexView = new HexView({ grid: byId("bytes"), title: byId("hextitle"), fields: byId("fields"), place: byId("place"),
  follow: (address) => follow(address) });
const dock = new Dock(byId("dock"), byId("togglehex"), () => hexView.reveal());
const strip = new Strip(byId("strip"), (part) => choosePiece(part));
const map = new LayoutMap((part) => choosePiece(part));
const inside = new SectionSymbols((part, offset) => choose(part, offset));
const tabs = new Tabs(byId("tabs"), byId("panels"), (title, isClick) => places.show(page.source, title, isClick));
const places = new Places((source, tab) => goBack(source, tab));

function show(view) {
  for (const name of ["welcome", "viewer"]) byId(name).hidden = name !== view;
  document.body.dataset.view = view;
  document.title = view === "viewer" ? `${escaped(page.file.name)} · ELF viewer` : "ELF viewer";
}

// Shows the start, or a view of a file that was opened before, where Back or Forward leads to it.
function goBack(source, tab) {
  if (!source) return welcome();
  tabs.current = tab;
  if (source !== page.source || !page.file) return open(source);
  tabs.choose(tab, false);
  return show("viewer");
}

function welcome() {
  show("welcome");
  say(null);
  byId("choose").focus();
}

function say(message) {
  byId("message").hidden = !message;
  byId("message").replaceChildren(...(message ? [element("strong", {}, escaped(message.title)), " ", element("span", {}, escaped(message.text))] : []));
}

/** Chooses a part: marks it in the pictures and shows its bytes, unless the reader of the page has closed them. */
function choose(part, offset = part.start) {
  if (dock.kept() !== "closed") dock.open();
  strip.mark(part);
  map.mark(part);
  inside.mark(part);
  hexView.show(part, offset);
}

// Chooses the whole part that a piece is of, and shows its bytes from those of the piece on.
function choosePiece(piece) {
  choose(piece.whole ?? piece, piece.start);
}

function partOf(section) {
  return [...page.file.sectionParts, ...page.file.addedParts].find(({ id }) => id === `section-${section}`);
}

function chooseSection(index) {
  const part = partOf(index);
  const headers = page.file.pieces.find(({ id }) => id === "sections");
  if (part) choose(part);
  else if (headers) choose(headers, Math.min(headers.start + index * page.file.header.sh_entry_size, headers.end - 1));
}

function chooseSegment(index) {
  const part = page.file.segmentParts.find(({ segment }) => segment.index === index);
  const headers = page.file.pieces.find(({ id }) => id === "segments");
  if (part) choose(part);
  else if (headers) choose(headers, Math.min(headers.start + index * page.file.header.ph_entry_size, headers.end - 1));
}

/**
 * Shows the bytes of a record of a section: the record's size by its class comes from the labels of its fields. Of a
 * packed relocation these are the bytes that it changes, and of a symbol of no section those at its value.
 */
function chooseRecord(record, section, row) {
  if (row.isPacked) return showAddress(row.offset);
  if (section === null) return row.shndx ? showAddress(row.value) : null;
  const part = partOf(section);
  const name = record === "rela" && !row.has_addend ? "rel" : record;
  if (part) choose(part, part.start + row.index * fieldsOf(name, page.file.header.file_class).size);
  return null;
}

function layoutPanel(file) {
  const legend = element("ul", { class: "legend" }, Object.entries(KINDS).map(([kind, text]) =>
    element("li", {}, element("span", { class: `swatch ${kind}` }), text)));
  const { between, behind } = unowned(file);
  const said = `${plural(file.pieces.length, "piece")}: each byte is in one. ${plural(between + behind, "byte")} of no part: ${grouped(between)} between parts, ${grouped(behind)} behind all. Heights are logarithmic; the strip above is at true scale.`;
  const node = panel("Layout", said, element("div", { class: "fill" }, map.node, inside.node), legend);
  node.classList.add("layout");
  return { node, shown: () => { map.draw(); inside.draw(); } };
}

function fillTabs(file, client) {
  const records = (name) => (section, row) => chooseRecord(RECORDS[name], section, row);
  const sum = (tables) => tables.reduce((total, { count }) => total + count, 0);
  const notes = (note) => choose(partAt(page.file, note.start), note.start);
  const header = () => file.pieces[0];
  tabs.fill([
    ["Overview", null, () => overviewPanel(file, (at) => choose(header(), at))],
    ["Layout", null, () => layoutPanel(file)],
    ["Sections", file.sections.length, () => sectionsPanel(file, chooseSection)],
    ["Segments", file.segments.length, () => segmentsPanel(file, chooseSegment)],
    ["Symbols", sum(file.symbolTables), () => new SymbolsPanel(file, client, records("symbols"))],
    ["Versions", file.versions.listed.length, () => versionsPanel(file)],
    ["Relocations", sum(file.relocationTables), () => relocationsPanel(file, client, records("relocations"))],
    ["Dynamic", sum(file.dynamicTables), () => dynamicPanel(file, client, records("dynamic"))],
    ["Notes", file.notes.length, () => notesPanel(file, client, notes)],
    ["Hash tables", file.hashTables.length, () => hashesPanel(file, client, { choose: chooseSection, check: { stop: stopCheck } })],
  ]);
}

function fillHead(file) {
  byId("filename").textContent = escaped(file.name);
  byId("filesize").textContent = sizeText(file.size);
  byId("filesize").title = `${grouped(file.size)} bytes`;
  byId("kinds").replaceChildren(...kindWords(file).map((word) => element("li", {}, word)));
}

function showFault(message) {
  say(message);
  show("welcome");
  places.start();
  progress.end();
  byId("choose").focus();
}

/** Opens a file in the place of the one before. */
async function open(source) {
  page.client?.end("Another file is opened.");
  const client = new Client((said) => progress.show(said));
  Object.assign(page, { client, source, file: null });
  document.body.dataset.state = "busy";
  say(null);
  tell("");
  progress.begin(source.name);
  try {
    await lookInto(client, source);
  } catch (error) {
    if (page.client === client) showFault({ title: `Looking into “${source.name}” ended.`, text: error.message });
  }
  if (page.client === client) document.body.dataset.state = "ready";
}

async function lookInto(client, source) {
  const failure = await load(client, page.module, source);
  if (failure) return page.client === client ? showFault(failure) : null;
  const file = await survey(client, source);
  if (page.client !== client) return null;
  if (file.fault) return showFault({ title: `“${source.name}” is not opened:`, text: file.fault.message });
  page.file = file;
  show("viewer");
  fillHead(file);
  strip.open(file);
  map.open(file);
  inside.open(file, client);
  hexView.open(file, client);
  fillTabs(file, client);
  byId("go").elements.where.value = "";
  choose(file.pieces[0]);
  if (dock.kept() === "closed" || (NARROW.matches && dock.kept() !== "open")) dock.close();
  places.show(source, tabs.current, true);
  byId("filename").focus();
  progress.end();
  checkHashes(file, page.module, source);
  return null;
}

async function example({ currentTarget: { dataset } }) {
  const response = await fetch(dataset.example);
  return open(new File([await response.blob()], dataset.example));
}

/** Takes an offset or an address of the field, and shows the byte there. */
async function goTo(event) {
  event.preventDefault();
  const form = event.currentTarget.elements;
  const text = form.where.value.trim();
  if (!/^(0x)?[0-9a-f]{1,16}$/i.test(text)) return tell("Write a number in base 16, as 0x401000.");
  const number = BigInt(`0x${text.replace(/^0x/i, "")}`);
  const isThere = form.what.value === "offset" ? showOffset(number) : await showAddress(number);
  if (isThere) hexView.grid.focus();
  return isThere;
}

/** Shows the byte at an address: false, with the reason beside "Go to", where the file has none. */
async function showAddress(address) {
  const { offset, message } = await page.client.ask("bytesAt", { address });
  return message ? tell(zerosAt(address) ?? message) : showOffset(offset);
}

// What is said of an address that only memory has: zeros follow the bytes of a loaded segment.
function zerosAt(address) {
  const isIn = ({ header: { type, virtual_addr: start, mem_size: size } }) => type === names.PT_LOAD && start <= address && address - start < size;
  if (!page.file.segments.some(isIn)) return null;
  const holds = ({ header: it }) => it.type === names.NOBITS && it.flags & names.SECTION_ALLOC && it.address <= address && address - it.address < it.size;
  const section = page.file.sections.find(holds);
  return `Zero in memory${section?.name ? ` (${escaped(section.name)})` : ""}: the file has no byte for this address.`;
}

function showOffset(offset) {
  if (offset >= BigInt(page.file.size)) return tell("The file ends before this offset.");
  tell("");
  dock.open();
  choose(partAt(page.file, Number(offset)), Number(offset));
  return true;
}

function tell(text) {
  byId("gosaid").textContent = text;
  return false;
}

/** Follows an address of a record to its bytes. */
async function follow(address) {
  if (await showAddress(address)) hexView.grid.focus();
}

// Links of the page lead to no other entry of the history than those of `places`.
function takeLinks() {
  const follow = (selector, action) => document.querySelector(selector).addEventListener("click", (event) => {
    event.preventDefault();
    action();
  });
  follow(".skip", () => byId("panels").focus());
  follow(".brand", () => {
    places.start();
    welcome();
  });
}

async function start() {
  for (const button of document.querySelectorAll("[data-example]")) button.addEventListener("click", example);
  takeLinks();
  byId("go").addEventListener("submit", goTo);
  byId("togglehex").addEventListener("click", () => dock.toggle());
  if (!WebAssembly.validate(WIDE_MEMORY)) {
    byId("unsupported").hidden = false;
    document.body.dataset.state = "unsupported";
    return;
  }
  page.module = await WebAssembly.compile(await (await fetch("elf_c.wasm")).arrayBuffer());
  takeFiles(open);
  document.body.dataset.state = "ready";
}

start();
