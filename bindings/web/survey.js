// What the file has: its header, sections, segments and notes. Each error of the reader becomes
// `{ status, message }` beside what can't be read.
import { BATCH, STATUS } from "./reader.js";
import { textOf } from "./text.js";

/** At most so many notes of one section or segment are listed. */
const MOST_NOTES = 20000;

export function faultOf(reader, status) {
  return status === STATUS.OK ? null : { status, message: reader.message(status) };
}

/** The text at an index of a range: `{ text }` or `{ fault }`. */
export function textAt(reader, part, index) {
  const { status, record } = reader.one("text", { part, index });
  return record ? { text: rangeText(reader, record) } : { fault: faultOf(reader, status) };
}

export function rangeText(reader, { offset, size }) {
  return textOf(reader.bytes(offset, size));
}

/** The header, what the checks of it say, and how much there is of the rest. */
export function headerOf(reader) {
  const { status, record: header } = reader.open();
  if (!header) return { fault: faultOf(reader, status) };
  const names = reader.one("names");
  const index = reader.one("names_index");
  return {
    header,
    check: faultOf(reader, reader.call("check_header")),
    counts: reader.one("counts").record,
    names: names.record ?? null,
    namesFault: faultOf(reader, names.status),
    namesIndex: index.record ?? null,
  };
}

/** The sections in order, and why they end before their count, where they do. */
export async function sectionsOf(reader, turns) {
  const { sections: total } = reader.one("counts").record;
  const work = turns.begin("Sections", total);
  const names = reader.one("names");
  const sections = [];
  while (!work.stopped) {
    const { records } = reader.many("sections", { first: sections.length });
    if (!records.length) break;
    for (const header of records) sections.push(sectionOf(reader, header, sections.length, names));
    await work.turn(sections.length);
  }
  work.end();
  // A number of sections that needs more than 16 bits is in the header of section 0, which may be missing.
  const isLost = total === 0n && reader.open().record.sh_offset !== 0n;
  const isCut = !work.stopped && (isLost || BigInt(sections.length) < total);
  const ended = isCut ? faultOf(reader, reader.call("section", { index: sections.length })) : null;
  return { sections, total, ended, stopped: work.stopped };
}

function sectionOf(reader, header, index, names) {
  const named = names.record ? textAt(reader, names.record, header.name) : { fault: faultOf(reader, names.status) };
  const data = reader.one("section_data", { index });
  const status = reader.call("check_section", { index });
  return { index, header, name: named.text ?? null, nameFault: named.fault ?? null,
    data: data.record ?? null, dataFault: faultOf(reader, data.status), check: faultOf(reader, status) };
}

/** The segments in order, and why they end before their count, where they do. */
export async function segmentsOf(reader, turns) {
  const { segments: total } = reader.one("counts").record;
  const work = turns.begin("Segments", total);
  const segments = [];
  let ended = null;
  while (segments.length < total && !ended && !work.stopped) {
    const index = segments.length;
    const { status, record } = reader.one("segment", { index });
    if (record) segments.push(segmentOf(reader, record, index));
    else ended = faultOf(reader, status);
    if (index % 256 === 0) await work.turn(index);
  }
  work.end();
  return { segments, total, ended, stopped: work.stopped };
}

function segmentOf(reader, header, index) {
  const data = reader.one("segment_data", { index });
  return { index, header, isSegment: true, data: data.record ?? null, dataFault: faultOf(reader, data.status),
    check: faultOf(reader, reader.call("check_segment", { index })) };
}

/**
 * What a loader puts into memory for the file, and what it maps: or `planFault`, why there is no plan. `fault` is why the loader
 * doesn't map the file: some files that are loaded have no plan.
 */
export function loadOf(reader, { loader, isBigEndian }) {
  const given = { page: 0, limit: 0, loader };
  const { status, record: plan } = reader.one("load_plan", given);
  const own = reader.call("check_load", given);
  // The check of a library is that of glibc on little-endian machines: a big-endian one must have a plan.
  const fault = faultOf(reader, own === STATUS.LOAD_BYTE_ORDER && isBigEndian ? status : own);
  if (!plan) return { loader, fault, plan: null, mappings: [], planFault: faultOf(reader, status) };
  return { loader, fault, plan, mappings: reader.many("load_mappings", { ...given, first: 0 }).records, planFault: null };
}

/** The notes of a range, by the alignment of its section or segment. */
export async function notesOf(reader, turns, { part, align }) {
  const work = turns.begin("Notes", Number(part.size));
  const notes = [];
  let rest = part;
  let status = STATUS.OK;
  while (notes.length < MOST_NOTES && !work.stopped) {
    const next = reader.one("note", { part: rest, align });
    status = next.status;
    if (!next.record) break;
    notes.push({ ...next.record, start: rest.offset });
    rest = next.record.rest;
    if (notes.length % BATCH === 0) await work.turn(notes.length);
  }
  work.end();
  const fault = status === STATUS.OK || status === STATUS.NO_RECORD ? null : faultOf(reader, status);
  return { notes, fault, cut: notes.length === MOST_NOTES };
}
