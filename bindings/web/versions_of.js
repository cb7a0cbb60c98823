// The versions that a file defines and needs, and those of its dynamic symbols.
import { BATCH, STATUS } from "./reader.js";
import { faultOf, rangeText } from "./survey.js";

// A version with its name and that of its library, as texts or why they can't be read.
function versionRow(reader, version) {
  const said = (status, range) => (status === STATUS.OK ? { text: rangeText(reader, range) } : { fault: faultOf(reader, status) });
  return { ...version, fault: faultOf(reader, version.status), name: said(version.name_status, version.name),
    library: version.file.size || version.file_status ? said(version.file_status, version.file) : null };
}

function allOf(reader, call) {
  const rows = [];
  let status = STATUS.OK;
  while (status === STATUS.OK) {
    const next = reader.many(call, { first: rows.length });
    ({ status } = next);
    rows.push(...next.records);
    if (next.records.length < BATCH) break;
  }
  const isNone = [STATUS.OK, STATUS.NO_RECORD, STATUS.NOT_FOUND, STATUS.LINK_NO_DYNAMIC].includes(status);
  return { rows: rows.map((it) => versionRow(reader, it)), fault: isNone ? null : faultOf(reader, status) };
}

/** The versions that the file defines, and then those that it needs; and whether its symbols have versions. */
export function versionsOf(reader) {
  const defined = allOf(reader, "version_definitions");
  const needed = allOf(reader, "version_needs");
  const { records } = reader.many("dynamic_symbol_versions", { first: 0 }, 1);
  return { listed: [...defined.rows, ...needed.rows], fault: defined.fault ?? needed.fault, ofSymbols: records.length > 0 };
}

/** The versions of the symbols of the dynamic segment from an index on. */
export function symbolVersions(reader, first, size) {
  return reader.many("dynamic_symbol_versions", { first }, size).records.map((it) => versionRow(reader, it));
}
