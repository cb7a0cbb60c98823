// Holds the module and the file, away from the page, which stays responsive.
//
// The page sends `{ id, call, given }` and gets `{ id, result }` or `{ id, failed }`; in between come
// `{ progress }`. The call `stop` ends what runs at its next batch.
import { count, countDynamicSymbols, dynamicRows, dynamicTexts, lookUp, noteRows, packedRows, relocationRows,
  symbolRows } from "./records_of.js";
import { DoesNotFit, Reader } from "./reader.js";
import { protections } from "./protections.js";
import { findSymbols, foundRows } from "./filter.js";
import { symbolAt, symbolNames, symbolPieces } from "./symbols_at.js";
import { segmentTables } from "./segment_tables.js";
import { Turns } from "./turns.js";
import { versionsOf } from "./versions_of.js";
import { headerOf, loadOf, notesOf, sectionsOf, segmentsOf, textAt } from "./survey.js";

const PIECE = 4 * 1024 * 1024;

const turns = new Turns((progress) => postMessage({ progress }));
let reader = null;

/** Copies the file into the module's memory, piece by piece. */
async function load({ file, module }) {
  reader = await roomFor(module, file.size);
  if (!reader) return { fits: false };
  const work = turns.begin("Reading the file", file.size);
  for (let offset = 0; offset < file.size && !work.stopped; offset += PIECE) {
    reader.put(offset, new Uint8Array(await file.slice(offset, offset + PIECE).arrayBuffer()));
    await work.turn(Math.min(offset + PIECE, file.size));
  }
  work.end();
  return { fits: true, stopped: work.stopped };
}

async function roomFor(module, size) {
  try {
    return new Reader(module, size);
  } catch (error) {
    if (error instanceof DoesNotFit || error instanceof RangeError) return null;
    throw error;
  }
}

/** What a hash table's own check says: it may take long, so that the page asks a worker of its own. */
function checkHash({ section }) {
  const found = reader.find("hash_open", { section });
  const status = found.record ? reader.call("check_hash") : found.status;
  return { status, message: reader.message(status) };
}

function bytesAt({ address }) {
  const { status, record } = reader.one("bytes_at", { address, count: 1 });
  return record ? { offset: record.offset } : { message: reader.message(status) };
}

const calls = {
  load,
  stop: () => turns.stop(),
  header: () => headerOf(reader),
  sections: () => sectionsOf(reader, turns),
  segments: () => segmentsOf(reader, turns),
  loading: (given) => loadOf(reader, given),
  notes: (given) => notesOf(reader, turns, given),
  count: (given) => count(reader, given),
  symbols: (given) => symbolRows(reader, given),
  countDynamicSymbols: () => countDynamicSymbols(reader),
  dynamicTexts: (given) => dynamicTexts(reader, given),
  segmentTables: (given) => segmentTables(reader, given),
  versions: () => versionsOf(reader),
  relocations: (given) => relocationRows(reader, given),
  packed: (given) => packedRows(reader, given),
  dynamic: (given) => dynamicRows(reader, given),
  noteRows: (given) => noteRows(reader, given),
  find: (given) => findSymbols(reader, turns, given),
  found: (given) => foundRows(reader, given),
  text: ({ part, index }) => textAt(reader, part, index),
  lookUp: (given) => lookUp(reader, given),
  checkHash,
  bytesAt,
  protections: (given) => protections(reader, turns, given),
  symbolAt: (given) => symbolAt(reader, given),
  pieces: () => reader.pieces(),
  symbolPieces: (given) => symbolPieces(reader, given),
  symbolNames: (given) => symbolNames(reader, given),
  bytes: ({ offset, size }) => reader.bytes(offset, size).slice(),
};

addEventListener("message", async ({ data: { id, call, given } }) => {
  try {
    postMessage({ id, result: await calls[call](given) });
  } catch (error) {
    postMessage({ id, failed: error.message });
  }
});
