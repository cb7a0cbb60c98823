// What the names of symbols say of how a file is hardened.
import { symbolNamesFrom } from "./records_of.js";

const CANARIES = ["__stack_chk_fail", "__stack_chk_guard", "__intel_security_cookie"];
const CHECKED = "_chk";
const PIECE = 1 << 24;

// Whether bytes hold one of some words: names are compared only where their string table does.
function holdsOne(bytes, words) {
  const decoder = new TextDecoder("latin1");
  const longest = Math.max(...words.map(({ length }) => length));
  for (let start = 0; start < bytes.length; start += PIECE) {
    const text = decoder.decode(bytes.subarray(start, start + PIECE + longest));
    if (words.some((word) => text.includes(word))) return true;
  }
  return false;
}

function tableOf(reader, section) {
  return (section === null ? reader.find("dynamic_symbols_open") : reader.find("symbols_open", { section })).record;
}

// Calls `visit` with each name of a table, until it returns true.
async function eachName(reader, work, section, visit) {
  const decoder = new TextDecoder("latin1");
  for (let first = 0; !work.stopped;) {
    const names = symbolNamesFrom(reader, { section, first });
    if (!names.length) return;
    for (const { status, range } of names) {
      if (status === 0 && visit(decoder.decode(reader.bytes(range.offset, range.size)))) return;
    }
    first += names.length;
    await work.turn(first);
  }
}

/** Whether a symbol of the tables shows a stack protector, and how many dynamic symbols have names that end in `_chk`. */
export async function protections(reader, turns, { tables }) {
  const work = turns.begin("Looking for protections", tables.reduce((sum, { count }) => sum + count, 0));
  let hasCanary = false;
  let checked = 0;
  for (const { section, isDynamic } of tables) {
    const strings = tableOf(reader, section)?.strings;
    const bytes = strings ? reader.bytes(strings.offset, strings.size) : new Uint8Array();
    if (!hasCanary && holdsOne(bytes, CANARIES)) {
      await eachName(reader, work, section, (name) => (hasCanary = CANARIES.some((word) => name.includes(word))));
    }
    if (isDynamic && holdsOne(bytes, [`${CHECKED}\0`])) {
      await eachName(reader, work, section, (name) => { checked += name.endsWith(CHECKED); return false; });
    }
  }
  work.end();
  return { hasCanary, checked };
}
