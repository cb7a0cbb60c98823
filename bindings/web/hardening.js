// What makes a file harder to attack, and what its dynamic entries say of its kind.
import * as names from "./names.js";

const BIND_NOW = 24n;
const DEBUG = 21n;
const FLAGS = 30n;
const FLAGS_1 = 0x6ffffffbn;
const FLAG_BIND_NOW = 8n;
const FLAG_1_NOW = 1n;
const FLAG_1_PIE = 0x8000000n;
const UNKNOWN = "unknown: the dynamic entries can't be read";

const yes = (is) => (is ? "yes" : "no");

// What the dynamic entries say; nothing is known where the file has some that can't be read.
function dynamicOf({ dynamicValues: values, header, segments }) {
  if (!values) return segments.some((it) => it.header.type === names.PT_DYNAMIC) ? null : { isNow: false, isProgram: false };
  const value = (tag) => values.get(tag) ?? 0n;
  const isNow = values.has(BIND_NOW) || Boolean(value(FLAGS) & FLAG_BIND_NOW) || Boolean(value(FLAGS_1) & FLAG_1_NOW);
  return { isNow, isProgram: header.type === names.ET_DYN && (Boolean(value(FLAGS_1) & FLAG_1_PIE) || values.has(DEBUG)) };
}

/** Whether the file is a program that runs at any address. */
export function isPie(file) {
  return Boolean(dynamicOf(file)?.isProgram);
}

/**
 * The loader of the file's kind: glibc of a shared library, which is of type ET_DYN with dynamic entries, none of which marks a
 * program, also if it has an interpreter, as libc.so.6; and Linux of any other file.
 */
export function loaderOf(file) {
  const { header, segments, dynamicValues } = file;
  const isDynamic = dynamicValues !== null || segments.some((it) => it.header.type === names.PT_DYNAMIC);
  return header.type === names.ET_DYN && isDynamic && !isPie(file) ? names.GLIBC : names.LINUX;
}

// Whether pages are only readable after relocation, whether the stack isn't executable, and whether memory is writable and executable:
// by the plan of the load, or by the program headers of a file without a plan.
function protectionOf({ load: { plan, mappings }, segments }) {
  const isBoth = ({ flags }) => Boolean(flags & names.EXECUTE && flags & names.WRITE);
  if (plan) {
    const hasRelro = Boolean(plan.has_relro) && plan.relro.start < plan.relro.end;
    return { hasRelro, isNx: Boolean(plan.has_stack) && !(plan.stack_flags & names.EXECUTE), isBoth: mappings.some(isBoth) };
  }
  const of = (type) => segments.map(({ header }) => header).filter((it) => it.type === type);
  const stack = of(names.PT_STACK).at(-1);
  return { hasRelro: of(names.PT_RELRO).length > 0, isNx: Boolean(stack) && !(stack.flags & names.EXECUTE), isBoth: of(names.PT_LOAD).some(isBoth) };
}

const SHARED = "shared library";

// A row of the card: its name, what is said, whether that is `fine`, `weak` or `bad`, and what the words mean.
const row = (name, said, sort, means) => ({ name, said, sort, means });
const ofDynamic = (dynamic, sort) => (dynamic ? sort : "pending");

function programRow({ header }, dynamic) {
  const isLibrary = dynamic && !dynamic.isProgram && header.type === names.ET_DYN;
  const said = isLibrary ? SHARED : dynamic ? yes(dynamic.isProgram) : UNKNOWN;
  return row("Program at any address (PIE)", said, ofDynamic(dynamic, isLibrary || dynamic?.isProgram ? "fine" : "bad"),
    "Linux puts the file at a random address, so that an attacker doesn't know where its code is.");
}

function relroRow(hasRelro, dynamic) {
  const said = hasRelro ? (dynamic ? (dynamic.isNow ? "full" : "partial") : UNKNOWN) : "none";
  const sort = { full: "fine", partial: "weak", none: "bad" }[said] ?? "pending";
  return row("Read-only after relocation (RELRO)", said, sort,
    "Addresses that relocations write can't be overwritten later: full covers all of them, partial not those of functions that are found at their first call.");
}

/** What the property note says of branches and returns: the bits of its features, by the machine. */
function featuresRow({ header, features }) {
  const [title, words] = names.FEATURES[header.machine] ?? [];
  if (!title) return [];
  const found = words.filter((_, bit) => features & (1 << bit));
  return [row(title, found.join(", ") || "none", found.length === words.length ? "fine" : "weak",
    header.machine === names.EM_AARCH64
      ? "The processor checks that indirect branches lead to marked instructions (BTI), and return addresses are signed (PAC)."
      : "The processor checks that indirect branches lead to marked instructions (IBT), and that functions return to where they were called (SHSTK).")];
}

/**
 * How the file is hardened, by its load, its dynamic entries, the names of its symbols and its property note: rows of
 * `{ name, said, sort, means }`. None for an object file.
 */
export function hardeningOf(file) {
  if (!file.segments.length) return [];
  const { hasRelro, isNx, isBoth } = protectionOf(file);
  const dynamic = dynamicOf(file);
  const { hasCanary, checked } = file.protections;
  return [
    programRow(file, dynamic),
    relroRow(hasRelro, dynamic),
    row("Stack not executable (NX)", yes(isNx), isNx ? "fine" : "bad", "Bytes that are written to the stack can't be run as code."),
    row("Bound before it runs (BIND_NOW)", dynamic ? yes(dynamic.isNow) : UNKNOWN, ofDynamic(dynamic, dynamic?.isNow ? "fine" : "weak"),
      "All functions of libraries are found before the program runs: full RELRO needs it."),
    row("Writable and executable (W+X)", yes(isBoth), isBoth ? "bad" : "fine", "In memory that is both, bytes that are written can be run as code."),
    row("Stack protector (canary)", hasCanary ? "found" : "not found", hasCanary ? "fine" : "weak",
      "Functions test a value beside their return address before they return. The name of a symbol, as __stack_chk_fail, shows it."),
    row("Checked functions (FORTIFY)", checked ? `${checked} found` : "none", checked ? "fine" : "weak",
      "Functions such as memcpy are called in a form that tests the size of the target, as __memcpy_chk."),
    ...featuresRow(file),
  ];
}
