// Texts and numbers as the page shows them.

const DECODER = new TextDecoder("utf-8");
/** What has no look of its own, or changes that of its neighbours: format, private and unassigned characters. */
const UNSEEN = /[\p{Cf}\p{Co}\p{Cn}\p{Cs}\p{Zl}\p{Zp}\u0080-\u009f]/u;

/** The text that bytes in UTF-8 are. */
export function textOf(bytes) {
  return DECODER.decode(bytes.slice());
}

function escapedCharacter(character) {
  const code = character.codePointAt(0);
  if (code < 0x20 || code === 0x7f) return `^${String.fromCharCode(code ^ 0x40)}`;
  if (!UNSEEN.test(character)) return character;
  return code > 0xffff ? `\\U${hexDigits(code, 8)}` : `\\u${hexDigits(code, 4)}`;
}

/** A name with control characters as `^A`, as readelf has them, and other unseen ones as `\u202e`. */
export function escaped(text) {
  return /^[\x20-\x7e]*$/.test(text) ? text : Array.from(text, escapedCharacter).join("");
}

/** Bytes that may be no UTF-8: `\ooo`-like escapes as `\xff` for all that isn't printable ASCII. */
export function escapedBytes(bytes) {
  const one = (byte) => (byte >= 0x20 && byte < 0x7f ? String.fromCharCode(byte) : `\\x${hexDigits(byte, 2)}`);
  return Array.from(bytes, one).join("");
}

/** The digits of a number in base 16, at least `digits` of them. */
export function hexDigits(number, digits = 1) {
  return number.toString(16).padStart(digits, "0");
}

export function hex(number, digits = 1) {
  return `0x${hexDigits(number, digits)}`;
}

export function hexBytes(bytes) {
  return Array.from(bytes, (byte) => hexDigits(byte, 2)).join("");
}

const GROUPED = new Intl.NumberFormat("en-US");

export function grouped(number) {
  return GROUPED.format(number);
}

const UNITS = ["bytes", "KiB", "MiB", "GiB", "TiB", "PiB", "EiB"];

/** A size for people: `1.9 MiB`. */
export function sizeText(size) {
  let number = Number(size);
  let unit = 0;
  while (number >= 1024 && unit < UNITS.length - 1) {
    number /= 1024;
    unit += 1;
  }
  if (!unit) return number === 1 ? "1 byte" : `${number} bytes`;
  return `${number.toFixed(number < 10 ? 1 : 0)} ${UNITS[unit]}`;
}

export function plural(number, one, many = `${one}s`) {
  return `${grouped(number)} ${Number(number) === 1 ? one : many}`;
}
