// Calls the exports of the reader's module, and reads the records that they return.
//
// The file lies in the module's memory, behind room for one record of each sort, for a batch of records and for
// the bytes of a name; the words and numbers of indexes lie behind all. How records lie in memory and which parameters
// a function has comes from records.js.
// Section headers that are added lie behind the file: a call whose `section` is below 0 reads them, -1 the first.
import { FUNCTIONS, LONGEST_MESSAGE, RECORDS, STATUS } from "./records.js";

export { STATUS };

/** How many records one call for many asks for. */
export const BATCH = 2048;
/** How many bytes a name to look up may have. */
export const LONGEST_NAME = 65536;

const PAGE = 65536;
const WIDEST = Math.max(...Object.values(RECORDS).map((record) => record.size));
const ROOMS = { header: WIDEST, added: WIDEST, part: WIDEST, table: WIDEST, indices: WIDEST, index: WIDEST, asked: WIDEST, addresses: 8, ranges: WIDEST, sizes: WIDEST, out: BATCH * WIDEST, count: 8,
  message: LONGEST_MESSAGE, names: LONGEST_NAME };

// No words and no numbers, as a call takes them that finds how many it takes; and of a record that says so, as many.
const NONE = { words_count: 0, numbers_count: 0 };
const countsOf = ({ words, numbers }) => ({ words_count: Number(words), numbers_count: Number(numbers) });
// Where the words and the numbers lie that only one call takes.
const ROOM = { words: "roomWords", numbers: "roomNumbers" };

/** The file is larger than the memory that the browser gives the module. */
export class DoesNotFit extends Error {}

// What a function writes: a record, or a number where `record` is null, and its size in bytes.
function outOf(name) {
  const { record, wide } = FUNCTIONS[name].parameters.find((it) => it.name === "out");
  return { record, size: record ? RECORDS[record].size : wide ? 8 : 4 };
}

/** The reader of one file. */
export class Reader {
  /** @param {WebAssembly.Module} module @param {number} size of the file, in bytes */
  constructor(module, size) {
    this.exports = new WebAssembly.Instance(module).exports;
    this.memory = this.exports.memory;
    this.size = size;
    this.texts = new Map();
    this.places = {};
    this.rooms = {};
    let place = Math.ceil(Number(this.exports.__heap_base.value) / 16) * 16;
    for (const [room, bytes] of Object.entries(ROOMS)) {
      this.places[room] = place;
      place += Math.ceil(bytes / 16) * 16;
    }
    this.places.input = place;
    this.grow(place + size);
  }

  grow(needed) {
    const missing = Math.ceil((needed - this.memory.buffer.byteLength) / PAGE);
    if (missing <= 0) return;
    try {
      this.memory.grow(BigInt(missing));
    } catch {
      throw new DoesNotFit();
    }
  }

  /** Puts a piece of the file to its place. */
  put(offset, bytes) {
    new Uint8Array(this.memory.buffer).set(bytes, this.places.input + offset);
  }

  /** The bytes `offset .. offset + size` of the file, as a view of the module's memory. */
  bytes(offset, size) {
    return new Uint8Array(this.memory.buffer, this.places.input + Number(offset), Number(size));
  }

  /** Calls an export by its name without `xmas_elf_`, with its numbers by the names of the header's parameters. */
  call(name, given = {}) {
    const parameters = FUNCTIONS[name].parameters.map((it) => this.argument(it, given));
    return Number(this.exports[`xmas_elf_${name}`](...parameters));
  }

  argument(parameter, given) {
    if (given.section < 0) return this.argument(parameter, { ...given, section: -1 - given.section, isAdded: true });
    const { name, pointer, wide } = parameter;
    if (given.isAdded && name === "header") return BigInt(this.places.added);
    if (given.isAdded && name === "input_size") return BigInt(this.addedEnd);
    if (name === "part") this.write("range", this.places.part, given.part);
    if (pointer) return BigInt(this.places[given.places?.[name] ?? name]);
    if (name === "input_size") return BigInt(this.size);
    return wide ? BigInt(given[name]) : Number(given[name]);
  }

  /** One record, or number of 32 or 64 bits: `{ status, record }`, without a record where the call returns an error. */
  one(name, given = {}) {
    const status = this.call(name, given);
    return status === STATUS.OK ? { status, record: this.value(outOf(name), this.places.out) } : { status };
  }

  /** Many records, or numbers, from index `first` on: `{ status, records }`, of none where the call returns an error. */
  many(name, given, room = BATCH) {
    const status = this.call(name, { ...given, out_count: Math.min(room, BATCH) });
    if (status !== STATUS.OK) return { status, records: [] };
    const out = outOf(name);
    const count = Number(this.view().getBigUint64(this.places.count, true));
    const at = (index) => this.value(out, this.places.out + index * out.size);
    return { status, records: Array.from({ length: count }, (_, index) => at(index)) };
  }

  /** The header of the file, which the calls that follow take. */
  open() {
    return this.kept("open", "header");
  }

  /** Adds section headers, each with a value for the members of these fields, in the place of those added before. */
  addSections(sections, { fields, size }) {
    const start = Math.ceil(this.size / 16) * 16;
    this.addedEnd = start + sections.length * size;
    this.grow(this.places.input + this.addedEnd);
    const { header, added, input } = this.places;
    new Uint8Array(this.memory.buffer).copyWithin(added, header, header + RECORDS.header.size);
    const isLittle = this.read("header", header).encoding !== 2;
    const own = { sh_offset: start, sh_count: sections.length, sh_entry_size: size };
    for (const { name, at, size: width } of RECORDS.header.members) {
      if (name in own) this.store(added + at, width, own[name]);
    }
    sections.forEach((section, index) => fields.forEach(({ member, at, size: width }) =>
      this.store(input + start + index * size + at, width, section[member], isLittle)));
  }

  // Stores a number of so many bytes.
  store(place, size, number, isLittle = true) {
    if (size === 8) this.view().setBigUint64(place, BigInt(number), isLittle);
    else if (size === 4) this.view().setUint32(place, Number(number), isLittle);
    else this.view().setUint16(place, number, isLittle);
  }

  /** A table that an opening call finds, of symbols or a hash table: the calls that follow take it. */
  find(name, given) {
    return this.kept(name, "table", given);
  }

  kept(name, room, given) {
    const found = this.one(name, given);
    const { out, [room]: place } = this.places;
    if (found.record) new Uint8Array(this.memory.buffer).copyWithin(place, out, out + outOf(name).size);
    return found;
  }

  /** Looks a name, which is bytes, up by the hash table in a section. */
  lookUp(section, name) {
    const found = this.find("hash_open", { section });
    if (!found.record) return found;
    new Uint8Array(this.memory.buffer).set(name, this.places.names);
    this.write("range", this.places.ranges, { offset: 0, size: name.length });
    this.call("look_ups", { names_size: name.length, ranges_count: 1, out_count: 1 });
    const record = this.value(outOf("look_ups"), this.places.out);
    return record.status === STATUS.OK ? { status: record.status, record } : { status: record.status };
  }

  /**
   * Builds an index of the symbols of the table that was found last, which `symbolAt` takes: behind all that lies in the memory.
   * `indices` is the range of their section indices that need more than 16 bits, `within` a section of an object file, or 0.
   */
  buildIndex({ indices, within }) {
    this.write("range", this.places.indices, indices);
    this.makeRooms("words", "numbers", NONE);
    const asked = this.one("address_index", { within, ...NONE });
    if (!asked.record) return asked;
    this.counts = countsOf(asked.record);
    this.makeRooms("words", "numbers", this.counts);
    return this.kept("address_index", "index", { within, ...this.counts });
  }

  // Room for so many bytes, by a name: behind all that lies in the memory, unless there is as much by this name.
  makeRoom(name, size) {
    const before = this.rooms[name];
    if (!before || before.size < size) {
      this.rooms[name] = { size, place: this.memory.buffer.byteLength };
      this.grow(this.rooms[name].place + size);
    }
    this.places[name] = this.rooms[name].place;
  }

  // Room for the words and the numbers of an index.
  makeRooms(words, numbers, counts) {
    this.makeRoom(words, 4 * counts.words_count);
    this.makeRoom(numbers, 8 * counts.numbers_count);
  }

  /** The pieces of the file: which bytes belong to what. */
  pieces() {
    this.makeRooms("roomWords", "roomNumbers", NONE);
    const sizes = (counts, given) => {
      this.call("pieces", { first: 0, ...counts, places: ROOM, out_count: BATCH, ...given });
      return this.read("piece_sizes", this.places.sizes);
    };
    const counts = countsOf(sizes(NONE, { out_count: 0 }));
    this.makeRooms("roomWords", "roomNumbers", counts);
    return this.allPieces((first) => Number(sizes(counts, { first }).count));
  }

  /**
   * The pieces of addresses by symbols of the table that was found last; null where they can't be read. `indices` and
   * `within` are as in `buildIndex`.
   */
  symbolPieces({ indices, within, begin, end }) {
    this.write("range", this.places.indices, indices);
    this.makeRooms("roomWords", "roomNumbers", NONE);
    const asked = this.kept("address_index", "asked", { within, ...NONE, places: ROOM });
    if (!asked.record) return null;
    const counts = countsOf(asked.record);
    this.makeRooms("roomWords", "roomNumbers", counts);
    const given = { begin, end, ...counts, out_count: BATCH, places: { ...ROOM, index: "asked" } };
    return this.allPieces((first) => {
      const status = this.call("symbol_pieces", { ...given, first });
      return status === STATUS.OK ? Number(this.view().getBigUint64(this.places.count, true)) : 0;
    });
  }

  // All pieces: `list` stores those from an index on, and returns the number of all.
  allPieces(list) {
    const found = [];
    for (let count = 1; found.length < count; ) {
      count = list(found.length);
      const stored = Math.min(BATCH, count - found.length);
      for (let at = 0; at < stored; at += 1) found.push(this.read("piece", this.places.out + at * RECORDS.piece.size));
    }
    return found;
  }

  /** The symbol of an address by this index. */
  symbolAt(address) {
    this.view().setBigUint64(this.places.addresses, address, true);
    const status = this.call("symbols_at", { ...this.counts, addresses_count: 1, out_count: 1 });
    return status === STATUS.OK ? { status, record: this.value(outOf("symbols_at"), this.places.out) } : { status };
  }

  /** The text of a status. */
  message(status) {
    if (!this.texts.has(status)) this.texts.set(status, this.textOf(status));
    return this.texts.get(status);
  }

  textOf(status) {
    const { message } = this.places;
    const size = Number(this.exports.xmas_elf_message(status, BigInt(message), BigInt(LONGEST_MESSAGE)));
    return new TextDecoder().decode(new Uint8Array(this.memory.buffer, message, size).slice());
  }

  view() {
    if (this.held?.buffer !== this.memory.buffer) this.held = new DataView(this.memory.buffer);
    return this.held;
  }

  read(name, place) {
    const found = {};
    for (const member of RECORDS[name].members) found[member.name] = this.value(member, place + member.at);
    return found;
  }

  /** A member, or what a function writes: of a record, or a number of so many bytes. */
  value({ record, size }, place) {
    if (record) return this.read(record, place);
    if (size === 8) return this.view().getBigUint64(place, true);
    if (size === 4) return this.view().getUint32(place, true);
    return size === 2 ? this.view().getUint16(place, true) : this.view().getUint8(place);
  }

  write(name, place, values) {
    const eight = (member) => this.view().setBigUint64(place + member.at, BigInt(values[member.name]), true);
    RECORDS[name].members.forEach(eight);
  }
}
