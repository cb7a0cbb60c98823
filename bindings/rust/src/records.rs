//! The structs of the archive. Written by tools/exports/declarations.py.

use crate::borrowed::Borrowed;

/// The ELF header of a file (gABI, "ELF Header").
#[repr(C)]
#[derive(Clone, Copy, Debug, Default, PartialEq, Eq)]
pub struct Header {
    /// The address at which a program begins to run, or 0 (e_entry).
    pub entry_point: u64,
    /// The offset of the program header table in the file, in bytes, or 0 (e_phoff).
    pub ph_offset: u64,
    /// The offset of the section header table in the file, in bytes, or 0 (e_shoff).
    pub sh_offset: u64,
    /// The version of the file (e_version).
    pub version: u32,
    /// Flags of the processor (e_flags).
    pub flags: u32,
    /// The kind of file (e_type).
    pub type_: u16,
    /// The processor that the file is for (e_machine).
    pub machine: u16,
    /// The size of the ELF header in bytes, as the file says (e_ehsize).
    pub header_size: u16,
    /// The size of an entry of the program header table in bytes (e_phentsize).
    pub ph_entry_size: u16,
    /// The number of program headers, or 0xffff where it needs more than 16 bits (e_phnum).
    pub ph_count: u16,
    /// The size of an entry of the section header table in bytes (e_shentsize).
    pub sh_entry_size: u16,
    /// The number of section headers, or 0 where it needs more than 16 bits (e_shnum).
    pub sh_count: u16,
    /// The index of the section with the names of sections, or 0xffff where it needs more than 16 bits (e_shstrndx).
    pub sh_str_index: u16,
    /// 1: class 32, 2: class 64 (EI_CLASS).
    pub class: u8,
    /// 2: big-endian; any other number is read as little-endian (EI_DATA).
    pub encoding: u8,
    /// The version of the header (EI_VERSION).
    pub header_version: u8,
    /// The operating system whose extensions the file uses (EI_OSABI).
    pub os_abi: u8,
    /// The version of these extensions (EI_ABIVERSION).
    pub abi_version: u8,
    /// Bytes without a meaning (EI_PAD).
    pub padding: [u8; 7],
}

/// The numbers of sections and segments, also those that need more than 16 bits.
#[repr(C)]
#[derive(Clone, Copy, Debug, Default, PartialEq, Eq)]
pub(crate) struct Counts {
    /// The number of sections.
    pub(crate) sections: u64,
    /// The number of segments.
    pub(crate) segments: u32,
}

/// A byte range of the input: `input[offset .. offset + size]`. A range that a call returns lies in the input.
#[repr(C)]
#[derive(Clone, Copy, Debug, Default, PartialEq, Eq)]
pub struct Range {
    /// The offset of the first byte, in bytes from the start of the input.
    pub offset: u64,
    /// The number of bytes.
    pub size: u64,
}

/// The range of one name of many.
#[repr(C)]
#[derive(Clone, Copy, Debug, Default, PartialEq, Eq)]
pub struct Name {
    /// The bytes of the name without the zero byte that ends it; offset and size are 0 if the name can't be read.
    pub(crate) range: Range,
    /// The status of this name.
    pub(crate) status: u32,
}

/// A section header (gABI, "Sections").
#[repr(C)]
#[derive(Clone, Copy, Debug, Default, PartialEq, Eq)]
pub struct SectionHeader {
    /// The flags of the section (sh_flags).
    pub flags: u64,
    /// The address of the section in memory, or 0 (sh_addr).
    pub address: u64,
    /// The offset of the section's data in the file, in bytes (sh_offset).
    pub offset: u64,
    /// The size of the section in bytes (sh_size).
    pub size: u64,
    /// The alignment of the section's address, in bytes (sh_addralign).
    pub align: u64,
    /// The size of an entry of the section in bytes, or 0 (sh_entsize).
    pub entry_size: u64,
    /// The index of the section's name in the name table, in bytes (sh_name).
    pub name: u32,
    /// The type of the section (sh_type).
    pub type_: u32,
    /// The index of a linked section; its meaning depends on the type (sh_link).
    pub link: u32,
    /// More about the section; its meaning depends on the type (sh_info).
    pub info: u32,
}

/// A program header (gABI, "Program Header").
#[repr(C)]
#[derive(Clone, Copy, Debug, Default, PartialEq, Eq)]
pub struct ProgramHeader {
    /// The offset of the segment's data in the file, in bytes (p_offset).
    pub offset: u64,
    /// The address of the segment in memory (p_vaddr).
    pub virtual_addr: u64,
    /// The physical address of the segment, where that matters (p_paddr).
    pub physical_addr: u64,
    /// The size of the segment in the file, in bytes (p_filesz).
    pub file_size: u64,
    /// The size of the segment in memory, in bytes (p_memsz).
    pub mem_size: u64,
    /// The alignment of the segment in memory and in the file, in bytes; 0 and 1 mean none (p_align).
    pub align: u64,
    /// The type of the segment (p_type).
    pub type_: u32,
    /// The permissions of the segment's memory (p_flags).
    pub flags: u32,
}

/// A symbol (gABI, "Symbol Table").
#[repr(C)]
#[derive(Clone, Copy, Debug, Default, PartialEq, Eq)]
pub struct Entry {
    /// The address of the symbol, or an offset in its section (st_value).
    pub value: u64,
    /// The size of the function or object in bytes, or 0 (st_size).
    pub size: u64,
    /// The index of the symbol's name in its string table, in bytes; 0 where it has none (st_name).
    pub name: u32,
    /// The index of the section that the symbol belongs to, or a reserved index (st_shndx).
    pub shndx: u16,
    /// The binding times 16, plus the type (st_info).
    pub info: u8,
    /// The visibility: the remainder of this number by 4 (st_other).
    pub other: u8,
}

/// Symbols found once: the numbers that `symbols_open` or `dynamic_symbols_open` fills, and that other calls take
/// back.
#[repr(C)]
#[derive(Clone, Copy, Debug, Default, PartialEq, Eq)]
pub struct SymbolTable {
    /// The bytes of the symbols.
    pub(crate) symbols: Range,
    /// The bytes of the string table of their names; offset and size are 0 if it can't be read.
    pub(crate) strings: Range,
    /// The number of symbols.
    pub(crate) count: u64,
    /// The status of the string table.
    pub(crate) strings_status: u32,
    /// 1: symbols of class 32, any other number: of class 64 (EI_CLASS).
    pub(crate) class: u16,
    /// 2: big-endian; any other number is read as little-endian (EI_DATA).
    pub(crate) encoding: u16,
}

/// A relocation (gABI, "Relocation").
#[repr(C)]
#[derive(Clone, Copy, Debug, Default, PartialEq, Eq)]
pub struct Relocation {
    /// The place that is changed: an offset in its section, or an address (r_offset).
    pub offset: u64,
    /// The addend; 32 bits of it count in class 32, and it is 0 in a table without addends (r_addend).
    pub addend: u64,
    /// The index of the symbol (r_info).
    pub symbol: u32,
    /// The type of the relocation, by the processor (r_info).
    pub type_: u32,
    /// 1 in a table with addends (SHT_RELA), 0 in one without (SHT_REL).
    pub has_addend: u32,
}

/// A dynamic entry (gABI, "Dynamic Section").
#[repr(C)]
#[derive(Clone, Copy, Debug, Default, PartialEq, Eq)]
pub struct Dynamic {
    /// The tag (d_tag).
    pub tag: u64,
    /// A value or an address, by the tag (d_un).
    pub value: u64,
}

/// A note (gABI, "Note Section"), and the notes that follow it.
#[repr(C)]
#[derive(Clone, Copy, Debug, Default, PartialEq, Eq)]
pub(crate) struct NoteRange {
    /// The name, with the zero byte that ends it (namesz bytes).
    pub(crate) name: Range,
    /// The description (descsz bytes).
    pub(crate) desc: Range,
    /// The bytes after the note and its padding: the next notes.
    pub(crate) rest: Range,
    /// The type of the note; its meaning depends on the name.
    pub(crate) type_: u32,
}

/// The result of one look-up of many.
#[repr(C)]
#[derive(Clone, Copy, Debug, Default, PartialEq, Eq)]
pub struct Answer {
    /// The status of this look-up; where it is not OK, the numbers after it are 0.
    pub(crate) status: u32,
    /// 1 where a symbol is found, and else 0.
    pub(crate) found: u32,
    /// The index of the symbol, or 0.
    pub(crate) index: u32,
    /// The number of chain entries that the look-up read.
    pub(crate) looked_at: u32,
}

/// A hash table of a section with its symbols, found once: the numbers that `hash_open` fills, and that other calls
/// take back.
#[repr(C)]
#[derive(Clone, Copy, Debug, Default, PartialEq, Eq)]
pub(crate) struct FoundTable {
    /// The bytes of the hash table.
    pub(crate) table: Range,
    /// Its symbols, with the string table in which look-ups compare their names.
    pub(crate) symbols: SymbolTable,
    /// The type of the section: 0x6ffffff6 (SHT_GNU_HASH) for GNU's table, any other number for the gABI's.
    pub(crate) kind: u32,
}

/// The version of a symbol, or one that a file defines or needs (LSB, "Symbol Versioning").
#[repr(C)]
#[derive(Clone, Copy, Debug, Default, PartialEq, Eq)]
pub struct Version {
    /// The bytes of the version's name without the zero byte that ends it; offset and size are 0 where it has none.
    pub(crate) name: Range,
    /// The bytes of the name of the library that the version is needed of; offset and size are 0 where there is none.
    pub(crate) file: Range,
    /// The status of this version; where it is not OK, the other fields are 0.
    pub(crate) status: u32,
    /// The status of the version's name.
    pub(crate) name_status: u32,
    /// The status of the library's name.
    pub(crate) file_status: u32,
    /// What has the number: 0 nothing, 1 a definition of the file, 2 a need.
    pub(crate) kind: u32,
    /// The number of the version, by which symbols refer to it (vd_ndx; bits 0 to 14 of a symbol's number and of
    /// vna_other): 0 is local, 1 is global.
    pub(crate) number: u32,
    /// 1 where the symbol or the need is hidden (bit 15 of its number), and else 0.
    pub(crate) hidden: u32,
    /// The flags of the definition or the need (vd_flags, vna_flags); the lowest marks the definition that names the
    /// file itself.
    pub(crate) flags: u32,
    /// The hash number of the version's name (vd_hash, vna_hash).
    pub(crate) hash: u32,
}

/// The symbol that a reference gets.
#[repr(C)]
#[derive(Clone, Copy, Debug, Default, PartialEq, Eq)]
pub(crate) struct FoundSymbol {
    /// The symbol; its fields are 0 where none is found.
    pub(crate) symbol: Entry,
    /// 1 where a symbol is found, and else 0.
    pub(crate) found: u32,
    /// The index of the symbol among those of the dynamic segment, or 0.
    pub(crate) index: u32,
}

/// An index of symbols by their addresses: the numbers that `address_index` fills, and that `symbols_at` takes back.
#[repr(C)]
#[derive(Clone, Copy, Debug, Default, PartialEq, Eq)]
pub(crate) struct AddressIndex {
    /// The symbols, and the string table of their names.
    pub(crate) table: SymbolTable,
    /// The bytes of the section of type SHT_SYMTAB_SHNDX; its size is 0 if there is none.
    pub(crate) indices: Range,
    /// The number of words that the index takes.
    pub(crate) words: u64,
    /// The number of numbers of 64 bits that the index takes.
    pub(crate) numbers: u64,
    /// The number of symbols with a size in the index; 0 if it is not built.
    pub(crate) sized_count: u64,
    /// The number of symbols of size 0 in the index; 0 if it is not built.
    pub(crate) open_count: u64,
    /// The index of the section whose symbols alone are asked for, or 0.
    pub(crate) within: u32,
    /// The processor that the file is for (e_machine).
    pub(crate) machine: u16,
}

/// The symbol of an address.
#[repr(C)]
#[derive(Clone, Copy, Debug, Default, PartialEq, Eq)]
pub(crate) struct FoundAt {
    /// The symbol; its fields are 0 where none is found.
    pub(crate) symbol: Entry,
    /// The index of the symbol in its table, or 0.
    pub(crate) index: u64,
    /// The address less the value of the symbol, or 0.
    pub(crate) offset: u64,
    /// 1 where a symbol covers the address, and else 0.
    pub(crate) found: u32,
    /// 1 where the size of the symbol is 0, so that its end is unknown, and else 0.
    pub(crate) is_open: u32,
}

/// Addresses from `start` on and before `end`, relative to the base at which a file is loaded.
#[repr(C)]
#[derive(Clone, Copy, Debug, Default, PartialEq, Eq)]
pub struct Span {
    /// The first address.
    pub start: u64,
    /// The first address after the last.
    pub end: u64,
}

/// The template of thread-local storage (gABI, "Thread-Local Storage"); 0 in each field where a file has none.
#[repr(C)]
#[derive(Clone, Copy, Debug, Default, PartialEq, Eq)]
pub struct TlsTemplate {
    /// The address of the bytes that the file has.
    pub address: u64,
    /// The number of these bytes.
    pub file_size: u64,
    /// The size of the storage in bytes; zeros follow the bytes of the file.
    pub mem_size: u64,
    /// The alignment of the storage in bytes.
    pub align: u64,
}

/// What Linux and glibc put into memory for a file. Addresses are relative to a base, which is 0 for a file of type
/// ET_EXEC.
#[repr(C)]
#[derive(Clone, Copy, Debug, Default, PartialEq, Eq)]
pub(crate) struct Plan {
    /// The pages from the first of the first load segment to the last of the last one.
    pub(crate) span: Span,
    /// The pages that are only readable after relocation: those of the last PT_GNU_RELRO, both ends rounded down; 0
    /// where there is none.
    pub(crate) relro: Span,
    /// The last PT_TLS that is not empty.
    pub(crate) tls: TlsTemplate,
    /// The bytes of the path of the program interpreter, up to the first zero byte of the first PT_INTERP; offset and
    /// size are 0 where there is none.
    pub(crate) interpreter: Range,
    /// The address at which a program begins to run, or 0 (e_entry).
    pub(crate) entry: u64,
    /// The permissions of the stack, those of the last PT_GNU_STACK; 0 where there is none: then they are those of
    /// the processor.
    pub(crate) stack_flags: u32,
    /// 1 where the file has a PT_GNU_STACK, and else 0.
    pub(crate) has_stack: u32,
    /// 1 where the file has a PT_GNU_RELRO, and else 0.
    pub(crate) has_relro: u32,
    /// 1 where the file has a PT_INTERP, and else 0.
    pub(crate) has_interpreter: u32,
}

/// Pages that are mapped at once.
#[repr(C)]
#[derive(Clone, Copy, Debug, Default, PartialEq, Eq)]
pub struct Mapping {
    /// The first address, relative to the base.
    pub start: u64,
    /// The first address after the pages.
    pub end: u64,
    /// The offset of the first byte in the file; 0 where the pages are not of the file.
    pub offset: u64,
    /// The permissions: those of the load segment (p_flags), or 0.
    pub flags: u32,
    /// What the pages hold: 0 nothing that can be read, 1 pages of the file, 2 zeros.
    pub contents: u32,
}

/// A longest run of bytes of a file, or of addresses, that belong to one part.
#[repr(C)]
#[derive(Clone, Copy, Debug, Default, PartialEq, Eq)]
pub(crate) struct Piece {
    /// The offset of the first byte, or the first address.
    pub(crate) begin: u64,
    /// The offset after the last byte, or the address after the last; it is above `begin`.
    pub(crate) end: u64,
    /// The index of the section, the segment or the symbol, or 0.
    pub(crate) index: u64,
    /// What it belongs to: 0 the ELF header, 1 the program header table, 2 the section header table, 3 a section, 4 a
    /// segment and no section, 5 nothing, and a part begins after it, 6 nothing, and no part begins after it; of
    /// `symbol_pieces` 7 a symbol, 8 no symbol.
    pub(crate) owner: u32,
}

/// The sizes of the pieces of a file.
#[repr(C)]
#[derive(Clone, Copy, Debug, Default, PartialEq, Eq)]
pub(crate) struct PieceSizes {
    /// The number of words that the call takes.
    pub(crate) words: u64,
    /// The number of numbers of 64 bits that the call takes.
    pub(crate) numbers: u64,
    /// The number of all pieces of the file; 0 if the call only found how many words and numbers it takes.
    pub(crate) count: u64,
}

/// A part of a file, and its number of bytes.
#[repr(C)]
#[derive(Clone, Copy, Debug, Default, PartialEq, Eq)]
pub struct SizePart<'a> {
    /// The bytes of its name, which may be empty.
    pub(crate) name: Borrowed<'a>,
    /// The number of its kind, as the caller numbers kinds.
    pub(crate) kind: u64,
    /// Its place in the file, such as an index: of parts with one kind and one name, the one with the smallest place
    /// is the first.
    pub(crate) place: u64,
    /// Its number of bytes.
    pub(crate) size: u64,
}

/// What became of a part from one file to another.
#[repr(C)]
#[derive(Clone, Copy, Debug, Default, PartialEq, Eq)]
pub struct SizeChange {
    /// The index of the part of the old file in its list, as the call sorts it; 0 where `files` is 1.
    pub old_index: u64,
    /// The index of the part of the new file in its list, as the call sorts it; 0 where `files` is 0.
    pub new_index: u64,
    /// The number of bytes in the old file; 0 if the part isn't there.
    pub old_size: u64,
    /// The number of bytes in the new file; 0 if the part isn't there.
    pub new_size: u64,
    /// Where it is: 0 in the old file alone, 1 in the new file alone, 2 in both.
    pub files: u32,
}

/// A path at which a debug file may be.
#[repr(C)]
#[derive(Clone, Copy, Debug, Default, PartialEq, Eq)]
pub(crate) struct DebugCandidate {
    /// The number of bytes of the path.
    pub(crate) size: u64,
    /// How the file is found: 0 by the build id, 1 by the name in the link in the folder of the file, 2 in `.debug`
    /// there, 3 in the same folder under the directory.
    pub(crate) how: u32,
}

/// An object of a process: its file, and where it is loaded. Objects are in the order in which they are loaded, the
/// program first.
#[repr(C)]
#[derive(Clone, Copy, Debug, Default, PartialEq, Eq)]
pub struct LoadObject<'a> {
    /// The bytes of the file.
    pub(crate) file: Borrowed<'a>,
    /// Its image after relocation, where bytes of it are copied to another object; else it may be empty.
    pub(crate) image: Borrowed<'a>,
    /// The number that is added to its addresses.
    pub(crate) base: u64,
    /// The number of its module of thread-local storage.
    pub(crate) module: u64,
    /// The offset of its thread-local storage from the thread pointer, modulo 2^64.
    pub(crate) thread: u64,
}

/// A name that an object asks for.
#[repr(C)]
#[derive(Clone, Copy, Debug, Default, PartialEq, Eq)]
pub(crate) struct NeededName {
    /// The bytes of the name, with its dynamic string tokens, without the zero byte that ends it; offset and size are
    /// 0 if the name can't be read.
    pub(crate) range: Range,
    /// The status of this name.
    pub(crate) status: u32,
    /// What the object asks for: 1 a library that it needs (DT_NEEDED), 2 one that is searched before it, if there is
    /// one (DT_AUXILIARY), 3 one that is searched in its place (DT_FILTER).
    pub(crate) kind: u32,
}

/// The values of the dynamic string tokens for an object. An empty value is not known.
#[repr(C)]
#[derive(Clone, Copy, Debug, Default, PartialEq, Eq)]
pub struct Tokens<'a> {
    /// The folder of the object (`$ORIGIN`).
    pub(crate) origin: Borrowed<'a>,
    /// The folder of libraries for the machine, as `lib64` (`$LIB`).
    pub(crate) lib: Borrowed<'a>,
    /// The kind of the processor, as `x86_64` (`$PLATFORM`).
    pub(crate) platform: Borrowed<'a>,
}

/// What an object says about the search for libraries.
#[repr(C)]
#[derive(Clone, Copy, Debug, Default, PartialEq, Eq)]
pub struct SearchAsker<'a> {
    /// The text of its last DT_RPATH; empty if it has none.
    pub(crate) r_path: Borrowed<'a>,
    /// The text of its last DT_RUNPATH.
    pub(crate) run_path: Borrowed<'a>,
    /// The values of its tokens.
    pub(crate) tokens: Tokens<'a>,
    /// 1 if it has a DT_RUNPATH, even an empty one: its DT_RPATH then does not count.
    pub(crate) has_run_path: u32,
    /// 1 if it has the flag 0x800 (DF_1_NODEFLIB): no library is looked for in the default folders.
    pub(crate) no_default: u32,
}

/// A name that is looked for, and what the search depends on. No text may have a zero byte.
#[repr(C)]
#[derive(Clone, Copy, Debug, Default, PartialEq, Eq)]
pub struct SearchFor<'a> {
    /// The name, with its tokens replaced.
    pub(crate) name: Borrowed<'a>,
    /// The value of LD_LIBRARY_PATH.
    pub(crate) library_path: Borrowed<'a>,
    /// The path that the cache has for the name (`cache_path`); empty if it has none.
    pub(crate) cache: Borrowed<'a>,
    /// The folders of ld.so.conf, one in each line, where there is no cache.
    pub(crate) conf: Borrowed<'a>,
    /// The default folders, with colons between them.
    pub(crate) defaults: Borrowed<'a>,
    /// The subdirectories of each folder that are tried, each with a slash at its end; the last is the empty text.
    pub(crate) subdirectories: Borrowed<'a, Borrowed<'a>>,
    /// The values of the tokens for the program.
    pub(crate) program: Tokens<'a>,
}

/// A path at which a library is looked for.
#[repr(C)]
#[derive(Clone, Copy, Debug, Default, PartialEq, Eq)]
pub(crate) struct CandidatePath {
    /// Why it is tried: 1 the name has a slash and is the path, 2 the DT_RPATH of an object, 3 LD_LIBRARY_PATH, 4 the
    /// DT_RUNPATH of the object that asks, 5 the cache, 6 ld.so.conf, 7 the default folders.
    pub(crate) how: u32,
    /// For a DT_RPATH the index of its object among the askers, otherwise 0.
    pub(crate) asker: u64,
    /// The size of its subdirectory in bytes; 0 for the folder itself.
    pub(crate) subdirectory_size: u64,
}

/// What a machine can use of a cache.
#[repr(C)]
#[derive(Clone, Copy, Debug, Default, PartialEq, Eq)]
pub struct CacheMachine<'a> {
    /// The active names of subdirectories of `glibc-hwcaps`, the best first.
    pub(crate) names: Borrowed<'a, Borrowed<'a>>,
    /// The capabilities that it has, other than platforms: on x86-64 bits 1 (x86_64), 2 (avx512_1) and 63 (tls), on
    /// 32-bit x86 0 (sse2) and 63.
    pub(crate) bits: u64,
    /// The bit of its platform, 0 if it has none: haswell is bit 50, i686 bit 49.
    pub(crate) platform: u64,
    /// The flags of its entries: 0x303 of x86-64, 0xa03 of AArch64, 3 of 32-bit x86.
    pub(crate) flags: u32,
    /// Other flags that it takes, of 32-bit x86 1; else the same.
    pub(crate) other_flags: u32,
    /// The levels that it has, level k as bit k: bit 0, and on x86-64 bits 1 to 3 for the levels 2 to 4 of the
    /// processor.
    pub(crate) levels: u32,
}

/// What the entries of an object ask for and found.
#[repr(C)]
#[derive(Clone, Copy, Debug, Default, PartialEq, Eq)]
pub struct Dependencies<'a> {
    /// For each entry the number of the object that it found, 0xffffffff if that is missing, 0xfffffffe if it was not
    /// asked for.
    pub(crate) found: Borrowed<'a, u32>,
    /// The kind of each, as in `needed_name_t`; 1 for those that are left out at the end.
    pub(crate) kinds: Borrowed<'a, u32>,
}

/// An entry of an object.
#[repr(C)]
#[derive(Clone, Copy, Debug, Default, PartialEq, Eq)]
pub(crate) struct ObjectEntry {
    /// The number of the object.
    pub(crate) object: u64,
    /// The index of the entry among the names that it asks for.
    pub(crate) entry: u64,
}

/// A version that an object lacks.
#[repr(C)]
#[derive(Clone, Copy, Debug, Default, PartialEq, Eq)]
pub(crate) struct LackedVersion {
    /// The version that is needed.
    pub(crate) version: Version,
    /// Why it is missing: 1 the object has no versions, 2 it is needed weakly, 3 otherwise: then the program does not
    /// start. 0 if its status is an error.
    pub(crate) lack: u32,
}
