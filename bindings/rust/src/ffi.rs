//! The declarations of the archive, and a safe call for each. Written by tools/exports/declarations.py.
//!
//! The reason is the same for each `unsafe`. During the call the export reads the slices and records that it is passed,
//! writes the records that it is passed to write, of a slice at most as many as it has, and is defined whatever they
//! contain. All of these are references of the call, of the types that the archive declares.

use crate::records::{AddressIndex, Answer, CacheMachine, CandidatePath, Counts, DebugCandidate, Dependencies, Dynamic, Entry, FoundAt, FoundSymbol, FoundTable, Header, LackedVersion, LoadObject, Mapping, Name, NeededName, NoteRange, ObjectEntry, Piece, PieceSizes, Plan, ProgramHeader, Range, Relocation, SearchAsker, SearchFor, SectionHeader, SizeChange, SizePart, SymbolTable, Tokens, Version};
use crate::Error;

fn result_of<T>(status: u32, value: T) -> Result<T, Error> {
    match status {
        0 => Ok(value),
        status => Err(Error::of(status)),
    }
}

extern "C" {
    fn xmas_elf_open(input: *const u8, input_len: usize, out: *mut Header) -> u32;
    fn xmas_elf_check_header(input: *const u8, input_len: usize, header: *const Header) -> u32;
    fn xmas_elf_counts(input: *const u8, input_len: usize, header: *const Header, out: *mut Counts) -> u32;
    fn xmas_elf_names_index(input: *const u8, input_len: usize, header: *const Header, out: *mut u32) -> u32;
    fn xmas_elf_section(input: *const u8, input_len: usize, header: *const Header, index: u64,
        out: *mut SectionHeader) -> u32;
    fn xmas_elf_check_section(input: *const u8, input_len: usize, header: *const Header, index: u64) -> u32;
    fn xmas_elf_sections(input: *const u8, input_len: usize, header: *const Header, first: u64,
        out: *mut SectionHeader, out_len: usize, count: *mut u64) -> u32;
    fn xmas_elf_find_section(input: *const u8, input_len: usize, header: *const Header, name: *const u8,
        name_len: usize, out: *mut SectionHeader) -> u32;
    fn xmas_elf_find_section_index(input: *const u8, input_len: usize, header: *const Header, name: *const u8,
        name_len: usize, out: *mut u64) -> u32;
    fn xmas_elf_section_data(input: *const u8, input_len: usize, header: *const Header, index: u64,
        out: *mut Range) -> u32;
    fn xmas_elf_section_names(input: *const u8, input_len: usize, header: *const Header, first: u64, out: *mut Name,
        out_len: usize, count: *mut u64) -> u32;
    fn xmas_elf_names(input: *const u8, input_len: usize, header: *const Header, out: *mut Range) -> u32;
    fn xmas_elf_text(input: *const u8, input_len: usize, part: *const Range, index: u64, out: *mut Range) -> u32;
    fn xmas_elf_segment(input: *const u8, input_len: usize, header: *const Header, index: u32,
        out: *mut ProgramHeader) -> u32;
    fn xmas_elf_check_segment(input: *const u8, input_len: usize, header: *const Header, index: u32) -> u32;
    fn xmas_elf_segments(input: *const u8, input_len: usize, header: *const Header, first: u64,
        out: *mut ProgramHeader, out_len: usize, count: *mut u64) -> u32;
    fn xmas_elf_segment_data(input: *const u8, input_len: usize, header: *const Header, index: u32,
        out: *mut Range) -> u32;
    fn xmas_elf_symbols(input: *const u8, input_len: usize, table: *const SymbolTable, first: u64, out: *mut Entry,
        out_len: usize, count: *mut u64) -> u32;
    fn xmas_elf_symbol_names(input: *const u8, input_len: usize, table: *const SymbolTable, first: u64,
        out: *mut Name, out_len: usize, count: *mut u64) -> u32;
    fn xmas_elf_symbols_open(input: *const u8, input_len: usize, header: *const Header, section: u64,
        out: *mut SymbolTable) -> u32;
    fn xmas_elf_relocations(input: *const u8, input_len: usize, header: *const Header, section: u64, first: u64,
        out: *mut Relocation, out_len: usize, count: *mut u64) -> u32;
    fn xmas_elf_packed_relocations(input: *const u8, input_len: usize, header: *const Header, section: u64,
        first: u64, out: *mut u64, out_len: usize, count: *mut u64) -> u32;
    fn xmas_elf_dynamics(input: *const u8, input_len: usize, header: *const Header, section: u64, first: u64,
        out: *mut Dynamic, out_len: usize, count: *mut u64) -> u32;
    fn xmas_elf_dynamic_entries(input: *const u8, input_len: usize, header: *const Header, first: u64,
        out: *mut Dynamic, out_len: usize, count: *mut u64) -> u32;
    fn xmas_elf_dynamic_relocations(input: *const u8, input_len: usize, header: *const Header, first: u64,
        out: *mut Relocation, out_len: usize, count: *mut u64) -> u32;
    fn xmas_elf_dynamic_packed_relocations(input: *const u8, input_len: usize, header: *const Header, first: u64,
        out: *mut u64, out_len: usize, count: *mut u64) -> u32;
    fn xmas_elf_note(input: *const u8, input_len: usize, header: *const Header, part: *const Range, align: u64,
        out: *mut NoteRange) -> u32;
    fn xmas_elf_bytes_at(input: *const u8, input_len: usize, header: *const Header, address: u64, count: u64,
        out: *mut Range) -> u32;
    fn xmas_elf_dynamic_texts(input: *const u8, input_len: usize, header: *const Header, tag: u64, first: u64,
        out: *mut Name, out_len: usize, count: *mut u64) -> u32;
    fn xmas_elf_dynamic_symbols_open(input: *const u8, input_len: usize, header: *const Header,
        out: *mut SymbolTable) -> u32;
    fn xmas_elf_file_symbols_open(input: *const u8, input_len: usize, header: *const Header,
        out: *mut SymbolTable) -> u32;
    fn xmas_elf_dynamic_symbol_versions(input: *const u8, input_len: usize, header: *const Header, first: u64,
        out: *mut Version, out_len: usize, count: *mut u64) -> u32;
    fn xmas_elf_version_definitions(input: *const u8, input_len: usize, header: *const Header, first: u64,
        out: *mut Version, out_len: usize, count: *mut u64) -> u32;
    fn xmas_elf_version_needs(input: *const u8, input_len: usize, header: *const Header, first: u64,
        out: *mut Version, out_len: usize, count: *mut u64) -> u32;
    fn xmas_elf_find_symbol(input: *const u8, input_len: usize, header: *const Header, name: *const u8,
        name_len: usize, version: *const u8, version_len: usize, out: *mut FoundSymbol) -> u32;
    fn xmas_elf_look_ups(input: *const u8, input_len: usize, table: *const FoundTable, names: *const u8,
        names_len: usize, ranges: *const Range, ranges_len: usize, out: *mut Answer, out_len: usize);
    fn xmas_elf_hash_open(input: *const u8, input_len: usize, header: *const Header, section: u64,
        out: *mut FoundTable) -> u32;
    fn xmas_elf_check_hash(input: *const u8, input_len: usize, table: *const FoundTable) -> u32;
    fn xmas_elf_address_index(input: *const u8, input_len: usize, header: *const Header, table: *const SymbolTable,
        indices: *const Range, within: u32, words: *mut u32, words_len: usize, numbers: *mut u64, numbers_len: usize,
        out: *mut AddressIndex) -> u32;
    fn xmas_elf_symbols_at(input: *const u8, input_len: usize, index: *const AddressIndex, words: *const u32,
        words_len: usize, numbers: *const u64, numbers_len: usize, addresses: *const u64, addresses_len: usize,
        out: *mut FoundAt, out_len: usize) -> u32;
    fn xmas_elf_pieces(input: *const u8, input_len: usize, header: *const Header, first: u64, words: *mut u32,
        words_len: usize, numbers: *mut u64, numbers_len: usize, out: *mut Piece, out_len: usize,
        sizes: *mut PieceSizes) -> u32;
    fn xmas_elf_symbol_pieces(input: *const u8, input_len: usize, index: *const AddressIndex, begin: u64, end: u64,
        first: u64, words: *mut u32, words_len: usize, numbers: *mut u64, numbers_len: usize, out: *mut Piece,
        out_len: usize, count: *mut u64) -> u32;
    fn xmas_elf_size_changes(olds: *mut SizePart<'_>, olds_len: usize, news: *mut SizePart<'_>, news_len: usize,
        changes: *mut SizeChange, changes_len: usize, count: *mut u64) -> u32;
    fn xmas_elf_debug_path(input: *const u8, input_len: usize, header: *const Header, path: *const u8,
        path_len: usize, directory: *const u8, directory_len: usize, index: u64, text: *mut u8, text_len: usize,
        out: *mut DebugCandidate) -> u32;
    fn xmas_elf_check_debug(input: *const u8, input_len: usize, header: *const Header, how: u32, debug: *const u8,
        debug_len: usize, debug_header: *const Header) -> u32;
    fn xmas_elf_debug_crc(bytes: *const u8, bytes_len: usize, out: *mut u32) -> u32;
    fn xmas_elf_load_plan(input: *const u8, input_len: usize, header: *const Header, page: u64, limit: u64,
        out: *mut Plan) -> u32;
    fn xmas_elf_load_mappings(input: *const u8, input_len: usize, header: *const Header, page: u64, limit: u64,
        loader: u32, first: u64, out: *mut Mapping, out_len: usize, count: *mut u64) -> u32;
    fn xmas_elf_load_image(input: *const u8, input_len: usize, header: *const Header, page: u64, limit: u64,
        loader: u32, image: *mut u8, image_len: usize) -> u32;
    fn xmas_elf_check_image(objects: *const LoadObject<'_>, objects_len: usize, of: u64, page: u64, limit: u64,
        marks: *mut u8, marks_len: usize, failed: *mut u64, relocation: *mut u64) -> u32;
    fn xmas_elf_relocate(objects: *const LoadObject<'_>, objects_len: usize, of: u64, lazy: u32, page: u64,
        limit: u64, image: *mut u8, image_len: usize, count: *mut u64, failed: *mut u64, relocation: *mut u64) -> u32;
    fn xmas_elf_relocate_all(objects: *const LoadObject<'_>, objects_len: usize, lazy: u32, page: u64, limit: u64,
        images: *mut u8, images_len: usize, left: *mut u64, failed: *mut u64, relocation: *mut u64) -> u32;
    fn xmas_elf_message(status: u32, out: *mut u8, out_len: usize) -> usize;
    fn xmas_elf_needed_names(input: *const u8, input_len: usize, header: *const Header, first: u64,
        out: *mut NeededName, out_len: usize, count: *mut u64) -> u32;
    fn xmas_elf_last_entry(input: *const u8, input_len: usize, header: *const Header, tag: u64, out: *mut u64) -> u32;
    fn xmas_elf_last_text(input: *const u8, input_len: usize, header: *const Header, tag: u64,
        out: *mut Range) -> u32;
    fn xmas_elf_fits(head: *const u8, head_len: usize, len: u64, file_class: u8, machine: u16, out: *mut u32) -> u32;
    fn xmas_elf_check_library(input: *const u8, input_len: usize, header: *const Header) -> u32;
    fn xmas_elf_check_load(input: *const u8, input_len: usize, header: *const Header, page: u64, limit: u64,
        loader: u32) -> u32;
    fn xmas_elf_expand(text: *const u8, text_len: usize, tokens: *const Tokens<'_>, first: u64, out: *mut u8,
        out_len: usize, count: *mut u64) -> u32;
    fn xmas_elf_candidates(search: *const SearchFor<'_>, askers: *const SearchAsker<'_>, askers_len: usize,
        first: u64, out: *mut CandidatePath, out_len: usize, count: *mut u64) -> u32;
    fn xmas_elf_candidate_paths(search: *const SearchFor<'_>, askers: *const SearchAsker<'_>, askers_len: usize,
        first: u64, out: *mut u8, out_len: usize, count: *mut u64) -> u32;
    fn xmas_elf_cache_path(cache: *const u8, cache_len: usize, name: *const u8, name_len: usize,
        machine: *const CacheMachine<'_>, first: u64, out: *mut u8, out_len: usize, count: *mut u64) -> u32;
    fn xmas_elf_next_entry(dependencies: *const Dependencies<'_>, dependencies_len: usize, words: *mut u32,
        words_len: usize, edges: *mut u32, edges_len: usize, out: *mut ObjectEntry) -> u32;
    fn xmas_elf_start_order(dependencies: *const Dependencies<'_>, dependencies_len: usize, words: *mut u32,
        words_len: usize, edges: *mut u32, edges_len: usize, list: *mut u32, list_len: usize, starts: *mut u32,
        starts_len: usize, count: *mut u64) -> u32;
    fn xmas_elf_missing_versions(input: *const u8, input_len: usize, header: *const Header, name: *const u8,
        name_len: usize, provider: *const u8, provider_len: usize, provider_header: *const Header, first: u64,
        out: *mut LackedVersion, out_len: usize, count: *mut u64) -> u32;
}

/// Reads the ELF header of a file. Errors, in the order of the tests: `ShortPart1`, `NoMagic`, `InvalidClass`,
/// `ShortHeaders`.
pub(crate) fn open(input: &[u8]) -> Result<Header, Error> {
    let mut out = Header::default();
    // SAFETY: see the head of this file.
    let status = unsafe { xmas_elf_open(input.as_ptr(), input.len(), &mut out) };
    result_of(status, out)
}

/// Checks the header against the input: its own size, its class, version and byte order, and that its two tables lie
/// in the input. Errors, in the order of the tests: `HeaderSize`, `NoClass`, `ClassMismatch`, `NoVersion`,
/// `NoDataFormat`, `PhTableRange`, `ShTableRange`.
pub(crate) fn check_header(input: &[u8], header: &Header) -> Result<(), Error> {
    // SAFETY: see the head of this file.
    let status = unsafe { xmas_elf_check_header(input.as_ptr(), input.len(), header) };
    result_of(status, ())
}

/// The numbers of sections and segments that the file claims; its tables may be cut off before. If the ELF header has
/// the number 0 and an `sh_offset`, the number of sections is in section 0, and 0 if that is missing: `section` at
/// index 0 then returns the reason. It returns no error.
pub(crate) fn counts(input: &[u8], header: &Header) -> Result<Counts, Error> {
    let mut out = Counts::default();
    // SAFETY: see the head of this file.
    let status = unsafe { xmas_elf_counts(input.as_ptr(), input.len(), header, &mut out) };
    result_of(status, out)
}

/// The index of the section with the names of sections. Errors: `ReservedIndex`.
pub(crate) fn names_index(input: &[u8], header: &Header) -> Result<u32, Error> {
    let mut out = u32::default();
    // SAFETY: see the head of this file.
    let status = unsafe { xmas_elf_names_index(input.as_ptr(), input.len(), header, &mut out) };
    result_of(status, out)
}

/// The section header at an index. The index is not compared with the number of sections: past the table the call
/// reads what bytes are there, or returns an error. Errors, in the order of the tests: `ShortSectionHeader`,
/// `UnknownClass`, `SmallEntry`.
pub(crate) fn section(input: &[u8], header: &Header, index: u64) -> Result<SectionHeader, Error> {
    let mut out = SectionHeader::default();
    // SAFETY: see the head of this file.
    let status = unsafe { xmas_elf_section(input.as_ptr(), input.len(), header, index, &mut out) };
    result_of(status, out)
}

/// Checks the section header at an index: that this reader knows its type, as it does 19 (SHT_RELR). Where the data
/// lie is not tested: `section_data` does that. Errors, in the order of the tests: `ShortSectionHeader`,
/// `UnknownClass`, `SmallEntry`, `InvalidShType`.
pub(crate) fn check_section(input: &[u8], header: &Header, index: u64) -> Result<(), Error> {
    // SAFETY: see the head of this file.
    let status = unsafe { xmas_elf_check_section(input.as_ptr(), input.len(), header, index) };
    result_of(status, ())
}

/// The section headers from index `first` on, up to the number of sections or the first that can't be read. If they
/// end before that number, `section` at the next index returns the reason. Errors: `NoRecord`.
pub(crate) fn sections(input: &[u8], header: &Header, first: u64, out: &mut [SectionHeader]) -> Result<u64, Error> {
    let mut count = u64::default();
    // SAFETY: see the head of this file.
    let status = unsafe { xmas_elf_sections(input.as_ptr(), input.len(), header, first, out.as_mut_ptr(), out.len(),
        &mut count) };
    result_of(status, count)
}

/// The first section with a name. A section of type 19 (SHT_RELR), or whose name can't be read, is skipped, and a
/// name that is not UTF-8 is never found. The call compares `name` with the names of the sections up to the one that
/// it finds, each as far as they are equal: in a file made to be slow the time is sections times the size of `name`.
/// Errors: `NotFound`.
pub(crate) fn find_section(input: &[u8], header: &Header, name: &[u8]) -> Result<SectionHeader, Error> {
    let mut out = SectionHeader::default();
    // SAFETY: see the head of this file.
    let status = unsafe { xmas_elf_find_section(input.as_ptr(), input.len(), header, name.as_ptr(), name.len(), &mut
        out) };
    result_of(status, out)
}

/// The index of the first section with a name: that of the section that `find_section` gives, which takes less time:
/// this call reads the whole name of each section up to that one, so where sections share one long name the time is
/// their number times its size. Errors: `NotFound`.
pub(crate) fn find_section_index(input: &[u8], header: &Header, name: &[u8]) -> Result<u64, Error> {
    let mut out = u64::default();
    // SAFETY: see the head of this file.
    let status = unsafe { xmas_elf_find_section_index(input.as_ptr(), input.len(), header, name.as_ptr(), name.len(),
        &mut out) };
    result_of(status, out)
}

/// The range of a section's data. A section of type SHT_NOBITS has none in the file: its range belongs to other
/// sections. `NullData` is for type SHT_NULL, `InvalidShType` for a type that this reader does not know. The range of
/// an empty section begins at its offset. Errors, in the order of the tests: `ShortSectionHeader`, `UnknownClass`,
/// `SmallEntry`, `InvalidShType`, `NullData`, `DataRange`.
pub(crate) fn section_data(input: &[u8], header: &Header, index: u64) -> Result<Range, Error> {
    let mut out = Range::default();
    // SAFETY: see the head of this file.
    let status = unsafe { xmas_elf_section_data(input.as_ptr(), input.len(), header, index, &mut out) };
    result_of(status, out)
}

/// The ranges of the names of sections from index `first` on, each with a status of its own, without the zero bytes
/// that end them. They are UTF-8. A section of any type has a name. The call gives as many names as `sections` gives
/// headers. It reads each name to its end: where sections share one long name, the time is their number times its
/// size. Errors: `NoRecord`. Errors of a record, in the order of the tests: `ReservedIndex`, `ShortSectionHeader`,
/// `ShortSectionOffset`, `TextStart`, `TextEnd`, `TextUtf8`.
pub(crate) fn section_names(input: &[u8], header: &Header, first: u64, out: &mut [Name]) -> Result<u64, Error> {
    let mut count = u64::default();
    // SAFETY: see the head of this file.
    let status = unsafe { xmas_elf_section_names(input.as_ptr(), input.len(), header, first, out.as_mut_ptr(),
        out.len(), &mut count) };
    result_of(status, count)
}

/// The range of the name table of sections, which goes on to the end of the input. Read it once: the name of a
/// section is the text there at the section's `name`, by `text`. Errors, in the order of the tests: `ReservedIndex`,
/// `ShortSectionHeader`, `UnknownClass`, `SmallEntry`, `ShortSectionOffset`.
pub(crate) fn names(input: &[u8], header: &Header) -> Result<Range, Error> {
    let mut out = Range::default();
    // SAFETY: see the head of this file.
    let status = unsafe { xmas_elf_names(input.as_ptr(), input.len(), header, &mut out) };
    result_of(status, out)
}

/// The range of the text that begins `index` bytes after the start of `part` and ends before the next zero byte of
/// `part`. It is UTF-8. Errors, in the order of the tests: `DataRange`, `TextStart`, `TextEnd`, `TextUtf8`.
pub(crate) fn text(input: &[u8], part: &Range, index: u64) -> Result<Range, Error> {
    let mut out = Range::default();
    // SAFETY: see the head of this file.
    let status = unsafe { xmas_elf_text(input.as_ptr(), input.len(), part, index, &mut out) };
    result_of(status, out)
}

/// The program header at an index. Errors, in the order of the tests: `NoProgramHeaders`, `UnknownClass`,
/// `ShortProgramHeader`, `SmallEntry`.
pub(crate) fn segment(input: &[u8], header: &Header, index: u32) -> Result<ProgramHeader, Error> {
    let mut out = ProgramHeader::default();
    // SAFETY: see the head of this file.
    let status = unsafe { xmas_elf_segment(input.as_ptr(), input.len(), header, index, &mut out) };
    result_of(status, out)
}

/// Checks the program header at an index against the input: the size of the table's entries, that the segment ends
/// before the input does, its type, and that its address and its offset are the same modulo an alignment above 1.
/// `EntryPointRange` is also for a segment that ends exactly where the input does. Errors, in the order of the tests:
/// `NoProgramHeaders`, `UnknownClass`, `ShortProgramHeader`, `SmallEntry`, `PhSizeMismatch`, `EntryPointRange`,
/// `InvalidPhType`, `ShLibUsed`, `BadAlign`.
pub(crate) fn check_segment(input: &[u8], header: &Header, index: u32) -> Result<(), Error> {
    // SAFETY: see the head of this file.
    let status = unsafe { xmas_elf_check_segment(input.as_ptr(), input.len(), header, index) };
    result_of(status, ())
}

/// The program headers from index `first` on, up to the number of segments or the first that can't be read. If they
/// end before that number, `segment` at the next index returns the reason. Errors: `NoRecord`.
pub(crate) fn segments(input: &[u8], header: &Header, first: u64, out: &mut [ProgramHeader]) -> Result<u64, Error> {
    let mut count = u64::default();
    // SAFETY: see the head of this file.
    let status = unsafe { xmas_elf_segments(input.as_ptr(), input.len(), header, first, out.as_mut_ptr(), out.len(),
        &mut count) };
    result_of(status, count)
}

/// The range of a segment's data. `NullData` is for type PT_NULL, `InvalidPhType` for a type that this reader does
/// not know. For an empty segment (p_filesz 0) offset and size are 0, whatever its offset is. Errors, in the order of
/// the tests: `NoProgramHeaders`, `UnknownClass`, `ShortProgramHeader`, `SmallEntry`, `InvalidPhType`, `NullData`,
/// `DataRange`.
pub(crate) fn segment_data(input: &[u8], header: &Header, index: u32) -> Result<Range, Error> {
    let mut out = Range::default();
    // SAFETY: see the head of this file.
    let status = unsafe { xmas_elf_segment_data(input.as_ptr(), input.len(), header, index, &mut out) };
    result_of(status, out)
}

/// The symbols from index `first` on of a table that `symbols_open` or `dynamic_symbols_open` found. Any table may be
/// given: each call compares its range with the input, and its count is not read. `DataRange` is for symbols that do
/// not lie in the input. Errors, in the order of the tests: `DataRange`, `NotMultiple`, `NoRecord`.
pub(crate) fn symbols(input: &[u8], table: &SymbolTable, first: u64, out: &mut [Entry]) -> Result<u64, Error> {
    let mut count = u64::default();
    // SAFETY: see the head of this file.
    let status = unsafe { xmas_elf_symbols(input.as_ptr(), input.len(), table, first, out.as_mut_ptr(), out.len(),
        &mut count) };
    result_of(status, count)
}

/// The ranges of the names of these symbols, each with a status of its own: the texts at each symbol's `name` in the
/// string table. The call gives as many names as `symbols` gives symbols. If `strings_status` of the table is not 0,
/// it is the status of each name; `DataRange` is for a string table that does not lie in the input. The call reads
/// each name to its end: where symbols share one long name, the time is their number times its size. Errors, in the
/// order of the tests: `DataRange`, `NotMultiple`, `NoRecord`. Errors of a record, in the order of the tests:
/// `DataRange`, `TextStart`, `TextEnd`, `TextUtf8`.
pub(crate) fn symbol_names(input: &[u8], table: &SymbolTable, first: u64, out: &mut [Name]) -> Result<u64, Error> {
    let mut count = u64::default();
    // SAFETY: see the head of this file.
    let status = unsafe { xmas_elf_symbol_names(input.as_ptr(), input.len(), table, first, out.as_mut_ptr(),
        out.len(), &mut count) };
    result_of(status, count)
}

/// Finds the symbols of a section of type SHT_SYMTAB or SHT_DYNSYM, and the string table that it is linked to, once
/// for many calls of `symbols` and `symbol_names`. For a section of another type the status is an error, mostly
/// `OtherData`. If the string table can't be read, the call is OK, and `strings_status` is the reason. Errors, in the
/// order of the tests: `ShortSectionHeader`, `UnknownClass`, `SmallEntry`, `InvalidShType`, `DataRange`,
/// `NotMultiple`, `Note32`, `ShortData`, `OtherData`.
pub(crate) fn symbols_open(input: &[u8], header: &Header, section: u64) -> Result<SymbolTable, Error> {
    let mut out = SymbolTable::default();
    // SAFETY: see the head of this file.
    let status = unsafe { xmas_elf_symbols_open(input.as_ptr(), input.len(), header, section, &mut out) };
    result_of(status, out)
}

/// The relocations from index `first` on of a section of type SHT_REL or SHT_RELA. For a section of another type the
/// status is an error, mostly `OtherData`. Errors, in the order of the tests: `ShortSectionHeader`, `UnknownClass`,
/// `SmallEntry`, `InvalidShType`, `DataRange`, `NotMultiple`, `Note32`, `ShortData`, `OtherData`, `NoRecord`.
pub(crate) fn relocations(input: &[u8], header: &Header, section: u64, first: u64,
    out: &mut [Relocation]) -> Result<u64, Error> {
    let mut count = u64::default();
    // SAFETY: see the head of this file.
    let status = unsafe { xmas_elf_relocations(input.as_ptr(), input.len(), header, section, first, out.as_mut_ptr(),
        out.len(), &mut count) };
    result_of(status, count)
}

/// The addresses in the packed relative relocations of a section of type 19 (SHT_RELR) from index `first` on: those
/// of the words to which the load address is added. Each call reads the words from the first on, so give much room.
/// Errors, in the order of the tests: `ShortSectionHeader`, `UnknownClass`, `SmallEntry`, `OtherData`, `DataRange`,
/// `LinkNotMultiple`, `NoRecord`.
pub(crate) fn packed_relocations(input: &[u8], header: &Header, section: u64, first: u64,
    out: &mut [u64]) -> Result<u64, Error> {
    let mut count = u64::default();
    // SAFETY: see the head of this file.
    let status = unsafe { xmas_elf_packed_relocations(input.as_ptr(), input.len(), header, section, first,
        out.as_mut_ptr(), out.len(), &mut count) };
    result_of(status, count)
}

/// The dynamic entries from index `first` on of a section of type SHT_DYNAMIC, also those after the entry with tag 0.
/// For a section of another type the status is an error, mostly `OtherData`. Errors, in the order of the tests:
/// `ShortSectionHeader`, `UnknownClass`, `SmallEntry`, `InvalidShType`, `DataRange`, `NotMultiple`, `Note32`,
/// `ShortData`, `OtherData`, `NoRecord`.
pub(crate) fn dynamics(input: &[u8], header: &Header, section: u64, first: u64,
    out: &mut [Dynamic]) -> Result<u64, Error> {
    let mut count = u64::default();
    // SAFETY: see the head of this file.
    let status = unsafe { xmas_elf_dynamics(input.as_ptr(), input.len(), header, section, first, out.as_mut_ptr(),
        out.len(), &mut count) };
    result_of(status, count)
}

/// The dynamic entries of the last segment of type PT_DYNAMIC from index `first` on, also those after the entry with
/// tag 0. No section header is needed. Each call reads all program headers, so give room for many. Errors, in the
/// order of the tests: `LinkNoDynamic`, `LinkAddress`, `DataRange`, `UnknownClass`, `NotMultiple`, `NoRecord`.
pub(crate) fn dynamic_entries(input: &[u8], header: &Header, first: u64, out: &mut [Dynamic]) -> Result<u64, Error> {
    let mut count = u64::default();
    // SAFETY: see the head of this file.
    let status = unsafe { xmas_elf_dynamic_entries(input.as_ptr(), input.len(), header, first, out.as_mut_ptr(),
        out.len(), &mut count) };
    result_of(status, count)
}

/// The relocations of the dynamic segment from index `first` on: those of the table DT_RELA, then of DT_REL, then of
/// DT_JMPREL. The index of a symbol is one of `dynamic_symbols_open`. No section header is needed. Each call reads
/// the relocations before `first` anew, so give much room. Errors, in the order of the tests: `LinkNoDynamic`,
/// `LinkAddress`, `DataRange`, `NotMultiple`, `LinkNoEntry`, `LinkRelocationKind`, `NoRecord`.
pub(crate) fn dynamic_relocations(input: &[u8], header: &Header, first: u64,
    out: &mut [Relocation]) -> Result<u64, Error> {
    let mut count = u64::default();
    // SAFETY: see the head of this file.
    let status = unsafe { xmas_elf_dynamic_relocations(input.as_ptr(), input.len(), header, first, out.as_mut_ptr(),
        out.len(), &mut count) };
    result_of(status, count)
}

/// The addresses in the packed relative relocations of the dynamic segment (DT_RELR) from index `first` on;
/// `NoRecord` also if there are none. No section header is needed. Each call reads the words from the first on, so
/// give much room. Errors, in the order of the tests: `LinkNoDynamic`, `LinkAddress`, `DataRange`, `NotMultiple`,
/// `LinkNoEntry`, `LinkNotMultiple`, `NoRecord`.
pub(crate) fn dynamic_packed_relocations(input: &[u8], header: &Header, first: u64,
    out: &mut [u64]) -> Result<u64, Error> {
    let mut count = u64::default();
    // SAFETY: see the head of this file.
    let status = unsafe { xmas_elf_dynamic_packed_relocations(input.as_ptr(), input.len(), header, first,
        out.as_mut_ptr(), out.len(), &mut count) };
    result_of(status, count)
}

/// The first note of a range, by the alignment of its section or segment (8, and else 4). `NoRecord` is for an empty
/// range, `LinkShortNote` for one that holds no whole note. The build id of a file is the description of the first
/// note of type 3 (NT_GNU_BUILD_ID) with name `GNU`, in the sections of type SHT_NOTE or the segments of type
/// PT_NOTE. Errors, in the order of the tests: `DataRange`, `NoRecord`, `LinkShortNote`.
pub(crate) fn note(input: &[u8], header: &Header, part: &Range, align: u64) -> Result<NoteRange, Error> {
    let mut out = NoteRange::default();
    // SAFETY: see the head of this file.
    let status = unsafe { xmas_elf_note(input.as_ptr(), input.len(), header, part, align, &mut out) };
    result_of(status, out)
}

/// The range of the file bytes for addresses `address .. address + count`: those of the last PT_LOAD segment that has
/// them all. No section header is needed. Of a segment without file bytes the offset is 0. Each call reads all
/// program headers. Errors, in the order of the tests: `LinkAddress`, `DataRange`.
pub(crate) fn bytes_at(input: &[u8], header: &Header, address: u64, count: u64) -> Result<Range, Error> {
    let mut out = Range::default();
    // SAFETY: see the head of this file.
    let status = unsafe { xmas_elf_bytes_at(input.as_ptr(), input.len(), header, address, count, &mut out) };
    result_of(status, out)
}

/// The ranges of the texts that the dynamic entries with a tag name, from index `first` of them on, each with a
/// status of its own, in the order of the entries: for tag 1 (DT_NEEDED) the names of the libraries that the file
/// needs, for 14 (DT_SONAME) the name of the library, for 29 (DT_RUNPATH) and 15 (DT_RPATH) the folders where the
/// dynamic linker looks for libraries. The entries are those of the last segment of type PT_DYNAMIC before the entry
/// with tag 0, so no section header is needed. `NoRecord` is for a tag that no more entries have. Each call reads the
/// entries from the first on, so give room for all where a file may have many. It reads each text to its end: where
/// entries share one long text, the time is their number times its size. Errors, in the order of the tests:
/// `LinkNoDynamic`, `LinkAddress`, `DataRange`, `NotMultiple`, `NoRecord`. Errors of a record, in the order of the
/// tests: `LinkNoEntry`, `LinkAddress`, `DataRange`, `TextStart`, `TextEnd`, `TextUtf8`.
pub(crate) fn dynamic_texts(input: &[u8], header: &Header, tag: u64, first: u64,
    out: &mut [Name]) -> Result<u64, Error> {
    let mut count = u64::default();
    // SAFETY: see the head of this file.
    let status = unsafe { xmas_elf_dynamic_texts(input.as_ptr(), input.len(), header, tag, first, out.as_mut_ptr(),
        out.len(), &mut count) };
    result_of(status, count)
}

/// Finds the symbols of the dynamic segment (DT_SYMTAB) and the string table of their names (DT_STRTAB), once for
/// many calls of `symbols` and `symbol_names`. No section header is needed. The count of the table is one that no
/// entry says: the number of chains of the gABI's hash table (DT_HASH) where the segment names one, and else one more
/// than the last index that GNU's (DT_GNU_HASH) reaches, or its first index where it reaches none; this one does not
/// count symbols after the last exported one. If the string table can't be read, the call is OK, and `strings_status`
/// is the reason. Errors, in the order of the tests: `LinkNoDynamic`, `LinkAddress`, `DataRange`, `NotMultiple`,
/// `LinkNoEntry`, `ShortData`, `LinkShortTable`, `LinkBloomCount`, `LinkChainIndex`, `LinkChainData`,
/// `LinkSymbolIndex`.
pub(crate) fn dynamic_symbols_open(input: &[u8], header: &Header) -> Result<SymbolTable, Error> {
    let mut out = SymbolTable::default();
    // SAFETY: see the head of this file.
    let status = unsafe { xmas_elf_dynamic_symbols_open(input.as_ptr(), input.len(), header, &mut out) };
    result_of(status, out)
}

/// Finds the symbols of a file, once for many calls of `symbols` and `symbol_names`: those of the first section of
/// type SHT_SYMTAB, as `symbols_open` does, and of a file without such a section, as after `strip`, those of the
/// dynamic segment, as `dynamic_symbols_open` does. Errors, in the order of the tests: `ShortSectionHeader`,
/// `UnknownClass`, `SmallEntry`, `InvalidShType`, `DataRange`, `NotMultiple`, `Note32`, `ShortData`, `OtherData`,
/// `LinkNoDynamic`, `LinkAddress`, `LinkNoEntry`, `LinkShortTable`, `LinkBloomCount`, `LinkChainIndex`,
/// `LinkChainData`, `LinkSymbolIndex`.
pub(crate) fn file_symbols_open(input: &[u8], header: &Header) -> Result<SymbolTable, Error> {
    let mut out = SymbolTable::default();
    // SAFETY: see the head of this file.
    let status = unsafe { xmas_elf_file_symbols_open(input.as_ptr(), input.len(), header, &mut out) };
    result_of(status, out)
}

/// The versions of the symbols of the dynamic segment (DT_VERSYM) from index `first` on, each with a status of its
/// own: the first definition with the symbol's number but for the one that names the file, and else the first need
/// with it. The call gives as many versions as the table of `dynamic_symbols_open` has symbols. `NotFound` is for a
/// file whose symbols have no versions. Each call counts the symbols anew, so give room for all. A version with a
/// number of 64 or more is searched for among all definitions and needs, once for each symbol that has it: in a file
/// made to be slow the time is symbols times definitions and needs. Names are read to their end for each symbol, also
/// where many have one version with a long name. Errors, in the order of the tests: `LinkNoDynamic`, `LinkAddress`,
/// `DataRange`, `NotMultiple`, `LinkNoEntry`, `ShortData`, `LinkShortTable`, `LinkBloomCount`, `LinkChainIndex`,
/// `LinkChainData`, `LinkSymbolIndex`, `NotFound`, `NoRecord`. Errors of a record, in the order of the tests:
/// `LinkShortVersion`, `LinkVersionCount`, `LinkNoEntry`, `LinkAddress`, `DataRange`, `TextStart`, `TextEnd`,
/// `TextUtf8`.
pub(crate) fn dynamic_symbol_versions(input: &[u8], header: &Header, first: u64,
    out: &mut [Version]) -> Result<u64, Error> {
    let mut count = u64::default();
    // SAFETY: see the head of this file.
    let status = unsafe { xmas_elf_dynamic_symbol_versions(input.as_ptr(), input.len(), header, first,
        out.as_mut_ptr(), out.len(), &mut count) };
    result_of(status, count)
}

/// The versions that the file defines (DT_VERDEF) from index `first` on, in their order, each with a status of its
/// own: a record that is cut off is the last one. No section header is needed. Each call reads the records from the
/// first on, so give room for all. It reads each name to its end: where records share one long name, the time is
/// their number times its size. Errors, in the order of the tests: `LinkNoDynamic`, `LinkAddress`, `DataRange`,
/// `NotMultiple`, `NoRecord`. Errors of a record, in the order of the tests: `LinkShortVersion`, `LinkNoEntry`,
/// `LinkAddress`, `DataRange`, `TextStart`, `TextEnd`, `TextUtf8`.
pub(crate) fn version_definitions(input: &[u8], header: &Header, first: u64,
    out: &mut [Version]) -> Result<u64, Error> {
    let mut count = u64::default();
    // SAFETY: see the head of this file.
    let status = unsafe { xmas_elf_version_definitions(input.as_ptr(), input.len(), header, first, out.as_mut_ptr(),
        out.len(), &mut count) };
    result_of(status, count)
}

/// The versions that the file needs of libraries (DT_VERNEED) from index `first` on, in their order, as
/// `version_definitions` gives the others, and at the same cost. Errors, in the order of the tests: `LinkNoDynamic`,
/// `LinkAddress`, `DataRange`, `NotMultiple`, `NoRecord`. Errors of a record, in the order of the tests:
/// `LinkShortVersion`, `LinkVersionCount`, `LinkNoEntry`, `LinkAddress`, `DataRange`, `TextStart`, `TextEnd`,
/// `TextUtf8`.
pub(crate) fn version_needs(input: &[u8], header: &Header, first: u64, out: &mut [Version]) -> Result<u64, Error> {
    let mut count = u64::default();
    // SAFETY: see the head of this file.
    let status = unsafe { xmas_elf_version_needs(input.as_ptr(), input.len(), header, first, out.as_mut_ptr(),
        out.len(), &mut count) };
    result_of(status, count)
}

/// The symbol of the dynamic segment that `dlvsym` finds by a name and a version (DT_VERSYM): the first symbol on the
/// chain of the name whose version has the name `version`; in a file without versions, the first. With `version_size`
/// 0 it is the one that `dlsym` finds: the first with a number below 2, or else the one whose version isn't hidden,
/// if there is exactly one. A symbol counts if it has a value, or is absolute or thread-local, and a type that
/// linkers use: also one that is not defined and has a value. The symbol is found only if other files can use it: its
/// binding is global, weak or unique, and its visibility the default or protected. If no symbol is found, that is no
/// error. Each call counts the symbols of the dynamic segment anew, and goes along the chain of the name; with a
/// version it finds that of each symbol with the name, which is searched for among all definitions and needs if its
/// number is 64 or more. In a file made to be slow the time is symbols times definitions and needs. For many names
/// `look_ups` is faster, which knows no versions. Errors, in the order of the tests: `TextUtf8`, `LinkNoDynamic`,
/// `LinkAddress`, `DataRange`, `NotMultiple`, `LinkNoEntry`, `ShortData`, `LinkShortTable`, `LinkBloomCount`,
/// `LinkChainIndex`, `LinkChainData`, `LinkSymbolIndex`, `HashData`, `ChainIndex`, `SymbolIndex`, `ChainSum`,
/// `HashCycle`, `LinkShortVersion`, `LinkVersionCount`, `TextStart`, `TextEnd`.
pub(crate) fn find_symbol(input: &[u8], header: &Header, name: &[u8], version: &[u8]) -> Result<FoundSymbol, Error> {
    let mut out = FoundSymbol::default();
    // SAFETY: see the head of this file.
    let status = unsafe { xmas_elf_find_symbol(input.as_ptr(), input.len(), header, name.as_ptr(), name.len(),
        version.as_ptr(), version.len(), &mut out) };
    result_of(status, out)
}

/// Looks many names up in a hash table that `hash_open` found, each a range of the bytes `names`: as many as there
/// are ranges, and as `out` has room for. Each result is the first symbol on the chain of the name, defined or not;
/// GNU's table holds the symbols from its first on that are defined and not local. If no symbol is found, that is no
/// error. In a table that does not pass `check_hash`, a look-up may return an error or miss a symbol; it reads no
/// more chain entries than the table has. `DataRange` is for a range that passes the end of `names`. Any table may be
/// given: the call compares its ranges with the input. `symbols` gives a symbol by its index, for the `symbols` of
/// the table. `names` may be another file, and the ranges those of the names of its symbols. A look-up takes time by
/// the chain of its name: in a file made to be slow one chain has all symbols, and the time of a call is names times
/// symbols. Errors of a record, in the order of the tests: `DataRange`, `TextUtf8`, `ShortData`, `LinkShortTable`,
/// `LinkBloomCount`, `NotMultiple`, `HashData`, `ChainIndex`, `SymbolIndex`, `ChainSum`, `HashCycle`,
/// `LinkChainIndex`, `LinkSymbolIndex`, `LinkChainData`.
pub(crate) fn look_ups(input: &[u8], table: &FoundTable, names: &[u8], ranges: &[Range], out: &mut [Answer]) {
    // SAFETY: see the head of this file.
    unsafe { xmas_elf_look_ups(input.as_ptr(), input.len(), table, names.as_ptr(), names.len(), ranges.as_ptr(),
        ranges.len(), out.as_mut_ptr(), out.len()) }
}

/// Finds the hash table that is a section of type SHT_HASH or 0x6ffffff6 (SHT_GNU_HASH), and the symbols of the
/// section that it is linked to, as `symbols_open` finds them: once for many look-ups. Its kind is the type of the
/// section. If the string table of the symbols can't be read, the call is OK, no symbol has a name, and
/// `strings_status` is the reason. Errors, in the order of the tests: `ShortSectionHeader`, `UnknownClass`,
/// `SmallEntry`, `InvalidShType`, `DataRange`, `NotMultiple`, `Note32`, `ShortData`, `LinkShortTable`,
/// `LinkBloomCount`, `OtherData`.
pub(crate) fn hash_open(input: &[u8], header: &Header, section: u64) -> Result<FoundTable, Error> {
    let mut out = FoundTable::default();
    // SAFETY: see the head of this file.
    let status = unsafe { xmas_elf_hash_open(input.as_ptr(), input.len(), header, section, &mut out) };
    result_of(status, out)
}

/// Checks a hash table that `hash_open` found. If it is OK, look-ups return no error for the table, and each finds a
/// symbol if one that is not local has the name; in GNU's table one from its first on that is defined. Call it once
/// before many look-ups. GNU's table takes one pass over the table and one over the symbols and their names: where
/// symbols share one long name, the time is their number times its size. So does a table of the other kind whose
/// buckets share no chain; one that was made to be slow takes a few nanoseconds times the sum of its buckets, chains
/// and symbols times the lesser of chains and symbols. Errors, in the order of the tests: `DataRange`, `ShortData`,
/// `LinkShortTable`, `LinkBloomCount`, `NotMultiple`, `HashData`, `ChainIndex`, `SymbolIndex`, `ChainSum`,
/// `HashCycle`, `LinkChainIndex`, `LinkSymbolIndex`, `LinkChainData`, `HashMissing`, `LinkMissing`.
pub(crate) fn check_hash(input: &[u8], table: &FoundTable) -> Result<(), Error> {
    // SAFETY: see the head of this file.
    let status = unsafe { xmas_elf_check_hash(input.as_ptr(), input.len(), table) };
    result_of(status, ())
}

/// Builds an index of symbols by their addresses, for many questions of `symbols_at`. Without words (`words_count` 0)
/// it only finds how many words and numbers the index takes: `words` and `numbers` of the record; then call it again
/// with as many. They stay the caller's, who keeps them for the questions. `table` is a record of `symbols_open` or
/// `dynamic_symbols_open`; `indices` is the range of the section of type SHT_SYMTAB_SHNDX that is linked to the
/// symbols' section, of size 0 where there is none; `within` is the index of a section whose symbols alone are asked
/// for, as in an object file, where values are offsets in sections, and else 0. A symbol names addresses if it is in
/// a section, has no type or is a function or an object, and has a name; labels that assemblers make and mapping
/// symbols don't. It reads all symbols of the table, with `within` those of other sections too, and takes time n log
/// n for the n that are in the index. `words` and `numbers` are changed in no call that is not OK. Errors, in the
/// order of the tests: `DataRange`, `NotMultiple`, `IndexManySymbols`, `IndexFewWords`.
pub(crate) fn address_index(input: &[u8], header: &Header, table: &SymbolTable, indices: &Range, within: u32,
    words: &mut [u32], numbers: &mut [u64]) -> Result<AddressIndex, Error> {
    let mut out = AddressIndex::default();
    // SAFETY: see the head of this file.
    let status = unsafe { xmas_elf_address_index(input.as_ptr(), input.len(), header, table, indices, within,
        words.as_mut_ptr(), words.len(), numbers.as_mut_ptr(), numbers.len(), &mut out) };
    result_of(status, out)
}

/// The symbols of many addresses by an index, as many as there are addresses and as `out` has room for. A symbol
/// covers `size` addresses from its `value` on, and with size 0 its value alone. Of several that cover an address,
/// one with a size comes first, then the one that begins last, the smallest, a function before an object, a global
/// one before a weak one before a local one, and the first of the table. If no symbol covers an address, that is no
/// error. The time of a question grows with the square of log n for n symbols. With other words or numbers than those
/// of `address_index` it may grow with n, a symbol may be missed, and one that is found covers the address, but may
/// be one that names none. Errors, in the order of the tests: `DataRange`, `NotMultiple`.
pub(crate) fn symbols_at(input: &[u8], index: &AddressIndex, words: &[u32], numbers: &[u64], addresses: &[u64],
    out: &mut [FoundAt]) -> Result<(), Error> {
    // SAFETY: see the head of this file.
    let status = unsafe { xmas_elf_symbols_at(input.as_ptr(), input.len(), index, words.as_ptr(), words.len(),
        numbers.as_ptr(), numbers.len(), addresses.as_ptr(), addresses.len(), out.as_mut_ptr(), out.len()) };
    result_of(status, ())
}

/// The pieces of a file from index `first` on, in the order of their offsets, as many as `out` has room for: which
/// bytes belong to what. Every byte of the file is in exactly one piece, and the sizes of all pieces sum to the size
/// of the file. Of the parts that cover a byte it belongs to the first of these kinds: the ELF header, the program
/// header table, the section header table, sections (but those of type SHT_NULL and SHT_NOBITS), segments (but those
/// of type PT_NULL and PT_GNU_RELRO); of several of a kind to the one that begins last, then the smallest, then the
/// first of the table. Without words (`words_count` 0) it only finds how many words and numbers it takes: `words` and
/// `numbers` of `sizes`. Call it again with as many, and then with room for `count` pieces. Each call builds an index
/// in them, in time n log n for n sections and segments, so give room for all. They may hold anything before and
/// after. Errors: `IndexFewWords`.
pub(crate) fn pieces(input: &[u8], header: &Header, first: u64, words: &mut [u32], numbers: &mut [u64],
    out: &mut [Piece]) -> Result<PieceSizes, Error> {
    let mut sizes = PieceSizes::default();
    // SAFETY: see the head of this file.
    let status = unsafe { xmas_elf_pieces(input.as_ptr(), input.len(), header, first, words.as_mut_ptr(), words.len(),
        numbers.as_mut_ptr(), numbers.len(), out.as_mut_ptr(), out.len(), &mut sizes) };
    result_of(status, sizes)
}

/// The pieces of addresses `begin .. end` by symbols, from index `first` on, as many as `out` has room for; `count`
/// is the number of all. Every address is in exactly one piece: that of the symbol with a size that `symbols_at`
/// finds for it, or that of no symbol. `index` is a record of `address_index`, which may be called without words for
/// it, with the index of a section as `within`, and `begin` and `end` are the addresses of its first byte and after
/// its last one; in an object file, 0 and its size. The call takes `words` and `numbers` of the record, and builds
/// the index in them anew: they may hold anything before and after. Each call reads all symbols of the table: a call
/// for each section of a file takes time by sections times symbols. In a copy of the table that is sorted by section
/// it takes time by the symbols of the section alone; the page c/README.md has the code. Errors, in the order of the
/// tests: `DataRange`, `NotMultiple`, `IndexManySymbols`, `IndexFewWords`.
pub(crate) fn symbol_pieces(input: &[u8], index: &AddressIndex, begin: u64, end: u64, first: u64, words: &mut [u32],
    numbers: &mut [u64], out: &mut [Piece]) -> Result<u64, Error> {
    let mut count = u64::default();
    // SAFETY: see the head of this file.
    let status = unsafe { xmas_elf_symbol_pieces(input.as_ptr(), input.len(), index, begin, end, first,
        words.as_mut_ptr(), words.len(), numbers.as_mut_ptr(), numbers.len(), out.as_mut_ptr(), out.len(), &mut count)
        };
    result_of(status, count)
}

/// The differences of the parts of two files, the greatest first, such as those of the sections or of the symbols of
/// two builds. The parts are the caller's: what `pieces` and `symbol_pieces` say of each file, summed by owner, with
/// names and kinds. Each part is in exactly one row, one of an equal size too; parts are matched by kind and name,
/// the n-th of a name with the n-th. The differences of the sizes sum to the difference of the sums. The call sorts
/// both lists by kind, name and place, and writes the rows to the front of `changes`, which has room for as many as
/// both lists have parts; `count` is their number. Without that room nothing is changed. It takes n log n comparisons
/// for n parts, each with as many bytes as two names have in common. No two of the three arrays share a byte. Errors:
/// `IndexFewWords`.
pub(crate) fn size_changes(olds: &mut [SizePart<'_>], news: &mut [SizePart<'_>],
    changes: &mut [SizeChange]) -> Result<u64, Error> {
    let mut count = u64::default();
    // SAFETY: see the head of this file.
    let status = unsafe { xmas_elf_size_changes(olds.as_mut_ptr(), olds.len(), news.as_mut_ptr(), news.len(),
        changes.as_mut_ptr(), changes.len(), &mut count) };
    result_of(status, count)
}

/// The path at an index at which the separate debug file of the file at `path` may be, in the order in which gdb
/// tries them: by the build id in `directory`, such as /usr/lib/debug, then by the name in the section
/// .gnu_debuglink: in the folder of the file, in `.debug` there, and, if `path` begins with a slash, in the same
/// folder under `directory`. Ask from index 0 on; `NoRecord` means that there are no more. It writes the bytes of the
/// path to the front of `text`, as many as fit, without a zero byte at the end, and the number of all to `size` of
/// `out`. A candidate that is there passes `check_debug`, or is another file's. A build id or a link that can't be
/// read gives no path. Each call searches the sections of the file anew, and without the section .note.gnu.build-id
/// the notes of all segments: in a file made to be slow the time is segments times notes. Errors: `NoRecord`.
pub(crate) fn debug_path(input: &[u8], header: &Header, path: &[u8], directory: &[u8], index: u64,
    text: &mut [u8]) -> Result<DebugCandidate, Error> {
    let mut out = DebugCandidate::default();
    // SAFETY: see the head of this file.
    let status = unsafe { xmas_elf_debug_path(input.as_ptr(), input.len(), header, path.as_ptr(), path.len(),
        directory.as_ptr(), directory.len(), index, text.as_mut_ptr(), text.len(), &mut out) };
    result_of(status, out)
}

/// Whether `debug`, whose header `open` read, is the debug file of the file. `how` is that of the path where it was
/// found: one found by the build id (0) has the same build id; any other has the CRC that the link says, of all its
/// bytes. Without the section .note.gnu.build-id the notes of all segments are read: in a file made to be slow the
/// time is segments times notes. Errors, in the order of the tests: `NoBuildId`, `OtherBuildId`, `OtherChecksum`.
pub(crate) fn check_debug(input: &[u8], header: &Header, how: u32, debug: &[u8],
    debug_header: &Header) -> Result<(), Error> {
    // SAFETY: see the head of this file.
    let status = unsafe { xmas_elf_check_debug(input.as_ptr(), input.len(), header, how, debug.as_ptr(), debug.len(),
        debug_header) };
    result_of(status, ())
}

/// The CRC of the bytes of a debug file as .gnu_debuglink has it: CRC-32 with polynomial 0x04C11DB7, that of zlib. It
/// is always OK.
pub(crate) fn debug_crc(bytes: &[u8]) -> Result<u32, Error> {
    let mut out = u32::default();
    // SAFETY: see the head of this file.
    let status = unsafe { xmas_elf_debug_crc(bytes.as_ptr(), bytes.len(), &mut out) };
    result_of(status, out)
}

/// What Linux and glibc put into memory for a file, or why there is no plan. Some files that they load have none:
/// `check_load` says which they load. `page` is the size of a page, a power of two; 0 means 4096. `limit` is the end
/// of the addresses that a loader may use; 0 means that of Linux: 0xffffe000 for a file of class 32, 0x1000000000000
/// for one of class 64 for AArch64, and else 0x7ffffffff000, that of x86-64. The load segments are those of type
/// PT_LOAD. Errors, in the order of the tests: `LoadType`, `LoadEntrySize`, `LoadCount`, `LoadTable`, `LoadFileSize`,
/// `LoadEmpty`, `LoadMisaligned`, `LoadAlignment`, `LoadRange`, `LoadData`, `LoadOverlap`, `LoadZeros`, `LoadNoLoad`,
/// `LoadHeaders`, `LoadInterpreter`, `LoadRelro`, `LoadTls`, `LoadEntry`.
pub(crate) fn load_plan(input: &[u8], header: &Header, page: u64, limit: u64) -> Result<Plan, Error> {
    let mut out = Plan::default();
    // SAFETY: see the head of this file.
    let status = unsafe { xmas_elf_load_plan(input.as_ptr(), input.len(), header, page, limit, &mut out) };
    result_of(status, out)
}

/// What a loader maps for a file before relocation, from index `first` on, in the order of addresses: no mapping is
/// empty or overlaps another, and all lie in the span of `load_plan`, whose `page` and `limit` they are. `loader` is
/// 1 for glibc, which maps libraries; any other number for Linux, which maps a program and its interpreter. glibc
/// maps the pages between load segments, too, without access. Each call reads the program headers anew, so give room
/// for all. Errors, in the order of the tests: `LoadType`, `LoadEntrySize`, `LoadCount`, `LoadTable`, `LoadFileSize`,
/// `LoadEmpty`, `LoadMisaligned`, `LoadAlignment`, `LoadRange`, `LoadData`, `LoadOverlap`, `LoadZeros`, `LoadNoLoad`,
/// `LoadHeaders`, `LoadInterpreter`, `LoadRelro`, `LoadTls`, `LoadEntry`, `NoRecord`.
pub(crate) fn load_mappings(input: &[u8], header: &Header, page: u64, limit: u64, loader: u32, first: u64,
    out: &mut [Mapping]) -> Result<u64, Error> {
    let mut count = u64::default();
    // SAFETY: see the head of this file.
    let status = unsafe { xmas_elf_load_mappings(input.as_ptr(), input.len(), header, page, limit, loader, first,
        out.as_mut_ptr(), out.len(), &mut count) };
    result_of(status, count)
}

/// Writes the bytes of a file to `image`, as a loader maps them before relocation: byte `i` is that at the start of
/// the span of `load_plan` plus `i`, and 0 where nothing is mapped. The size of `image` is that of the span. `page`,
/// `limit` and `loader` are those of `load_mappings`. `image` is changed in no call that is not OK. Errors, in the
/// order of the tests: `LoadType`, `LoadEntrySize`, `LoadCount`, `LoadTable`, `LoadFileSize`, `LoadEmpty`,
/// `LoadMisaligned`, `LoadAlignment`, `LoadRange`, `LoadData`, `LoadOverlap`, `LoadZeros`, `LoadNoLoad`,
/// `LoadHeaders`, `LoadInterpreter`, `LoadRelro`, `LoadTls`, `LoadEntry`, `LoadImageSize`.
pub(crate) fn load_image(input: &[u8], header: &Header, page: u64, limit: u64, loader: u32,
    image: &mut [u8]) -> Result<(), Error> {
    // SAFETY: see the head of this file.
    let status = unsafe { xmas_elf_load_image(input.as_ptr(), input.len(), header, page, limit, loader,
        image.as_mut_ptr(), image.len()) };
    result_of(status, ())
}

/// Whether the words of the object at index `of` can be written before the program runs: the tables of its dynamic
/// segment can be read, and each word that its relocations write is in the memory of one load segment, which is
/// writable unless the file asks for writes elsewhere (DT_TEXTREL), and has no byte in common with one of these
/// tables or with another word. Of the objects only the files are read. `page` and `limit` are those of `load_plan`,
/// which each file must pass. `marks` has at least a bit for each byte of the span of the object's plan: its size in
/// bytes, divided by 8, and one more. What it holds before and after has no meaning. If a call is not OK, `failed` is
/// the index of the object with the error: that of the first file that can't be read or has no plan, else `of`. It is
/// unchanged where none has it: with no object or none at `of` (`LinkObjectIndex`), with more than 64
/// (`ManyObjects`), and where `marks` is too short (`LoadFewMarks`). `relocation` is the index of the relocation of
/// this object that has the error, in the order in which words are written (the packed ones of DT_RELR, then those of
/// DT_RELA, of DT_REL and of DT_JMPREL, of which those that also end DT_RELA or DT_REL count once), and unchanged
/// where the error comes before those of words, as `LoadSlotType`. A call takes up to 64 objects; for more it returns
/// `ManyObjects`. It reads all files before it tests `of`, so `LinkObjectIndex` comes before errors of the files only
/// where there is no object. A relocation that names a symbol takes a look-up in each file up to the one that has it,
/// as `find_symbol` does after its count, and each word a pass over program headers: in files made to be slow the
/// time is relocations times what these take. Errors, in the order of the tests: `LinkObjectIndex`, `ManyObjects`,
/// `ShortPart1`, `NoMagic`, `InvalidClass`, `ShortHeaders`, `LinkNoDynamic`, `LinkAddress`, `DataRange`,
/// `NotMultiple`, `LinkNoEntry`, `ShortData`, `LinkShortTable`, `LinkBloomCount`, `LinkChainIndex`, `LinkChainData`,
/// `LinkSymbolIndex`, `LinkUnknownClass`, `LinkNotMultiple`, `LinkRelocationKind`, `SymbolIndex`, `HashData`,
/// `ChainIndex`, `ChainSum`, `HashCycle`, `LinkShortVersion`, `LinkVersionCount`, `TextStart`, `TextEnd`, `TextUtf8`,
/// `LoadType`, `LoadEntrySize`, `LoadCount`, `LoadTable`, `LoadFileSize`, `LoadEmpty`, `LoadMisaligned`,
/// `LoadAlignment`, `LoadRange`, `LoadData`, `LoadOverlap`, `LoadZeros`, `LoadNoLoad`, `LoadHeaders`,
/// `LoadInterpreter`, `LoadRelro`, `LoadTls`, `LoadEntry`, `LoadDynamic`, `LoadNoEntry`, `LoadNoAddends`,
/// `LoadAddends`, `LoadNoSlots`, `LoadRelocationSize`, `LoadNotMultiple`, `LoadUnreadable`, `LoadFirstPacked`,
/// `LoadSlotKind`, `LoadMachine`, `LoadRelativeCount`, `LoadSlotType`, `LoadFewMarks`, `LoadWordType`, `LoadNoSize`,
/// `LoadCopyKind`, `LoadCallSymbol`, `LoadWordAddress`, `LoadReadOnly`, `LoadWordsOverlap`, `LoadWordInTable`.
pub(crate) fn check_image(objects: &[LoadObject<'_>], of: u64, page: u64, limit: u64, marks: &mut [u8],
    failed: &mut u64, relocation: &mut u64) -> Result<(), Error> {
    // SAFETY: see the head of this file.
    let status = unsafe { xmas_elf_check_image(objects.as_ptr(), objects.len(), of, page, limit, marks.as_mut_ptr(),
        marks.len(), failed, relocation) };
    result_of(status, ())
}

/// Writes the words of the object at index `of` to `image`, which holds what `load_image` writes. `page` and `limit`
/// are those of `load_plan`, which each file must pass. `count` is the number of words without a number, whose bytes
/// stay as they are: what a function returns (the resolver of a symbol of type STT_GNU_IFUNC), and descriptors of
/// thread-local storage. The caller must write these. `lazy` is 1 where jump slots get their symbols when a function
/// is called first, and any other number where they get them now. Relocate an object whose bytes are copied
/// (R_X86_64_COPY) before the one that they are copied to, and give it its image then; `image` shares no byte with
/// the images of objects. If `check_image` is OK for the object, each byte is that of the one word over it, else that
/// of the file. If a call is not OK, the words before the first that can't be written are written, and `failed` is
/// the index of the object with the error: that of the first file that can't be read or has no plan, else `of`. It is
/// unchanged where none has it: with no object or none at `of` (`LinkObjectIndex`), with more than 64
/// (`ManyObjects`), and where `image` is not of the size of the span (`LoadImageSize`). `relocation` is the index of
/// the relocation of this object that has the error, in the order in which words are written (the packed ones of
/// DT_RELR, then those of DT_RELA, of DT_REL and of DT_JMPREL, of which those that also end DT_RELA or DT_REL count
/// once), and unchanged where the error comes before those of words, as `LoadSlotType`. A call takes up to 64
/// objects; for more it returns `ManyObjects`. It reads all files before it tests `of`, so `LinkObjectIndex` comes
/// before errors of the files only where there is no object. A relocation that names a symbol takes a look-up in each
/// file up to the one that has it, as `find_symbol` does after its count, and each word a pass over program headers;
/// with `lazy` 1 a jump slot takes passes over the dynamic entries too: in files made to be slow the time is
/// relocations times what these take. It needs about 200 KiB of stack. Errors, in the order of the tests:
/// `LinkObjectIndex`, `ManyObjects`, `ShortPart1`, `NoMagic`, `InvalidClass`, `ShortHeaders`, `LinkNoDynamic`,
/// `LinkAddress`, `DataRange`, `NotMultiple`, `LinkNoEntry`, `ShortData`, `LinkShortTable`, `LinkBloomCount`,
/// `LinkChainIndex`, `LinkChainData`, `LinkSymbolIndex`, `LinkUnknownClass`, `LinkNotMultiple`, `LinkRelocationKind`,
/// `SymbolIndex`, `HashData`, `ChainIndex`, `ChainSum`, `HashCycle`, `LinkShortVersion`, `LinkVersionCount`,
/// `TextStart`, `TextEnd`, `TextUtf8`, `LoadType`, `LoadEntrySize`, `LoadCount`, `LoadTable`, `LoadFileSize`,
/// `LoadEmpty`, `LoadMisaligned`, `LoadAlignment`, `LoadRange`, `LoadData`, `LoadOverlap`, `LoadZeros`, `LoadNoLoad`,
/// `LoadHeaders`, `LoadInterpreter`, `LoadRelro`, `LoadTls`, `LoadEntry`, `LoadImageSize`, `LoadWordType`,
/// `LoadNoSize`, `LoadCopyKind`, `LoadCallSymbol`, `LoadUnresolved`, `LoadWordAddress`, `LoadCopySource`.
pub(crate) fn relocate(objects: &[LoadObject<'_>], of: u64, lazy: u32, page: u64, limit: u64, image: &mut [u8],
    failed: &mut u64, relocation: &mut u64) -> Result<u64, Error> {
    let mut count = u64::default();
    // SAFETY: see the head of this file.
    let status = unsafe { xmas_elf_relocate(objects.as_ptr(), objects.len(), of, lazy, page, limit,
        image.as_mut_ptr(), image.len(), &mut count, failed, relocation) };
    result_of(status, count)
}

/// Writes the words of all objects to their images, those of the last object first, as the dynamic linker does. Each
/// file is read once, so it takes less time than a call of `relocate` for each object. `images` are what `load_image`
/// writes for each object, one image after another in the order of the objects: its size is the sum of those of all
/// spans. Bytes are copied (R_X86_64_COPY) from the images of the objects after the own one; `image` of an object is
/// not read. `lazy`, `page` and `limit` are those of `relocate`. `left` is the number of words without a number of
/// all objects. If `check_image` is OK for an object, each byte of its image is then that of the one word over it,
/// else that of the file. If a call is not OK, `failed` is the index of the object with the error; it is unchanged
/// where none has it: with no object (`LinkObjectIndex`), with more than 64 (`ManyObjects`), and where `images` is
/// not of the size of all images (`LoadImageSize`). `relocation` is the index of the relocation of this object that
/// has the error, in the order in which words are written (the packed ones of DT_RELR, then those of DT_RELA, of
/// DT_REL and of DT_JMPREL, of which those that also end DT_RELA or DT_REL count once), and unchanged where the error
/// comes before those of words, as `LoadSlotType`. Of errors of words the last object with one counts: then the
/// objects after it are relocated, and its words before the first that can't be written are written. Otherwise
/// `images` is unchanged. A relocation that names a symbol takes a look-up in each file up to the one that has it, as
/// `find_symbol` does after its count, and each word a pass over program headers; with `lazy` 1 a jump slot takes
/// passes over the dynamic entries too: in files made to be slow the time is relocations times what these take. It
/// needs about 200 KiB of stack. Errors, in the order of the tests: `LinkObjectIndex`, `ManyObjects`, `ShortPart1`,
/// `NoMagic`, `InvalidClass`, `ShortHeaders`, `LinkNoDynamic`, `LinkAddress`, `DataRange`, `NotMultiple`,
/// `LinkNoEntry`, `ShortData`, `LinkShortTable`, `LinkBloomCount`, `LinkChainIndex`, `LinkChainData`,
/// `LinkSymbolIndex`, `LinkUnknownClass`, `LinkNotMultiple`, `LinkRelocationKind`, `SymbolIndex`, `HashData`,
/// `ChainIndex`, `ChainSum`, `HashCycle`, `LinkShortVersion`, `LinkVersionCount`, `TextStart`, `TextEnd`, `TextUtf8`,
/// `LoadType`, `LoadEntrySize`, `LoadCount`, `LoadTable`, `LoadFileSize`, `LoadEmpty`, `LoadMisaligned`,
/// `LoadAlignment`, `LoadRange`, `LoadData`, `LoadOverlap`, `LoadZeros`, `LoadNoLoad`, `LoadHeaders`,
/// `LoadInterpreter`, `LoadRelro`, `LoadTls`, `LoadEntry`, `LoadImageSize`, `LoadWordType`, `LoadNoSize`,
/// `LoadCopyKind`, `LoadCallSymbol`, `LoadUnresolved`, `LoadWordAddress`, `LoadCopySource`.
pub(crate) fn relocate_all(objects: &[LoadObject<'_>], lazy: u32, page: u64, limit: u64, images: &mut [u8],
    failed: &mut u64, relocation: &mut u64) -> Result<u64, Error> {
    let mut left = u64::default();
    // SAFETY: see the head of this file.
    let status = unsafe { xmas_elf_relocate_all(objects.as_ptr(), objects.len(), lazy, page, limit,
        images.as_mut_ptr(), images.len(), &mut left, failed, relocation) };
    result_of(status, left)
}

/// Writes the text of a status to the front of `out`, as much as fits, and returns the size of the whole text in
/// bytes. The text is ASCII without a zero byte at its end. A status that is no error, such as 0, has an empty text.
pub(crate) fn message(status: u32, out: &mut [u8]) -> usize {
    // SAFETY: see the head of this file.
    unsafe { xmas_elf_message(status, out.as_mut_ptr(), out.len()) }
}

/// The names of the libraries that a file asks for (DT_NEEDED, DT_AUXILIARY, DT_FILTER) from index `first` on, in the
/// order of their entries. `expand` replaces their tokens. No section header is needed. Each call reads the entries
/// from the first on, so give room for all, and each name to its end: where entries share one long name, the time is
/// their number times its size. Errors, in the order of the tests: `LinkNoDynamic`, `LinkAddress`, `DataRange`,
/// `NotMultiple`, `NoRecord`. Errors of a record, in the order of the tests: `LinkNoEntry`, `LinkAddress`,
/// `DataRange`, `TextStart`, `TextEnd`, `TextUtf8`.
pub(crate) fn needed_names(input: &[u8], header: &Header, first: u64, out: &mut [NeededName]) -> Result<u64, Error> {
    let mut count = u64::default();
    // SAFETY: see the head of this file.
    let status = unsafe { xmas_elf_needed_names(input.as_ptr(), input.len(), header, first, out.as_mut_ptr(),
        out.len(), &mut count) };
    result_of(status, count)
}

/// The value of the last dynamic entry with a tag, which is the one that the loader of glibc reads of DT_SONAME (14),
/// DT_RPATH (15), DT_RUNPATH (29) and DT_FLAGS_1 (0x6ffffffb). No section header is needed. Errors, in the order of
/// the tests: `LinkNoDynamic`, `LinkAddress`, `DataRange`, `NotMultiple`, `NotFound`.
pub(crate) fn last_entry(input: &[u8], header: &Header, tag: u64) -> Result<u64, Error> {
    let mut out = u64::default();
    // SAFETY: see the head of this file.
    let status = unsafe { xmas_elf_last_entry(input.as_ptr(), input.len(), header, tag, &mut out) };
    result_of(status, out)
}

/// The range of the text that the entry of `last_entry` names. Errors, in the order of the tests: `LinkNoDynamic`,
/// `LinkAddress`, `DataRange`, `NotMultiple`, `NotFound`, `LinkNoEntry`, `TextStart`, `TextEnd`, `TextUtf8`.
pub(crate) fn last_text(input: &[u8], header: &Header, tag: u64) -> Result<Range, Error> {
    let mut out = Range::default();
    // SAFETY: see the head of this file.
    let status = unsafe { xmas_elf_last_text(input.as_ptr(), input.len(), header, tag, &mut out) };
    result_of(status, out)
}

/// Whether an opened file is the library that a program of a class (1 or 2) and a machine (e_machine) looks for: 1 it
/// is taken, 0 it is passed over, and the next path is tried. With an error the loader of glibc ends the program.
/// `head` are the first 64 bytes of the file or more, or all that it has, and `len` is its size. Of a folder, which
/// opens and can't be read, the caller takes `SearchFileData` itself. Errors, in the order of the tests:
/// `SearchShortFile`, `SearchMagic`, `SearchByteOrder`, `SearchIdentVersion`, `SearchOsAbi`, `SearchAbiVersion`,
/// `SearchPadding`, `SearchVersion`, `SearchType`, `SearchEntrySize`, `SearchFileData`.
pub(crate) fn fits(head: &[u8], len: u64, file_class: u8, machine: u16) -> Result<u32, Error> {
    let mut out = u32::default();
    // SAFETY: see the head of this file.
    let status = unsafe { xmas_elf_fits(head.as_ptr(), head.len(), len, file_class, machine, &mut out) };
    result_of(status, out)
}

/// Whether a file that `fits` took has what a library must have, and is no executable. What a loader asks of its
/// segments is tested by `check_load`. Errors, in the order of the tests: `SearchNoLoad`, `SearchExecutable`,
/// `SearchNoDynamic`, `LinkNoDynamic`, `LinkAddress`, `DataRange`, `NotMultiple`, `SearchSharedExecutable`.
pub(crate) fn check_library(input: &[u8], header: &Header) -> Result<(), Error> {
    // SAFETY: see the head of this file.
    let status = unsafe { xmas_elf_check_library(input.as_ptr(), input.len(), header) };
    result_of(status, ())
}

/// Whether one loader maps a file. `loader` is 1 for glibc, which maps libraries; any other number for Linux, which
/// maps a program. `page` and `limit` are those of `load_plan`, whose list of errors is another: some files that load
/// have no plan. Errors, in the order of the tests: `LoadByteOrder`, `LoadIdentVersion`, `LoadOsAbi`,
/// `LoadAbiVersion`, `LoadPadding`, `LoadVersion`, `LoadType`, `LoadEntrySize`, `LoadCount`, `LoadTable`,
/// `LoadMisaligned`, `LoadNoLoad`, `LoadExecutable`, `LoadRange`, `LoadData`, `LoadOverlap`, `LoadFileSize`,
/// `LoadInterpreter`, `LoadEmpty`, `LoadEntry`, `LoadNoDynamic`, `LoadRelro`, `LoadTls`.
pub(crate) fn check_load(input: &[u8], header: &Header, page: u64, limit: u64, loader: u32) -> Result<(), Error> {
    // SAFETY: see the head of this file.
    let status = unsafe { xmas_elf_check_load(input.as_ptr(), input.len(), header, page, limit, loader) };
    result_of(status, ())
}

/// The bytes of a text with its dynamic string tokens replaced by their values, from byte `first` on.
/// `SearchEmptyToken` if a value is not known: an element of a list then drops out, and an object whose needed name
/// has it is not loaded. Each call goes over the bytes from the first on, so give room for all: they may be as many
/// as the tokens of the text times the size of a value. Errors, in the order of the tests: `SearchEmptyToken`,
/// `NoRecord`.
pub(crate) fn expand(text: &[u8], tokens: &Tokens<'_>, first: u64, out: &mut [u8]) -> Result<u64, Error> {
    let mut count = u64::default();
    // SAFETY: see the head of this file.
    let status = unsafe { xmas_elf_expand(text.as_ptr(), text.len(), tokens, first, out.as_mut_ptr(), out.len(), &mut
        count) };
    result_of(status, count)
}

/// The paths at which a library is looked for, in order, from index `first` on; `candidate_paths` has their texts.
/// The first of `askers` is the object that asks; each is followed by the object that had it loaded, and the last is
/// the program. Those after the first that have no DT_RPATH may be left out. The first file that `fits` takes ends
/// the search; one that can't be opened is passed over. Where, with `subdirectory_size` 0 and a folder that is there,
/// opening fails otherwise than since there is no such file or for want of permission, go on with the next candidate
/// that has another `how` or `asker`. Each call goes through the candidates from the first on, and the cost of a list
/// grows with the square of its length. Errors, in the order of the tests: `ManyObjects`, `NoRecord`.
pub(crate) fn candidates(search: &SearchFor<'_>, askers: &[SearchAsker<'_>], first: u64,
    out: &mut [CandidatePath]) -> Result<u64, Error> {
    let mut count = u64::default();
    // SAFETY: see the head of this file.
    let status = unsafe { xmas_elf_candidates(search, askers.as_ptr(), askers.len(), first, out.as_mut_ptr(),
        out.len(), &mut count) };
    result_of(status, count)
}

/// The paths of `candidates`, one after another, each with a zero byte after it, from byte `first` of all of them on.
/// Costs are those of that call, so give much room. Errors, in the order of the tests: `ManyObjects`, `NoRecord`.
pub(crate) fn candidate_paths(search: &SearchFor<'_>, askers: &[SearchAsker<'_>], first: u64,
    out: &mut [u8]) -> Result<u64, Error> {
    let mut count = u64::default();
    // SAFETY: see the head of this file.
    let status = unsafe { xmas_elf_candidate_paths(search, askers.as_ptr(), askers.len(), first, out.as_mut_ptr(),
        out.len(), &mut count) };
    result_of(status, count)
}

/// The path that a machine gets for a name from the cache of these bytes (/etc/ld.so.cache), from its byte `first`
/// on. Any bytes may be given. The loader of glibc goes on without a cache where it can't be read. Each call searches
/// anew, so give room for the whole path. It compares `name` with the keys of a binary search and of the entries
/// around it with an equal key, and reads a key of zeros to its end: in a cache made to be slow the time is entries
/// times the size of a key. Errors, in the order of the tests: `SearchNotACache`, `SearchCacheCount`,
/// `SearchCacheOrder`, `NotFound`, `NoRecord`.
pub(crate) fn cache_path(cache: &[u8], name: &[u8], machine: &CacheMachine<'_>, first: u64,
    out: &mut [u8]) -> Result<u64, Error> {
    let mut count = u64::default();
    // SAFETY: see the head of this file.
    let status = unsafe { xmas_elf_cache_path(cache.as_ptr(), cache.len(), name.as_ptr(), name.len(), machine, first,
        out.as_mut_ptr(), out.len(), &mut count) };
    result_of(status, count)
}

/// The entry whose name is to be looked for next, by what the entries of all objects found so far. Objects have
/// numbers in the order in which they are loaded, from 0, the program: where an entry finds a new one, it gets the
/// next number, and is put at the end of `dependencies`. Without entries of kinds 2 and 3 it is the first of the
/// first object that was not asked for, so the entries of an object can be asked for one after another; `words` and
/// `edges` are not used then, and else have 4 words for each object and one for each entry. `NoRecord` if all were
/// asked for. Each call goes through all entries, so a call for each of them takes time by the square of their
/// number. Errors, in the order of the tests: `NoRecord`, `SearchNoObject`, `SearchFewWords`.
pub(crate) fn next_entry(dependencies: &[Dependencies<'_>], words: &mut [u32],
    edges: &mut [u32]) -> Result<ObjectEntry, Error> {
    let mut out = ObjectEntry::default();
    // SAFETY: see the head of this file.
    let status = unsafe { xmas_elf_next_entry(dependencies.as_ptr(), dependencies.len(), words.as_mut_ptr(),
        words.len(), edges.as_mut_ptr(), edges.len(), &mut out) };
    result_of(status, out)
}

/// The order in which the initialisers of libraries run, by what the entries of all objects found: the numbers of the
/// objects but the program, which starts last, at the front of `starts`, and how many they are in `count`. Of the
/// objects with the flag 0x20 (DF_1_INITFIRST) the one with the greatest number starts before all; the call doesn't
/// move it. `list` gets the numbers of all objects in the order in which symbols are looked up. Give 4 `words` and 3
/// `starts` for each object, an edge for each entry, and a word of `list` for each object; what else they hold after
/// has no meaning. `SearchNoObject` if an entry was not asked for, or the numbers are not those of `next_entry`.
/// Errors, in the order of the tests: `SearchFewWords`, `SearchNoObject`.
pub(crate) fn start_order(dependencies: &[Dependencies<'_>], words: &mut [u32], edges: &mut [u32], list: &mut [u32],
    starts: &mut [u32]) -> Result<u64, Error> {
    let mut count = u64::default();
    // SAFETY: see the head of this file.
    let status = unsafe { xmas_elf_start_order(dependencies.as_ptr(), dependencies.len(), words.as_mut_ptr(),
        words.len(), edges.as_mut_ptr(), edges.len(), list.as_mut_ptr(), list.len(), starts.as_mut_ptr(),
        starts.len(), &mut count) };
    result_of(status, count)
}

/// The versions that a file needs of the object that its needs call `name`, and that this object lacks, from index
/// `first` on, in the order of the needs. `provider` are the bytes of the object, and `provider_header` is its
/// header. A need of another name has the status `SearchNoProvider`. Each call reads the needs from the first on, and
/// goes through the definitions of the object for each: the time is needs times definitions. It reads the names of
/// definitions with an equal hash number, and those of needs, to their end. Errors, in the order of the tests:
/// `LinkNoDynamic`, `LinkAddress`, `DataRange`, `NotMultiple`, `NoRecord`. Errors of a record, in the order of the
/// tests: `SearchNoProvider`, `LinkShortVersion`, `LinkVersionCount`, `LinkNoEntry`, `LinkAddress`, `DataRange`,
/// `TextStart`, `TextEnd`, `TextUtf8`.
pub(crate) fn missing_versions(input: &[u8], header: &Header, name: &[u8], provider: &[u8], provider_header: &Header,
    first: u64, out: &mut [LackedVersion]) -> Result<u64, Error> {
    let mut count = u64::default();
    // SAFETY: see the head of this file.
    let status = unsafe { xmas_elf_missing_versions(input.as_ptr(), input.len(), header, name.as_ptr(), name.len(),
        provider.as_ptr(), provider.len(), provider_header, first, out.as_mut_ptr(), out.len(), &mut count) };
    result_of(status, count)
}
