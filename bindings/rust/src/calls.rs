//! A call of each export, for the tests. Written by tools/exports/declarations.py.

use crate::records::*;
use crate::{ffi, Error};

// What the calls are asked with.
pub(crate) struct Asked<'a> {
    pub(crate) input: &'a [u8],
    pub(crate) header: Header,
    pub(crate) part: Range,
    pub(crate) table: SymbolTable,
    pub(crate) hash: FoundTable,
    pub(crate) addresses: AddressIndex,
    pub(crate) name: &'a [u8],
    pub(crate) section: u64,
    pub(crate) index: u64,
}

// Hands on the name of each call, its result, and the errors that it may return.
pub(crate) fn every(asked: &Asked<'_>, mut heard: impl FnMut(&str, Result<(), Error>, &[Error])) {
    let (input, header, part, table) = (asked.input, &asked.header, &asked.part, &asked.table);
    let (hash, name, ranges) = (&asked.hash, asked.name, &[asked.part]);
    let (address_index, numbers) = (&asked.addresses, &[asked.index, asked.section]);
    let objects = &[LoadObject { file: input.into(), ..LoadObject::default() }];
    let tokens = Tokens::new(name, name, name);
    let search = SearchFor::new(name, tokens, name);
    let result = ffi::open(input).map(|_| ());
    heard("open", result, &[Error::ShortPart1, Error::NoMagic, Error::InvalidClass, Error::ShortHeaders]);
    let result = ffi::check_header(input, header).map(|_| ());
    heard("check_header", result, &[Error::HeaderSize, Error::NoClass, Error::ClassMismatch, Error::NoVersion, Error::NoDataFormat, Error::PhTableRange, Error::ShTableRange]);
    let result = ffi::counts(input, header).map(|_| ());
    heard("counts", result, &[]);
    let result = ffi::names_index(input, header).map(|_| ());
    heard("names_index", result, &[Error::ReservedIndex]);
    let result = ffi::section(input, header, asked.index).map(|_| ());
    heard("section", result, &[Error::ShortSectionHeader, Error::UnknownClass, Error::SmallEntry]);
    let result = ffi::check_section(input, header, asked.index).map(|_| ());
    heard("check_section", result, &[Error::ShortSectionHeader, Error::UnknownClass, Error::SmallEntry, Error::InvalidShType]);
    let result = ffi::sections(input, header, asked.index, &mut [SectionHeader::default(); 3]).map(|_| ());
    heard("sections", result, &[Error::NoRecord]);
    let result = ffi::find_section(input, header, name).map(|_| ());
    heard("find_section", result, &[Error::NotFound]);
    let result = ffi::find_section_index(input, header, name).map(|_| ());
    heard("find_section_index", result, &[Error::NotFound]);
    let result = ffi::section_data(input, header, asked.index).map(|_| ());
    heard("section_data", result, &[Error::ShortSectionHeader, Error::UnknownClass, Error::SmallEntry, Error::InvalidShType, Error::NullData, Error::DataRange]);
    let result = ffi::section_names(input, header, asked.index, &mut [Name::default(); 3]).map(|_| ());
    heard("section_names", result, &[Error::NoRecord]);
    let result = ffi::names(input, header).map(|_| ());
    heard("names", result, &[Error::ReservedIndex, Error::ShortSectionHeader, Error::UnknownClass, Error::SmallEntry, Error::ShortSectionOffset]);
    let result = ffi::text(input, part, asked.index).map(|_| ());
    heard("text", result, &[Error::DataRange, Error::TextStart, Error::TextEnd, Error::TextUtf8]);
    let result = ffi::segment(input, header, asked.index as u32).map(|_| ());
    heard("segment", result, &[Error::NoProgramHeaders, Error::UnknownClass, Error::ShortProgramHeader, Error::SmallEntry]);
    let result = ffi::check_segment(input, header, asked.index as u32).map(|_| ());
    heard("check_segment", result, &[Error::NoProgramHeaders, Error::UnknownClass, Error::ShortProgramHeader, Error::SmallEntry, Error::PhSizeMismatch, Error::EntryPointRange, Error::InvalidPhType, Error::ShLibUsed, Error::BadAlign]);
    let result = ffi::segments(input, header, asked.index, &mut [ProgramHeader::default(); 3]).map(|_| ());
    heard("segments", result, &[Error::NoRecord]);
    let result = ffi::segment_data(input, header, asked.index as u32).map(|_| ());
    heard("segment_data", result, &[Error::NoProgramHeaders, Error::UnknownClass, Error::ShortProgramHeader, Error::SmallEntry, Error::InvalidPhType, Error::NullData, Error::DataRange]);
    let result = ffi::symbols(input, table, asked.index, &mut [Entry::default(); 3]).map(|_| ());
    heard("symbols", result, &[Error::DataRange, Error::NotMultiple, Error::NoRecord]);
    let result = ffi::symbol_names(input, table, asked.index, &mut [Name::default(); 3]).map(|_| ());
    heard("symbol_names", result, &[Error::DataRange, Error::NotMultiple, Error::NoRecord]);
    let result = ffi::symbols_open(input, header, asked.section).map(|_| ());
    heard("symbols_open", result, &[Error::ShortSectionHeader, Error::UnknownClass, Error::SmallEntry, Error::InvalidShType, Error::DataRange, Error::NotMultiple, Error::Note32, Error::ShortData, Error::OtherData]);
    let result = ffi::relocations(input, header, asked.section, asked.index, &mut [Relocation::default(); 3]).map(|_| ());
    heard("relocations", result, &[Error::ShortSectionHeader, Error::UnknownClass, Error::SmallEntry, Error::InvalidShType, Error::DataRange, Error::NotMultiple, Error::Note32, Error::ShortData, Error::OtherData, Error::NoRecord]);
    let result = ffi::packed_relocations(input, header, asked.section, asked.index, &mut [u64::default(); 3]).map(|_| ());
    heard("packed_relocations", result, &[Error::ShortSectionHeader, Error::UnknownClass, Error::SmallEntry, Error::OtherData, Error::DataRange, Error::LinkNotMultiple, Error::NoRecord]);
    let result = ffi::dynamics(input, header, asked.section, asked.index, &mut [Dynamic::default(); 3]).map(|_| ());
    heard("dynamics", result, &[Error::ShortSectionHeader, Error::UnknownClass, Error::SmallEntry, Error::InvalidShType, Error::DataRange, Error::NotMultiple, Error::Note32, Error::ShortData, Error::OtherData, Error::NoRecord]);
    let result = ffi::dynamic_entries(input, header, asked.index, &mut [Dynamic::default(); 3]).map(|_| ());
    heard("dynamic_entries", result, &[Error::LinkNoDynamic, Error::LinkAddress, Error::DataRange, Error::UnknownClass, Error::NotMultiple, Error::NoRecord]);
    let result = ffi::dynamic_relocations(input, header, asked.index, &mut [Relocation::default(); 3]).map(|_| ());
    heard("dynamic_relocations", result, &[Error::LinkNoDynamic, Error::LinkAddress, Error::DataRange, Error::NotMultiple, Error::LinkNoEntry, Error::LinkRelocationKind, Error::NoRecord]);
    let result = ffi::dynamic_packed_relocations(input, header, asked.index, &mut [u64::default(); 3]).map(|_| ());
    heard("dynamic_packed_relocations", result, &[Error::LinkNoDynamic, Error::LinkAddress, Error::DataRange, Error::NotMultiple, Error::LinkNoEntry, Error::LinkNotMultiple, Error::NoRecord]);
    let result = ffi::note(input, header, part, asked.index).map(|_| ());
    heard("note", result, &[Error::DataRange, Error::NoRecord, Error::LinkShortNote]);
    let result = ffi::bytes_at(input, header, asked.index, asked.index).map(|_| ());
    heard("bytes_at", result, &[Error::LinkAddress, Error::DataRange]);
    let result = ffi::dynamic_texts(input, header, asked.index, asked.index, &mut [Name::default(); 3]).map(|_| ());
    heard("dynamic_texts", result, &[Error::LinkNoDynamic, Error::LinkAddress, Error::DataRange, Error::NotMultiple, Error::NoRecord]);
    let result = ffi::dynamic_symbols_open(input, header).map(|_| ());
    heard("dynamic_symbols_open", result, &[Error::LinkNoDynamic, Error::LinkAddress, Error::DataRange, Error::NotMultiple, Error::LinkNoEntry, Error::ShortData, Error::LinkShortTable, Error::LinkBloomCount, Error::LinkChainIndex, Error::LinkChainData, Error::LinkSymbolIndex]);
    let result = ffi::file_symbols_open(input, header).map(|_| ());
    heard("file_symbols_open", result, &[Error::ShortSectionHeader, Error::UnknownClass, Error::SmallEntry, Error::InvalidShType, Error::DataRange, Error::NotMultiple, Error::Note32, Error::ShortData, Error::OtherData, Error::LinkNoDynamic, Error::LinkAddress, Error::LinkNoEntry, Error::LinkShortTable, Error::LinkBloomCount, Error::LinkChainIndex, Error::LinkChainData, Error::LinkSymbolIndex]);
    let result = ffi::dynamic_symbol_versions(input, header, asked.index, &mut [Version::default(); 3]).map(|_| ());
    heard("dynamic_symbol_versions", result, &[Error::LinkNoDynamic, Error::LinkAddress, Error::DataRange, Error::NotMultiple, Error::LinkNoEntry, Error::ShortData, Error::LinkShortTable, Error::LinkBloomCount, Error::LinkChainIndex, Error::LinkChainData, Error::LinkSymbolIndex, Error::NotFound, Error::NoRecord]);
    let result = ffi::version_definitions(input, header, asked.index, &mut [Version::default(); 3]).map(|_| ());
    heard("version_definitions", result, &[Error::LinkNoDynamic, Error::LinkAddress, Error::DataRange, Error::NotMultiple, Error::NoRecord]);
    let result = ffi::version_needs(input, header, asked.index, &mut [Version::default(); 3]).map(|_| ());
    heard("version_needs", result, &[Error::LinkNoDynamic, Error::LinkAddress, Error::DataRange, Error::NotMultiple, Error::NoRecord]);
    let result = ffi::find_symbol(input, header, name, name).map(|_| ());
    heard("find_symbol", result, &[Error::TextUtf8, Error::LinkNoDynamic, Error::LinkAddress, Error::DataRange, Error::NotMultiple, Error::LinkNoEntry, Error::ShortData, Error::LinkShortTable, Error::LinkBloomCount, Error::LinkChainIndex, Error::LinkChainData, Error::LinkSymbolIndex, Error::HashData, Error::ChainIndex, Error::SymbolIndex, Error::ChainSum, Error::HashCycle, Error::LinkShortVersion, Error::LinkVersionCount, Error::TextStart, Error::TextEnd]);
    ffi::look_ups(input, hash, name, ranges, &mut [Answer::default(); 3]);
    let result = Ok(());
    heard("look_ups", result, &[]);
    let result = ffi::hash_open(input, header, asked.section).map(|_| ());
    heard("hash_open", result, &[Error::ShortSectionHeader, Error::UnknownClass, Error::SmallEntry, Error::InvalidShType, Error::DataRange, Error::NotMultiple, Error::Note32, Error::ShortData, Error::LinkShortTable, Error::LinkBloomCount, Error::OtherData]);
    let result = ffi::check_hash(input, hash).map(|_| ());
    heard("check_hash", result, &[Error::DataRange, Error::ShortData, Error::LinkShortTable, Error::LinkBloomCount, Error::NotMultiple, Error::HashData, Error::ChainIndex, Error::SymbolIndex, Error::ChainSum, Error::HashCycle, Error::LinkChainIndex, Error::LinkSymbolIndex, Error::LinkChainData, Error::HashMissing, Error::LinkMissing]);
    let result = ffi::address_index(input, header, table, part, asked.index as u32, &mut [u32::default(); 3], &mut [u64::default(); 3]).map(|_| ());
    heard("address_index", result, &[Error::DataRange, Error::NotMultiple, Error::IndexManySymbols, Error::IndexFewWords]);
    let result = ffi::symbols_at(input, address_index, &[0, 1], &[0, 1], numbers, &mut [FoundAt::default(); 3]).map(|_| ());
    heard("symbols_at", result, &[Error::DataRange, Error::NotMultiple]);
    let result = ffi::pieces(input, header, asked.index, &mut [u32::default(); 3], &mut [u64::default(); 3], &mut [Piece::default(); 3]).map(|_| ());
    heard("pieces", result, &[Error::IndexFewWords]);
    let result = ffi::symbol_pieces(input, address_index, asked.index, asked.index, asked.index, &mut [u32::default(); 3], &mut [u64::default(); 3], &mut [Piece::default(); 3]).map(|_| ());
    heard("symbol_pieces", result, &[Error::DataRange, Error::NotMultiple, Error::IndexManySymbols, Error::IndexFewWords]);
    let result = ffi::size_changes(&mut [SizePart::default(); 3], &mut [SizePart::default(); 3], &mut [SizeChange::default(); 3]).map(|_| ());
    heard("size_changes", result, &[Error::IndexFewWords]);
    let result = ffi::debug_path(input, header, name, name, asked.index, &mut [u8::default(); 3]).map(|_| ());
    heard("debug_path", result, &[Error::NoRecord]);
    let result = ffi::check_debug(input, header, asked.index as u32, name, header).map(|_| ());
    heard("check_debug", result, &[Error::NoBuildId, Error::OtherBuildId, Error::OtherChecksum]);
    let result = ffi::debug_crc(name).map(|_| ());
    heard("debug_crc", result, &[]);
    let result = ffi::load_plan(input, header, asked.index, asked.index).map(|_| ());
    heard("load_plan", result, &[Error::LoadType, Error::LoadEntrySize, Error::LoadCount, Error::LoadTable, Error::LoadFileSize, Error::LoadEmpty, Error::LoadMisaligned, Error::LoadAlignment, Error::LoadRange, Error::LoadData, Error::LoadOverlap, Error::LoadZeros, Error::LoadNoLoad, Error::LoadHeaders, Error::LoadInterpreter, Error::LoadRelro, Error::LoadTls, Error::LoadEntry]);
    let result = ffi::load_mappings(input, header, asked.index, asked.index, asked.index as u32, asked.index, &mut [Mapping::default(); 3]).map(|_| ());
    heard("load_mappings", result, &[Error::LoadType, Error::LoadEntrySize, Error::LoadCount, Error::LoadTable, Error::LoadFileSize, Error::LoadEmpty, Error::LoadMisaligned, Error::LoadAlignment, Error::LoadRange, Error::LoadData, Error::LoadOverlap, Error::LoadZeros, Error::LoadNoLoad, Error::LoadHeaders, Error::LoadInterpreter, Error::LoadRelro, Error::LoadTls, Error::LoadEntry, Error::NoRecord]);
    let result = ffi::load_image(input, header, asked.index, asked.index, asked.index as u32, &mut [u8::default(); 3]).map(|_| ());
    heard("load_image", result, &[Error::LoadType, Error::LoadEntrySize, Error::LoadCount, Error::LoadTable, Error::LoadFileSize, Error::LoadEmpty, Error::LoadMisaligned, Error::LoadAlignment, Error::LoadRange, Error::LoadData, Error::LoadOverlap, Error::LoadZeros, Error::LoadNoLoad, Error::LoadHeaders, Error::LoadInterpreter, Error::LoadRelro, Error::LoadTls, Error::LoadEntry, Error::LoadImageSize]);
    let result = ffi::check_image(objects, asked.index, asked.index, asked.index, &mut [u8::default(); 3], &mut u64::default(), &mut u64::default()).map(|_| ());
    heard("check_image", result, &[Error::LinkObjectIndex, Error::ManyObjects, Error::ShortPart1, Error::NoMagic, Error::InvalidClass, Error::ShortHeaders, Error::LinkNoDynamic, Error::LinkAddress, Error::DataRange, Error::NotMultiple, Error::LinkNoEntry, Error::ShortData, Error::LinkShortTable, Error::LinkBloomCount, Error::LinkChainIndex, Error::LinkChainData, Error::LinkSymbolIndex, Error::LinkUnknownClass, Error::LinkNotMultiple, Error::LinkRelocationKind, Error::SymbolIndex, Error::HashData, Error::ChainIndex, Error::ChainSum, Error::HashCycle, Error::LinkShortVersion, Error::LinkVersionCount, Error::TextStart, Error::TextEnd, Error::TextUtf8, Error::LoadType, Error::LoadEntrySize, Error::LoadCount, Error::LoadTable, Error::LoadFileSize, Error::LoadEmpty, Error::LoadMisaligned, Error::LoadAlignment, Error::LoadRange, Error::LoadData, Error::LoadOverlap, Error::LoadZeros, Error::LoadNoLoad, Error::LoadHeaders, Error::LoadInterpreter, Error::LoadRelro, Error::LoadTls, Error::LoadEntry, Error::LoadDynamic, Error::LoadNoEntry, Error::LoadNoAddends, Error::LoadAddends, Error::LoadNoSlots, Error::LoadRelocationSize, Error::LoadNotMultiple, Error::LoadUnreadable, Error::LoadFirstPacked, Error::LoadSlotKind, Error::LoadMachine, Error::LoadRelativeCount, Error::LoadSlotType, Error::LoadFewMarks, Error::LoadWordType, Error::LoadNoSize, Error::LoadCopyKind, Error::LoadCallSymbol, Error::LoadWordAddress, Error::LoadReadOnly, Error::LoadWordsOverlap, Error::LoadWordInTable]);
    let result = ffi::relocate(objects, asked.index, asked.index as u32, asked.index, asked.index, &mut [u8::default(); 3], &mut u64::default(), &mut u64::default()).map(|_| ());
    heard("relocate", result, &[Error::LinkObjectIndex, Error::ManyObjects, Error::ShortPart1, Error::NoMagic, Error::InvalidClass, Error::ShortHeaders, Error::LinkNoDynamic, Error::LinkAddress, Error::DataRange, Error::NotMultiple, Error::LinkNoEntry, Error::ShortData, Error::LinkShortTable, Error::LinkBloomCount, Error::LinkChainIndex, Error::LinkChainData, Error::LinkSymbolIndex, Error::LinkUnknownClass, Error::LinkNotMultiple, Error::LinkRelocationKind, Error::SymbolIndex, Error::HashData, Error::ChainIndex, Error::ChainSum, Error::HashCycle, Error::LinkShortVersion, Error::LinkVersionCount, Error::TextStart, Error::TextEnd, Error::TextUtf8, Error::LoadType, Error::LoadEntrySize, Error::LoadCount, Error::LoadTable, Error::LoadFileSize, Error::LoadEmpty, Error::LoadMisaligned, Error::LoadAlignment, Error::LoadRange, Error::LoadData, Error::LoadOverlap, Error::LoadZeros, Error::LoadNoLoad, Error::LoadHeaders, Error::LoadInterpreter, Error::LoadRelro, Error::LoadTls, Error::LoadEntry, Error::LoadImageSize, Error::LoadWordType, Error::LoadNoSize, Error::LoadCopyKind, Error::LoadCallSymbol, Error::LoadUnresolved, Error::LoadWordAddress, Error::LoadCopySource]);
    let result = ffi::relocate_all(objects, asked.index as u32, asked.index, asked.index, &mut [u8::default(); 3], &mut u64::default(), &mut u64::default()).map(|_| ());
    heard("relocate_all", result, &[Error::LinkObjectIndex, Error::ManyObjects, Error::ShortPart1, Error::NoMagic, Error::InvalidClass, Error::ShortHeaders, Error::LinkNoDynamic, Error::LinkAddress, Error::DataRange, Error::NotMultiple, Error::LinkNoEntry, Error::ShortData, Error::LinkShortTable, Error::LinkBloomCount, Error::LinkChainIndex, Error::LinkChainData, Error::LinkSymbolIndex, Error::LinkUnknownClass, Error::LinkNotMultiple, Error::LinkRelocationKind, Error::SymbolIndex, Error::HashData, Error::ChainIndex, Error::ChainSum, Error::HashCycle, Error::LinkShortVersion, Error::LinkVersionCount, Error::TextStart, Error::TextEnd, Error::TextUtf8, Error::LoadType, Error::LoadEntrySize, Error::LoadCount, Error::LoadTable, Error::LoadFileSize, Error::LoadEmpty, Error::LoadMisaligned, Error::LoadAlignment, Error::LoadRange, Error::LoadData, Error::LoadOverlap, Error::LoadZeros, Error::LoadNoLoad, Error::LoadHeaders, Error::LoadInterpreter, Error::LoadRelro, Error::LoadTls, Error::LoadEntry, Error::LoadImageSize, Error::LoadWordType, Error::LoadNoSize, Error::LoadCopyKind, Error::LoadCallSymbol, Error::LoadUnresolved, Error::LoadWordAddress, Error::LoadCopySource]);
    let _size = ffi::message(asked.index as u32, &mut [u8::default(); 3]);
    let result = Ok(());
    heard("message", result, &[]);
    let result = ffi::needed_names(input, header, asked.index, &mut [NeededName::default(); 3]).map(|_| ());
    heard("needed_names", result, &[Error::LinkNoDynamic, Error::LinkAddress, Error::DataRange, Error::NotMultiple, Error::NoRecord]);
    let result = ffi::last_entry(input, header, asked.index).map(|_| ());
    heard("last_entry", result, &[Error::LinkNoDynamic, Error::LinkAddress, Error::DataRange, Error::NotMultiple, Error::NotFound]);
    let result = ffi::last_text(input, header, asked.index).map(|_| ());
    heard("last_text", result, &[Error::LinkNoDynamic, Error::LinkAddress, Error::DataRange, Error::NotMultiple, Error::NotFound, Error::LinkNoEntry, Error::TextStart, Error::TextEnd, Error::TextUtf8]);
    let result = ffi::fits(name, asked.index, asked.index as u8, asked.index as u16).map(|_| ());
    heard("fits", result, &[Error::SearchShortFile, Error::SearchMagic, Error::SearchByteOrder, Error::SearchIdentVersion, Error::SearchOsAbi, Error::SearchAbiVersion, Error::SearchPadding, Error::SearchVersion, Error::SearchType, Error::SearchEntrySize, Error::SearchFileData]);
    let result = ffi::check_library(input, header).map(|_| ());
    heard("check_library", result, &[Error::SearchNoLoad, Error::SearchExecutable, Error::SearchNoDynamic, Error::LinkNoDynamic, Error::LinkAddress, Error::DataRange, Error::NotMultiple, Error::SearchSharedExecutable]);
    let result = ffi::check_load(input, header, asked.index, asked.index, asked.index as u32).map(|_| ());
    heard("check_load", result, &[Error::LoadByteOrder, Error::LoadIdentVersion, Error::LoadOsAbi, Error::LoadAbiVersion, Error::LoadPadding, Error::LoadVersion, Error::LoadType, Error::LoadEntrySize, Error::LoadCount, Error::LoadTable, Error::LoadMisaligned, Error::LoadNoLoad, Error::LoadExecutable, Error::LoadRange, Error::LoadData, Error::LoadOverlap, Error::LoadFileSize, Error::LoadInterpreter, Error::LoadEmpty, Error::LoadEntry, Error::LoadNoDynamic, Error::LoadRelro, Error::LoadTls]);
    let result = ffi::expand(name, &tokens, asked.index, &mut [u8::default(); 3]).map(|_| ());
    heard("expand", result, &[Error::SearchEmptyToken, Error::NoRecord]);
    let result = ffi::candidates(&search, &[SearchAsker::new(Some(name), None, tokens, false)], asked.index, &mut [CandidatePath::default(); 3]).map(|_| ());
    heard("candidates", result, &[Error::ManyObjects, Error::NoRecord]);
    let result = ffi::candidate_paths(&search, &[SearchAsker::new(Some(name), None, tokens, false)], asked.index, &mut [u8::default(); 3]).map(|_| ());
    heard("candidate_paths", result, &[Error::ManyObjects, Error::NoRecord]);
    let result = ffi::cache_path(name, name, &CacheMachine::x86_64(), asked.index, &mut [u8::default(); 3]).map(|_| ());
    heard("cache_path", result, &[Error::SearchNotACache, Error::SearchCacheCount, Error::SearchCacheOrder, Error::NotFound, Error::NoRecord]);
    let result = ffi::next_entry(&[Dependencies::new(&[0, u32::MAX - 1], &[])], &mut [u32::default(); 3], &mut [u32::default(); 3]).map(|_| ());
    heard("next_entry", result, &[Error::NoRecord, Error::SearchNoObject, Error::SearchFewWords]);
    let result = ffi::start_order(&[Dependencies::new(&[0, u32::MAX - 1], &[])], &mut [u32::default(); 3], &mut [u32::default(); 3], &mut [u32::default(); 3], &mut [u32::default(); 3]).map(|_| ());
    heard("start_order", result, &[Error::SearchFewWords, Error::SearchNoObject]);
    let result = ffi::missing_versions(input, header, name, name, header, asked.index, &mut [LackedVersion::default(); 3]).map(|_| ());
    heard("missing_versions", result, &[Error::LinkNoDynamic, Error::LinkAddress, Error::DataRange, Error::NotMultiple, Error::NoRecord]);
}
