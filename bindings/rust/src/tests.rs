//! Each declaration of ffi.rs is called over the test itself, which is a file, and over no bytes.

use crate::calls::{every, Asked};
use crate::constants::*;
use crate::records::{AddressIndex, Answer, Dynamic, Entry, FoundAt, FoundSymbol, FoundTable, Header, Mapping, Name, ProgramHeader, Range, Relocation, SectionHeader, SizeChange, SizePart, SymbolTable, Version};
use crate::{ffi, Error};
extern crate std;
use std::string::ToString;
use std::vec::Vec;

fn whole() -> Vec<u8> {
    std::fs::read(std::env::current_exe().expect("a path")).expect("the test itself is a file")
}

fn section_of_type(input: &[u8], header: &Header, wanted: u32) -> (u64, SectionHeader) {
    let mut sections = (0..).map_while(|index| Some((index, ffi::section(input, header, index).ok()?)));
    sections.find(|(_, section)| section.type_ == wanted).expect("the test has such a section")
}

#[test]
fn parts_of_a_file() {
    let input = whole();
    let header = ffi::open(&input).expect("an ELF file");
    assert_eq!(ffi::check_header(&input, &header), Ok(()));
    let counts = ffi::counts(&input, &header).expect("never an error");
    let names_index = ffi::names_index(&input, &header).expect("an index");
    assert!(u64::from(names_index) < counts.sections && counts.segments > 0);
    assert_eq!(ffi::segment(&input, &header, 0).map(|segment| segment.type_), Ok(PT_PHDR));
    let size = ffi::segment(&input, &header, 0).map(|segment| segment.file_size);
    assert_eq!(ffi::segment_data(&input, &header, 0).map(|range| range.size), size);
    assert_eq!(ffi::segment(&input, &header, counts.segments), Err(Error::NoProgramHeaders));
    let mut headers = [ProgramHeader::default(); 2];
    assert_eq!(ffi::segments(&input, &header, 0, &mut headers[..1]), Ok(1));
    assert_eq!((Ok(headers[0]), headers[1]), (ffi::segment(&input, &header, 0), ProgramHeader::default()));
    assert_eq!(ffi::segments(&input, &header, counts.segments.into(), &mut headers), Err(Error::NoRecord));
    let load = (0..counts.segments).filter_map(|index| ffi::segment(&input, &header, index).ok()).find(|one| one.type_ == PT_LOAD);
    let start = load.expect("a loaded segment").virtual_addr;
    assert_eq!(ffi::bytes_at(&input, &header, start, 4), Ok(Range { offset: 0, size: 4 }));
    assert_eq!(ffi::bytes_at(&input, &header, u64::MAX, 1), Err(Error::LinkAddress));
    assert_eq!(ffi::open(&input[..15]), Err(Error::ShortPart1));
}

#[test]
fn sections_and_names() {
    let input = whole();
    let header = ffi::open(&input).expect("an ELF file");
    let (index, dynamic) = section_of_type(&input, &header, SHT_DYNAMIC);
    assert_eq!(ffi::find_section(&input, &header, b".dynamic"), Ok(dynamic));
    assert_eq!(ffi::find_section(&input, &header, b"\xff"), Err(Error::NotFound));
    assert_eq!(ffi::find_section_index(&input, &header, b".dynamic"), Ok(index));
    assert_eq!(ffi::find_section_index(&input, &header, b"\xff"), Err(Error::NotFound));
    assert_eq!(ffi::find_section_index(&input, &header, b""), Err(Error::NotFound));
    assert_eq!(ffi::section_data(&input, &header, index), Ok(Range { offset: dynamic.offset, size: dynamic.size }));
    let table = ffi::names(&input, &header).expect("a name table");
    let name = ffi::text(&input, &table, u64::from(dynamic.name)).expect("a name");
    assert_eq!(name.bytes_in(&input), b".dynamic");
    let (mut headers, mut names) = ([SectionHeader::default(); 2], [Name::default(); 2]);
    assert_eq!(ffi::sections(&input, &header, index, &mut headers[..1]), Ok(1));
    assert_eq!(ffi::section_names(&input, &header, index, &mut names[..1]), Ok(1));
    assert_eq!((headers[0], names[0].range(), names[1]), (dynamic, Ok(name), Name::default()));
}

#[test]
fn checks_of_sections_and_segments() {
    let mut input = whole();
    let header = ffi::open(&input).expect("an ELF file");
    assert_eq!(ffi::check_section(&input, &header, 1), Ok(()));
    assert_eq!(ffi::check_segment(&input, &header, 0), Ok(()));
    assert_eq!(ffi::check_section(&input, &header, u64::MAX), Err(Error::ShortSectionHeader));
    assert_eq!(ffi::check_segment(&input, &header, header.ph_count.into()), Err(Error::NoProgramHeaders));
    let wide = Header { ph_entry_size: header.ph_entry_size + 1, ..header };
    assert_eq!(ffi::check_segment(&input, &wide, 0), Err(Error::PhSizeMismatch));
    // The type of section 1 gets a number without a meaning, and segment 0 an odd address, then a size past all.
    let (section, segment) = (header.sh_offset as usize + usize::from(header.sh_entry_size), header.ph_offset as usize);
    input[section + 4] = 12;
    assert_eq!(ffi::check_section(&input, &header, 1), Err(Error::InvalidShType));
    input[segment + 16] ^= 1;
    assert_eq!(ffi::check_segment(&input, &header, 0), Err(Error::BadAlign));
    input[segment + 32..segment + 40].fill(0xff);
    assert_eq!(ffi::check_segment(&input, &header, 0), Err(Error::EntryPointRange));
}

// Two lists with a part of both and one of each; and the debug file of the test, which is itself by its build id.
#[test]
fn size_changes_and_debug_files() {
    let mut olds = [SizePart::new(1, b"both", 5, 7), SizePart::new(0, b"gone", 1, 100)];
    let mut news = [SizePart::new(1, b"new", 1, 3), SizePart::new(1, b"both", 0, 8)];
    let mut changes = [SizeChange::default(); 4];
    assert_eq!(ffi::size_changes(&mut olds, &mut news, &mut changes[..3]), Err(Error::IndexFewWords));
    assert_eq!((olds[0].place(), changes[0]), (5, SizeChange::default()));
    assert_eq!(ffi::size_changes(&mut olds, &mut news, &mut changes), Ok(3));
    let row = |old_index, new_index, old_size, new_size, files| SizeChange { old_index, new_index, old_size, new_size, files };
    assert_eq!(changes[..3], [row(0, 0, 100, 0, 0), row(0, 1, 0, 3, 1), row(1, 0, 7, 8, 2)]);
    let input = whole();
    let header = ffi::open(&input).expect("an ELF file");
    let mut text = [0; 100];
    let found = ffi::debug_path(&input, &header, b"/bin/ls", b"/d", 0, &mut text).expect("a build id");
    assert_eq!((found.size, found.how, &text[..13]), (60, 0, &b"/d/.build-id/"[..]));
    assert_eq!(ffi::debug_path(&input, &header, b"/bin/ls", b"/d", 1, &mut text), Err(Error::NoRecord));
    assert_eq!(ffi::check_debug(&input, &header, 0, &input, &header), Ok(()));
    assert_eq!(ffi::check_debug(&input, &header, 1, &input, &header), Err(Error::OtherChecksum));
    assert_eq!(ffi::check_debug(&input, &header, 0, &[], &header), Err(Error::NoBuildId));
    assert_eq!(ffi::debug_crc(b"123456789"), Ok(0xcbf4_3926));
}

// Of this type section 1 keeps its name and its data; the range is compared with the input.
#[test]
fn sections_of_type_relr() {
    let mut input = whole();
    let header = ffi::open(&input).expect("an ELF file");
    let read = |input: &[u8]| {
        let mut names = [Name::default(); 2];
        let filled = ffi::section_names(input, &header, 0, &mut names);
        (ffi::check_section(input, &header, 1), ffi::section_data(input, &header, 1), filled, names.map(|name| name.range()))
    };
    let wanted = read(&input);
    let (range, [null, name]) = (wanted.1, wanted.3);
    assert!(range.is_ok_and(|range| range.size > 0) && name.is_ok_and(|name| name.size > 0));
    assert!(null.is_ok_and(|null| null.size == 0));
    assert_eq!((wanted.0, wanted.2), (Ok(()), Ok(2)));
    let section = header.sh_offset as usize + usize::from(header.sh_entry_size);
    input[section + 4] = SHT_RELR as u8;
    assert_eq!(read(&input), wanted);
    // Its offset and its size: up to the end of the input and one byte more, and sums of more than 64 bits.
    let end = input.len() as u64;
    for (offset, size, fits) in [(end, 0, true), (0, end, true), (end - 1, 1, true), (end, 1, false), (end + 1, 0, false), (1, u64::MAX, false), (u64::MAX, 1, false)] {
        input[section + 24..section + 32].copy_from_slice(&offset.to_le_bytes());
        input[section + 32..section + 40].copy_from_slice(&size.to_le_bytes());
        let found = ffi::section_data(&input, &header, 1);
        assert_eq!(found, if fits { Ok(Range { offset, size }) } else { Err(Error::DataRange) }, "{offset} {size}");
        assert_eq!(ffi::check_section(&input, &header, 1), Ok(()));
    }
}

#[test]
fn records_of_sections() {
    let input = whole();
    let header = ffi::open(&input).expect("an ELF file");
    let (symbols, symbols_header) = section_of_type(&input, &header, SHT_DYNSYM);
    let table = ffi::symbols_open(&input, &header, symbols).expect("symbols");
    let (mut entries, mut names) = ([Entry::default(); 2], [Name::default(); 2]);
    assert_eq!(ffi::symbols(&input, &table, 1, &mut entries[..1]), Ok(1));
    assert_eq!(ffi::symbol_names(&input, &table, 1, &mut names[..1]), Ok(1));
    assert_eq!((entries[1], names[1]), (Entry::default(), Name::default()));
    let strings = ffi::section_data(&input, &header, u64::from(symbols_header.link)).expect("a string table");
    assert_eq!(names[0].range(), ffi::text(&input, &strings, u64::from(entries[0].name)));
    let relocations = section_of_type(&input, &header, SHT_RELA).0;
    let (mut first, mut many) = ([Relocation::default(); 2], [Relocation::default(); 2]);
    assert_eq!(ffi::relocations(&input, &header, relocations, 0, &mut first), Ok(2));
    assert_eq!(ffi::relocations(&input, &header, relocations, 1, &mut many[..1]), Ok(1));
    assert_eq!((first[0].has_addend, many), (1, [first[1], Relocation::default()]));
    assert_eq!(ffi::packed_relocations(&input, &header, relocations, 0, &mut [0; 2]), Err(Error::OtherData));
    let dynamic = section_of_type(&input, &header, SHT_DYNAMIC).0;
    let (mut entry, mut tags) = ([Dynamic::default(); 2], [Dynamic::default(); 2]);
    assert_eq!(ffi::dynamics(&input, &header, dynamic, 0, &mut entry), Ok(2));
    assert_eq!(ffi::dynamics(&input, &header, symbols, 0, &mut tags), Err(Error::OtherData));
    assert_eq!(ffi::dynamics(&input, &header, dynamic, 1, &mut tags[..1]), Ok(1));
    assert_eq!((entry[0].tag, tags), (DT_NEEDED, [entry[1], Dynamic::default()]));
    let notes = ffi::find_section_index(&input, &header, b".note.gnu.build-id").expect("a build id");
    let notes = ffi::section(&input, &header, notes).expect("a section");
    let part = Range { offset: notes.offset, size: notes.size };
    let note = ffi::note(&input, &header, &part, notes.align).expect("a note");
    assert_eq!((note.type_, note.rest.size), (NT_GNU_BUILD_ID, 0));
}

#[test]
fn symbols_of_a_table() {
    let input = whole();
    let file = crate::ElfFile::new(&input).expect("an ELF file");
    let section = file.section(section_of_type(&input, file.header(), SHT_DYNSYM).0).expect("a section");
    let table = section.symbol_table().expect("symbols");
    assert!(!table.is_empty() && table.strings_status == 0);
    for (index, symbol) in section.symbols().expect("symbols").enumerate() {
        assert_eq!(file.symbol_of(&table, index as u64), Ok(*symbol));
        assert_eq!(file.symbol_name_of(&table, index as u64), symbol.name());
    }
    assert_eq!(file.symbol_of(&table, table.len()), Err(Error::NoRecord));
    assert_eq!(file.symbol_name_of(&table, u64::MAX), Err(Error::NoRecord));
    assert_eq!(ffi::symbols_open(&input, file.header(), 0), Err(Error::OtherData));
    // Tables that no call found.
    let far = Range { offset: u64::MAX, size: 24 };
    assert_eq!(file.symbol_of(&SymbolTable { symbols: far, ..table }, 0), Err(Error::DataRange));
    assert_eq!(file.symbol_name_of(&SymbolTable { strings: far, ..table }, 1), Err(Error::DataRange));
    assert_eq!(file.symbol_name_of(&SymbolTable { strings_status: 203, ..table }, 1), Err(Error::NotFound));
    assert_eq!(file.symbol_of(&SymbolTable { count: 0, ..table }, 1), file.symbol_of(&table, 1));
}

#[test]
fn texts_of_the_dynamic_segment() {
    let input = whole();
    let header = ffi::open(&input).expect("an ELF file");
    let (dynamic, section) = section_of_type(&input, &header, SHT_DYNAMIC);
    let mut names = [Name::default(); 8];
    let count = ffi::dynamic_texts(&input, &header, DT_NEEDED, 0, &mut names).expect("the test needs libraries");
    let mut tags = [Dynamic::default(); 64];
    assert!(ffi::dynamics(&input, &header, dynamic, 0, &mut tags).is_ok());
    let named: Vec<_> = tags.iter().take_while(|one| one.tag != DT_NULL).filter(|one| one.tag == DT_NEEDED).collect();
    let strings = ffi::section_data(&input, &header, section.link.into()).expect("a string table");
    assert!(count == named.len() as u64 && count < 8);
    for (name, tag) in names.iter().zip(&named) {
        assert_eq!(name.range(), ffi::text(&input, &strings, tag.value));
    }
    assert_eq!(ffi::dynamic_texts(&input, &header, DT_NULL, 0, &mut names), Err(Error::NoRecord));
    assert_eq!(ffi::dynamic_texts(&input, &header, DT_NEEDED, count, &mut names), Err(Error::NoRecord));
    let mut second = [Name::default(); 8];
    assert_eq!(ffi::dynamic_texts(&input, &header, DT_NEEDED, 1, &mut second), if count > 1 { Ok(count - 1) } else { Err(Error::NoRecord) });
    assert!(count < 2 || second[0] == names[1]);
}

#[test]
fn symbols_of_the_dynamic_segment() {
    let mut input = whole();
    let header = ffi::open(&input).expect("an ELF file");
    let section = section_of_type(&input, &header, SHT_DYNSYM).0;
    let whole = ffi::symbols_open(&input, &header, section).expect("symbols");
    let count = ffi::dynamic_symbols_open(&input, &header).expect("a hash table").count as usize;
    assert!(count > 0);
    let (mut entries, mut names) = (std::vec![Entry::default(); count + 1], std::vec![Name::default(); count + 1]);
    let (mut wanted, mut wanted_names) = (entries.clone(), names.clone());
    assert!(ffi::symbols(&input, &whole, 0, &mut wanted[..count]).is_ok_and(|filled| filled == count as u64));
    assert!(ffi::symbol_names(&input, &whole, 0, &mut wanted_names[..count]).is_ok());
    // The header that the calls are handed next names no sections, nor do the bytes.
    input[40..48].fill(0);
    let cut = ffi::open(&input).expect("an ELF file");
    assert_eq!(ffi::section(&input, &cut, section).map(|one| one.type_).ok().filter(|kind| *kind == SHT_DYNSYM), None);
    let table = ffi::dynamic_symbols_open(&input, &cut).expect("symbols");
    assert_eq!((table.count, table.strings_status), (count as u64, 0));
    assert_eq!(ffi::symbols(&input, &table, 0, &mut entries), Ok(count as u64));
    assert_eq!(ffi::symbol_names(&input, &table, 0, &mut names), Ok(count as u64));
    assert!(entries == wanted && names == wanted_names);
    let (mut last, mut last_name) = ([Entry::default(); 2], [Name::default(); 2]);
    assert_eq!(ffi::symbols(&input, &table, count as u64 - 1, &mut last), Ok(1));
    assert_eq!(ffi::symbol_names(&input, &table, count as u64 - 1, &mut last_name), Ok(1));
    assert_eq!((last, last_name), ([wanted[count - 1], Entry::default()], [wanted_names[count - 1], Name::default()]));
    assert_eq!(ffi::symbols(&input, &table, count as u64, &mut last), Err(Error::NoRecord));
    assert_eq!(ffi::symbol_names(&input, &table, count as u64, &mut last_name), Err(Error::NoRecord));
    assert_eq!(ffi::dynamic_symbols_open(&[], &cut), Err(Error::LinkNoDynamic));
    assert_eq!(crate::ElfFile::new(&input).and_then(|file| file.dynamic_symbol_table()), Ok(table));
}

#[test]
fn versions_of_symbols() {
    let mut input = whole();
    let header = ffi::open(&input).expect("an ELF file");
    let table = section_of_type(&input, &header, 0x6fff_ffff).1; // SHT_GNU_versym
    let raw = |index: usize| u16::from_le_bytes([0, 1].map(|byte| input[table.offset as usize + 2 * index + byte]));
    let count = ffi::dynamic_symbols_open(&input, &header).expect("a hash table").count as usize;
    let wanted: Vec<_> = (0..count).map(|index| (u32::from(raw(index) % 0x8000), u32::from(raw(index) / 0x8000))).collect();
    // The header that the calls are handed next names no sections, nor do the bytes.
    input[40..48].fill(0);
    let cut = ffi::open(&input).expect("an ELF file");
    let mut versions = std::vec![Version::default(); count + 1];
    assert_eq!(ffi::dynamic_symbol_versions(&input, &cut, 0, &mut versions), Ok(count as u64));
    assert!(versions[..count].iter().map(|one| (one.number, one.hidden)).eq(wanted) && versions[count] == Version::default());
    assert_eq!(ffi::dynamic_symbol_versions(&input, &cut, count as u64, &mut versions), Err(Error::NoRecord));
    // The test needs versions, and defines none.
    let mut needs = [Version::default(); 64];
    let need_count = ffi::version_needs(&input, &cut, 0, &mut needs).expect("the test needs versions") as usize;
    assert!(needs[..need_count].iter().all(|one| (one.status, one.name_status, one.file_status, one.kind) == (0, 0, 0, 2)));
    assert!(needs[..need_count].iter().any(|one| one.name.text_in(&input).starts_with("GLIBC_2.")));
    for one in versions[..count].iter().filter(|one| one.number > 1) {
        let borne = needs[..need_count].iter().find(|need| need.number == one.number).expect("a need");
        assert_eq!((one.name, one.file, one.hash, one.kind), (borne.name, borne.file, borne.hash, borne.kind));
    }
    let mut names = [Name::default(); 16];
    let libraries = ffi::dynamic_texts(&input, &cut, DT_NEEDED, 0, &mut names).expect("the test needs libraries") as usize;
    let named = |file: Range| names[..libraries].iter().any(|name| name.range().is_ok_and(|range| range.text_in(&input) == file.text_in(&input)));
    assert!(needs[..need_count].iter().all(|one| named(one.file)));
    assert_eq!(ffi::version_needs(&input, &cut, need_count as u64, &mut needs), Err(Error::NoRecord));
    assert_eq!(ffi::version_definitions(&input, &cut, 0, &mut needs), Err(Error::NoRecord));
}

// The C library that the test runs with, which defines versions.
fn c_library() -> Vec<u8> {
    let maps = std::fs::read_to_string("/proc/self/maps").expect("the maps of the test");
    let mut paths = maps.lines().filter_map(|line| line.split_whitespace().last());
    std::fs::read(paths.find(|path| path.ends_with("/libc.so.6")).expect("glibc")).expect("a file")
}

#[test]
fn symbols_by_names_and_versions() {
    let input = c_library();
    let header = ffi::open(&input).expect("an ELF file");
    let version_at = |index: u32| {
        let mut version = [Version::default()];
        assert_eq!(ffi::dynamic_symbol_versions(&input, &header, index.into(), &mut version), Ok(1));
        (version[0].name.text_in(&input), version[0].hidden)
    };
    // glibc defines two symbols of this name, of which the older one is hidden.
    let found = |version: &[u8]| ffi::find_symbol(&input, &header, b"memcpy", version).expect("no error");
    let (newest, older) = (found(b""), found(b"GLIBC_2.2.5"));
    assert_eq!((newest.found, older.found), (1, 1));
    assert_eq!((version_at(newest.index), version_at(older.index)), (("GLIBC_2.14", 0), ("GLIBC_2.2.5", 1)));
    assert_eq!((found(b"GLIBC_2.14"), found(b"GLIBC_2.15")), (newest, FoundSymbol::default()));
    let table = ffi::dynamic_symbols_open(&input, &header).expect("symbols");
    for one in [newest, older] {
        let (mut symbols, mut names) = ([Entry::default()], [Name::default()]);
        assert_eq!(ffi::symbols(&input, &table, one.index.into(), &mut symbols), Ok(1));
        assert_eq!(ffi::symbol_names(&input, &table, one.index.into(), &mut names), Ok(1));
        assert_eq!((symbols[0], names[0].range().map(|range| range.text_in(&input))), (one.symbol, Ok("memcpy")));
    }
    assert_eq!(ffi::find_symbol(&input, &header, b"no_such_name", b""), Ok(FoundSymbol::default()));
    assert_eq!(ffi::find_symbol(&input, &header, b"\xff", b""), Err(Error::TextUtf8));
    assert_eq!(ffi::find_symbol(&input, &header, b"memcpy", b"\xff"), Err(Error::TextUtf8));
    assert_eq!(ffi::find_symbol(&[], &header, b"", b""), Err(Error::LinkNoDynamic));
    let file = crate::ElfFile::new(&input).expect("an ELF file");
    for (version, wanted, shown) in [(None, newest, "@@GLIBC_2.14"), (Some("GLIBC_2.2.5"), older, "@GLIBC_2.2.5")] {
        let found = file.find_symbol("memcpy", version).expect("no error").expect("a symbol");
        assert_eq!((found.index(), *found, found.name()), (wanted.index.into(), wanted.symbol, Ok("memcpy")));
        assert!(found.version().is_ok_and(|version| version.is_some_and(|version| version.to_string() == shown)));
    }
    assert_eq!(file.find_symbol("no_such_name", None), Ok(None));
}

// What a look-up for one name says.
fn look_up(input: &[u8], table: &FoundTable, name: &[u8]) -> Result<crate::LookUp, Error> {
    let mut results = [Answer::default(); 2];
    ffi::look_ups(input, table, name, &[Range { offset: 0, size: name.len() as u64 }], &mut results);
    assert_eq!(results[1], Answer::default());
    results[0].look_up()
}

#[test]
fn look_ups() {
    let input = whole();
    let header = ffi::open(&input).expect("an ELF file");
    let section = section_of_type(&input, &header, SHT_GNU_HASH).0;
    let table = ffi::hash_open(&input, &header, section).expect("a hash table");
    assert_eq!((table.kind, ffi::check_hash(&input, &table)), (SHT_GNU_HASH, Ok(())));
    let symbols = section_of_type(&input, &header, SHT_DYNSYM).0;
    assert_eq!(table.symbols, ffi::symbols_open(&input, &header, symbols).expect("symbols"));
    let mut names = std::vec![Name::default(); table.symbols.count as usize];
    assert_eq!(ffi::symbol_names(&input, &table.symbols, 0, &mut names), Ok(table.symbols.count));
    for said in names.iter().filter_map(|name| look_up(&input, &table, name.range().ok()?.bytes_in(&input)).ok()) {
        assert!(said.found == 0 || said.index > 0 && u64::from(said.index) < table.symbols.count);
    }
    let said = look_up(&input, &table, b"no_such_name").expect("no error");
    assert_eq!((said.found, said.index), (0, 0));
    let names = b"no_such_name\xff";
    let ranges = [Range { offset: 0, size: 12 }, Range { offset: 12, size: 1 }, Range { offset: 13, size: 1 }];
    let mut results = [Answer::default(); 3];
    ffi::look_ups(&input, &table, names, &ranges, &mut results);
    assert_eq!(results.map(|one| one.look_up()), [Ok(said), Err(Error::TextUtf8), Err(Error::DataRange)]);
    assert_eq!(ffi::hash_open(&input, &header, symbols), Err(Error::OtherData));
    // Tables that no call found.
    let far = Range { offset: u64::MAX, size: 24 };
    assert_eq!(look_up(&input, &FoundTable { table: far, ..table }, b"main"), Err(Error::DataRange));
    let short = Range { size: 15, ..table.table };
    assert_eq!(look_up(&input, &FoundTable { table: short, ..table }, b"main"), Err(Error::LinkShortTable));
    assert_eq!(ffi::check_hash(&input, &FoundTable { table: short, ..table }), Err(Error::LinkShortTable));
    let apart = SymbolTable { symbols: Range { size: 25, ..table.symbols.symbols }, ..table.symbols };
    assert_eq!(look_up(&input, &FoundTable { symbols: apart, ..table }, b"main"), Err(Error::NotMultiple));
}

#[test]
fn look_ups_in_a_table_of_the_standard() {
    let input = whole();
    let header = ffi::open(&input).expect("an ELF file");
    let section = section_of_type(&input, &header, SHT_GNU_HASH).0;
    let found = ffi::hash_open(&input, &header, section).expect("a hash table");
    // The linker makes no table of this kind, so here is one behind the file, with the symbols in a single chain.
    let count = found.symbols.count as u32;
    let words = [1, count, 1, 0].into_iter().chain((1..count).map(|index| (index + 1) % count));
    let longer: Vec<u8> = input.iter().copied().chain(words.flat_map(u32::to_le_bytes)).collect();
    let range = Range { offset: input.len() as u64, size: (longer.len() - input.len()) as u64 };
    let table = FoundTable { table: range, kind: SHT_HASH, ..found };
    assert_eq!(ffi::check_hash(&longer, &table), Ok(()));
    let mut names = std::vec![Name::default(); count as usize];
    assert_eq!(ffi::symbol_names(&longer, &table.symbols, 0, &mut names), Ok(count.into()));
    let name_of = |index: u32| names[index as usize].range().map(|name| name.bytes_in(&longer));
    for name in (1..count).filter_map(|index| name_of(index).ok()) {
        let said = look_up(&longer, &table, name).expect("no error");
        assert_eq!((said.found, name_of(said.index)), (1, Ok(name)));
    }
    assert_eq!(look_up(&longer, &table, b"no_such_name").map(|said| (said.found, said.looked_at)), Ok((0, count - 1)));
    assert_eq!(look_up(&longer, &table, b"\xff"), Err(Error::TextUtf8));
    assert_eq!(look_up(&input, &table, b"main"), Err(Error::DataRange));
    let short = Range { size: 11, ..table.table };
    assert_eq!(look_up(&longer, &FoundTable { table: short, ..table }, b"main"), Err(Error::ShortData));
    let cut = Range { size: table.table.size - 4, ..table.table };
    assert_eq!(look_up(&longer, &FoundTable { table: cut, ..table }, b"no_such_name"), Err(Error::HashData));
}

#[test]
fn symbols_of_addresses() {
    let input = whole();
    let header = ffi::open(&input).expect("an ELF file");
    let table = ffi::symbols_open(&input, &header, section_of_type(&input, &header, SHT_SYMTAB).0).expect("symbols");
    let none = Range::default();
    let index_in = |words: &mut [u32], numbers: &mut [u64]| ffi::address_index(&input, &header, &table, &none, 0, words, numbers);
    let asked = index_in(&mut [], &mut []).expect("a number of words");
    assert!(asked.words > 1 && (asked.sized_count, asked.open_count) == (0, 0));
    let mut words = std::vec![7; asked.words as usize + 1];
    let mut numbers = std::vec![7; asked.numbers as usize + 1];
    assert_eq!(index_in(&mut words[..asked.words as usize - 1], &mut numbers), Err(Error::IndexFewWords));
    assert_eq!(index_in(&mut words, &mut numbers[..asked.numbers as usize - 1]), Err(Error::IndexFewWords));
    assert!(words.iter().all(|word| *word == 7) && numbers.iter().all(|number| *number == 7));
    let index = index_in(&mut words, &mut numbers).expect("an index");
    assert_eq!((index.numbers, numbers.last()), (2 * index.sized_count, Some(&7)));
    assert_eq!((index.words, 2 * index.sized_count + index.open_count, words.last()), (asked.words, asked.words, Some(&7)));
    let mut symbols = std::vec![Entry::default(); table.count as usize];
    assert_eq!(ffi::symbols(&input, &table, 0, &mut symbols), Ok(table.count));
    let addresses: Vec<u64> = symbols.iter().filter(|one| one.kind() == STT_FUNC && one.size > 0).map(|one| one.value + one.size / 2).collect();
    let mut found = std::vec![FoundAt::default(); addresses.len() + 1];
    assert_eq!(ffi::symbols_at(&input, &index, &words, &numbers, &addresses, &mut found), Ok(()));
    assert!(found.pop().is_some_and(|last| last == FoundAt::default()) && addresses.len() > 100);
    for (one, address) in found.iter().zip(&addresses) {
        assert_eq!((one.found, one.symbol, one.symbol.value + one.offset), (1, symbols[one.index as usize], *address));
    }
    // With other words or numbers a symbol may be missed, and one that is found covers the address.
    for (turned, also) in [(1, 0), (0, 1), (1, 1)] {
        words.rotate_left(turned);
        numbers.rotate_left(also);
        let mut others = std::vec![FoundAt::default(); addresses.len()];
        assert_eq!(ffi::symbols_at(&input, &index, &words, &numbers, &addresses, &mut others), Ok(()));
        assert!(others.iter().zip(&addresses).all(|(one, address)| one.found == 0 || address - one.symbol.value < one.symbol.size.max(1)));
    }
    let far = Range { offset: u64::MAX, size: 0 };
    assert_eq!(ffi::address_index(&input, &header, &table, &far, 0, &mut words, &mut numbers), Err(Error::DataRange));
    assert_eq!(ffi::address_index(&input, &header, &table, &Range { offset: 0, size: 3 }, 0, &mut words, &mut numbers), Err(Error::NotMultiple));
    assert_eq!(ffi::symbols_at(&input, &AddressIndex { indices: far, ..index }, &words, &numbers, &addresses, &mut found), Err(Error::DataRange));
}

// The mappings of the test itself that /proc has of it, relative to the first: start, end, offset and permissions, for those of the
// file. The memory for zeros has no path there.
fn maps() -> Vec<(u64, u64, u64, u32)> {
    let path = std::env::current_exe().expect("a path");
    let maps = std::fs::read_to_string("/proc/self/maps").expect("the maps of the test");
    let number = |text: &str| u64::from_str_radix(text, 16).expect("hexadecimal");
    let rows = maps.lines().filter(|line| line.ends_with(path.to_str().expect("a path"))).map(|line| {
        let mut words = line.split_whitespace();
        let (start, end) = words.next().and_then(|range| range.split_once('-')).expect("a range");
        let flags = words.next().expect("permissions").bytes().zip([PF_R, PF_W, PF_X]).filter(|(letter, _)| *letter != b'-').map(|(_, flag)| flag).sum();
        (number(start), number(end), number(words.next().expect("an offset")), flags)
    });
    let rows: Vec<_> = rows.collect();
    let base = rows[0].0;
    rows.into_iter().map(|(start, end, offset, flags)| (start - base, end - base, offset, flags)).collect()
}

#[test]
fn plans_are_as_the_kernel_maps() {
    let input = whole();
    let file = crate::ElfFile::new(&input).expect("an ELF file");
    let plan = file.load_plan().expect("it runs");
    assert_eq!((plan.entry(), plan.interpreter()), (file.header().entry_point, Some(&b"/lib64/ld-linux-x86-64.so.2"[..])));
    assert_eq!(plan.stack_flags().map(|flags| flags & PF_X), Some(0));
    let relro = plan.relro().expect("a part that is read-only after relocation");
    let mappings: Vec<Mapping> = plan.mappings(crate::Loader::Linux).collect();
    assert!(!mappings.iter().any(|one| one.is_write_execute()));
    assert_eq!((mappings.first().map(|one| one.start), mappings.last().map(|one| one.end)), (Some(plan.span().start), Some(plan.span().end)));
    // The linker makes what is read-only after relocation a mapping of its own.
    let split = |one: &Mapping| {
        let (end, flags) = (one.end.min(relro.end.max(one.start)), one.flags);
        let part = |start: u64, end: u64, flags| (start, end, one.offset + (start - one.start), flags);
        [part(one.start, end, if one.start >= relro.start { flags & !PF_W } else { flags }), part(end, one.end, flags)]
    };
    let planned: Vec<_> = mappings.iter().filter(|one| one.contents == 1).flat_map(split).filter(|(start, end, _, _)| start < end).collect();
    assert_eq!(planned, maps());
    let glibc: Vec<Mapping> = plan.mappings(crate::Loader::Glibc).collect();
    assert!(glibc.windows(2).all(|pair| pair[0].end == pair[1].start));
    // Some linkers give segments addresses that are their offsets.
    assert!(matches!(file.load_plan_with(1 << 40, 0), Err(Error::LoadOverlap | Error::LoadMisaligned)));
    assert_eq!(file.load_plan_with(0, 4096).map(|_| ()), Err(Error::LoadRange));
    assert_eq!(crate::ElfFile::new(&input[..64]).and_then(|file| file.load_plan().map(|_| ())), Err(Error::LoadTable));
}

// The files of the process, the test first, each with its base.
fn objects_of_the_process() -> Vec<(u64, Vec<u8>)> {
    let own = std::env::current_exe().expect("a path");
    let maps = std::fs::read_to_string("/proc/self/maps").expect("maps");
    let mut found: Vec<(u64, &str)> = Vec::new();
    for line in maps.lines().filter(|line| line.contains(".so") || line.ends_with(own.to_str().expect("a path"))) {
        let (start, path) = (line.split('-').next().expect("a start"), line.split_whitespace().last().expect("a path"));
        if found.iter().all(|(_, other)| *other != path) {
            found.push((u64::from_str_radix(start, 16).expect("an address"), path));
        }
    }
    found.sort_by_key(|(_, path)| own.to_str() != Some(path));
    found.into_iter().map(|(base, path)| (base, std::fs::read(path).expect("a file"))).collect()
}

#[test]
fn words_are_those_of_the_process() {
    use std::io::{Read, Seek, SeekFrom};
    let files = objects_of_the_process();
    let objects: Vec<_> = files.iter().map(|(base, bytes)| crate::LoadObject::new(bytes).at(*base)).collect();
    let file = crate::ElfFile::new(&files[0].1).expect("an ELF file");
    let plan = file.load_plan().expect("it runs");
    let mut image = std::vec![0; (plan.span().end - plan.span().start) as usize];
    assert_eq!(plan.fill(crate::Loader::Linux, &mut image[1..]), Err(Error::LoadImageSize));
    plan.fill(crate::Loader::Linux, &mut image).expect("an image of this size");
    let few = crate::ObjectError { error: Error::LoadFewMarks, object: None, relocation: None };
    assert_eq!(crate::check_image(&objects, 0, 0, 0, &mut []), Err(few));
    crate::check_image(&objects, 0, 0, 0, &mut std::vec![0; image.len() / 8 + 1]).expect("words that can be written");
    let left = crate::relocate(&objects, 0, crate::Binding::Now, 0, 0, &mut image).expect("all symbols");
    // One call for all objects writes the same to this one.
    let mut sizes = std::vec::Vec::new();
    let mut images = std::vec::Vec::new();
    for (index, (_, bytes)) in files.iter().enumerate() {
        let (file, by) = (crate::ElfFile::new(bytes).expect("an ELF file"), if index == 0 { crate::Loader::Linux } else { crate::Loader::Glibc });
        let plan = file.load_plan().expect("it runs");
        let mut own = std::vec![0; (plan.span().end - plan.span().start) as usize];
        plan.fill(by, &mut own).expect("an image of this size");
        sizes.push(own.len());
        images.extend(own);
    }
    let short = images.len() - 1;
    let misfit = crate::ObjectError { error: Error::LoadImageSize, object: None, relocation: None };
    assert_eq!(crate::relocate_all(&objects, crate::Binding::Now, 0, 0, &mut images[..short]), Err(misfit));
    crate::relocate_all(&objects, crate::Binding::Now, 0, 0, &mut images).expect("all symbols");
    assert!(images[..sizes[0]] == image[..]);
    let unresolved = crate::relocate_all(&objects[..1], crate::Binding::Now, 0, 0, &mut images[..sizes[0]]);
    let unresolved = unresolved.expect_err("a symbol");
    assert_eq!((unresolved.error, unresolved.object), (Error::LoadUnresolved, Some(0)));
    assert!(unresolved.relocation.is_some());
    assert_eq!(std::format!("{unresolved}"), "object 0: Symbol is in no object");
    let many = std::vec![objects[0]; 65];
    let answer = crate::relocate_all(&many, crate::Binding::Now, 0, 0, &mut []);
    assert_eq!(answer, Err(crate::ObjectError { error: Error::ManyObjects, object: None, relocation: None }));
    // What is read-only after relocation is as in memory, but for the words without a number and the dynamic segment.
    let relro = plan.relro().expect("a part that is read-only after relocation");
    let (_, dynamic) = section_of_type(&files[0].1, file.header(), SHT_DYNAMIC);
    let mut memory = std::vec![0; (relro.end - relro.start) as usize];
    let mut mapped = std::fs::File::open("/proc/self/mem").expect("memory");
    mapped.seek(SeekFrom::Start(files[0].0 + relro.start)).expect("an address");
    mapped.read_exact(&mut memory).expect("pages");
    let words = memory.chunks(8).zip(image[relro.start as usize..].chunks(8)).zip((relro.start..).step_by(8));
    let others = words.filter(|((one, other), at)| one != other && !(dynamic.address..dynamic.address + dynamic.size).contains(at));
    assert!(others.count() as u64 <= left);
    let none = crate::ObjectError { error: Error::LinkObjectIndex, object: None, relocation: None };
    assert_eq!(crate::relocate(&objects, objects.len(), crate::Binding::Lazy, 0, 0, &mut image), Err(none));
}

#[test]
fn errors_have_the_index_of_their_object() {
    let own = std::fs::read("/proc/self/exe").expect("a file");
    let file = crate::ElfFile::new(&own).expect("an ELF file");
    let span = file.load_plan().expect("it runs").span();
    let size = (span.end - span.start) as usize;
    let (mut marks, mut image) = (std::vec![0; size / 8 + 1], std::vec![0; size]);
    let whole = crate::LoadObject::new(&own);
    // The words of the object itself: without its libraries it has a symbol that nothing has.
    let unresolved = crate::relocate(&[whole, whole], 1, crate::Binding::Now, 0, 0, &mut image).expect_err("a symbol");
    assert_eq!((unresolved.error, unresolved.object), (Error::LoadUnresolved, Some(1)));
    assert!(unresolved.relocation.is_some());
    // Another file that can't be read, of whatever object the words are.
    let short = crate::ObjectError { error: Error::ShortPart1, object: Some(2), relocation: None };
    let objects = [whole, whole, crate::LoadObject::new(&own[..3])];
    for of in 0..4 {
        assert_eq!(crate::check_image(&objects, of, 0, 0, &mut marks), Err(short));
        assert_eq!(crate::relocate(&objects, of, crate::Binding::Now, 0, 0, &mut image), Err(short));
    }
    // Another that has no plan: its load segments are past the first addresses.
    let limited = crate::ObjectError { error: Error::LoadRange, object: Some(0), relocation: None };
    assert_eq!(crate::check_image(&[whole], 0, 0, 4096, &mut marks), Err(limited));
    let misfit = crate::ObjectError { error: Error::LoadImageSize, object: None, relocation: None };
    assert_eq!(crate::relocate(&[whole], 0, crate::Binding::Now, 0, 0, &mut image[1..]), Err(misfit));
}

#[test]
fn empty_slices() {
    let header = ffi::open(&whole()).expect("an ELF file");
    assert_eq!(ffi::open(&[]), Err(Error::ShortPart1));
    assert_eq!(ffi::section(&[], &header, 0), Err(Error::ShortSectionHeader));
    assert_eq!(ffi::find_section_index(&[], &header, &[]), Err(Error::NotFound));
    ffi::look_ups(&[], &FoundTable::default(), &[], &[], &mut []);
    assert_eq!(ffi::symbols_at(&[], &AddressIndex::default(), &[], &[], &[], &mut []), Ok(()));
    assert_eq!(ffi::load_mappings(&[], &header, 0, 0, 0, 0, &mut []), Err(Error::LoadTable));
    assert_eq!(ffi::message(203, &mut []), "Nothing has this name".len());
}

#[test]
fn each_call_returns_what_is_listed() {
    // tools/exports/bindings.sh puts the files of tools/compare/damage.py there.
    let folder = std::env::var_os("XMAS_ELF_DAMAGED").into_iter().flat_map(|folder| std::fs::read_dir(folder).expect("a folder"));
    let damaged: Vec<_> = folder.map(|file| std::fs::read(file.expect("a file").path()).expect("its bytes")).collect();
    let whole = whole();
    let header = ffi::open(&whole).expect("an ELF file");
    let table = ffi::symbols_open(&whole, &header, section_of_type(&whole, &header, SHT_DYNSYM).0).expect("symbols");
    let hash = ffi::hash_open(&whole, &header, section_of_type(&whole, &header, SHT_GNU_HASH).0).expect("a hash table");
    let (mut calls, mut read) = (0, 0);
    for (input, name) in [(&*whole, &b"main"[..]), (&[], &[])].into_iter().chain(damaged.iter().map(|file| (&**file, &b".text"[..]))) {
        let header = ffi::open(input).unwrap_or(header);
        for (section, index) in (0..40).flat_map(|section| [0, 1, 7, 1 << 40, u64::MAX].map(|index| (section, index))) {
            let addresses = AddressIndex { table, words: 3, numbers: 2, sized_count: 1, open_count: 1, machine: EM_X86_64, ..AddressIndex::default() };
            let asked = Asked { input, header, part: Range { offset: index, size: 64 }, table, hash, addresses, name, section, index };
            every(&asked, |call, result, listed| {
                calls += 1;
                match result {
                    Ok(()) => read += 1,
                    Err(error) => assert!(listed.contains(&error), "{call}: {error:?}"),
                }
            });
        }
    }
    assert!(calls > 400 * 20 && read > calls / 10);
}
