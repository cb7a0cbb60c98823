//! Damaged files: every call returns, and each part that it gives lies in the input.

use xmas_elf_proved::constants::{ET_DYN, SHT_NULL};
use xmas_elf_proved::program::Type;
use xmas_elf_proved::{Answer, ByteRange, Dynamic, ElfFile, Entry, Error, HashTable, Loader, Name, ProgramHeader, Relocation, Section, SectionHeader, Version, VersionKind};

// A stream of numbers (Marsaglia's xorshift of 64 bits), the same in each run.
struct Numbers(u64);

impl Numbers {
    fn below(&mut self, limit: usize) -> usize {
        self.0 ^= self.0 << 13;
        self.0 ^= self.0 >> 7;
        self.0 ^= self.0 << 17;
        (self.0 % limit as u64) as usize
    }
}

fn lies_in(input: &[u8], part: &[u8]) -> bool {
    part.is_empty() || input.as_ptr_range().start <= part.as_ptr() && part.as_ptr_range().end <= input.as_ptr_range().end
}

// Look-ups by one call return what each by itself does; a range past the end of the names has an error.
fn visit_look_ups(table: &HashTable<'_, '_>) {
    let names = "mainprintfmain\0a".as_bytes();
    let ranges = [0..4, 4..10, 4..4, 10..14, 14..16, 0..10].map(ByteRange::from);
    let mut results = [Answer::default(); 8];
    let Ok(count) = table.look_ups(names, &ranges, &mut results) else {
        return assert_eq!(table.look_up("main").err(), table.check().err());
    };
    assert_eq!(count, ranges.len());
    for (range, result) in ranges.iter().zip(&results) {
        let start = range.offset as usize;
        let name = std::str::from_utf8(&names[start..start + range.size as usize]).expect("ASCII");
        let alone = table.look_up_counted(name).map(|said| (said.found, said.index, said.looked_at));
        assert_eq!(result.look_up().map(|said| (said.found, said.index, said.looked_at)), alone);
    }
    let past = [ByteRange::from(14..17), ByteRange { offset: u64::MAX, size: u64::MAX }];
    assert_eq!(table.look_ups(names, &past, &mut results[..1]), Ok(1));
    assert!(results[0].index() == Err(Error::DataRange) && results[1].look_up().is_ok() == table.look_up("printf").is_ok());
    assert_eq!(table.look_ups(b"\xff", &[ByteRange::from(0..1)], &mut results), Ok(1));
    assert_eq!(results[0].index(), Err(Error::TextUtf8));
}

// Sections and their names by many at once, as each by itself.
fn visit_section_names(file: &ElfFile<'_>) {
    let mut names = [Name::default(); 9];
    for first in [0, 1, 5, u64::MAX] {
        let count = file.section_names_from(first, &mut names).unwrap_or(0);
        let left = usize::try_from(first).map_or(0, |first| file.readable_sections().skip(first).take(9).count());
        assert_eq!(count, left);
        for (place, name) in names.iter().take(count).enumerate() {
            let section = file.section(first + place as u64).expect("a section with a name");
            assert_eq!(file.name_of(name), section.name());
        }
    }
    let read = (0..file.section_count().unwrap_or(0)).map_while(|index| file.section(index).ok()).take(200);
    assert!(read.zip(file.readable_sections()).all(|(one, of_many)| one.index() == of_many.index() && one.offset == of_many.offset));
    let mut headers = [SectionHeader::default(); 3];
    assert_eq!(file.sections_from(0, &mut headers).unwrap_or(0), file.readable_sections().take(3).count());
    assert_eq!(file.section_names_from(0, &mut []).is_ok(), file.readable_sections().next().is_some());
    assert_eq!(file.readable_sections().len(), file.readable_sections().count());
    // A table that is cut off is an error of the call for all.
    let is_whole = file.section_count() == Ok(file.readable_sections().len() as u64)
        && (file.readable_sections().len() > 0 || file.header().sh_offset == 0 || file.section(0).is_ok());
    assert_eq!(file.sections().map(|all| all.len()).ok(), is_whole.then(|| file.readable_sections().len()));
    for section in file.readable_sections().filter(|section| section.type_ != SHT_NULL).take(200) {
        let Ok(name) = section.name() else { continue };
        let first = file.readable_sections().find(|one| one.name() == Ok(name) && one.type_ != SHT_NULL).map(|one| one.index());
        assert!(first.is_some() && file.section_index_by_name(name) == Ok(first));
        assert_eq!(file.section_by_name(name).map(|one| one.map(|one| *one)), file.section_header_by_name(name).map(Some));
    }
}

// Names of symbols by many at once, as each by itself.
fn visit_symbol_names(file: &ElfFile<'_>, section: &Section<'_, '_>) {
    let mut names = [Name::default(); 7];
    let count = section.symbol_names_from(3, &mut names).unwrap_or(0);
    let Ok(symbols) = section.symbols() else {
        return assert!(count == 0);
    };
    assert_eq!(count, symbols.clone().skip(3).take(7).count());
    for (name, symbol) in names.iter().take(count).zip(symbols.skip(3)) {
        assert_eq!(file.name_of(name).map(str::as_bytes), symbol.name_bytes());
    }
}

// Relocations, dynamic entries and segments by many at once, as each by itself.
fn visit_batches(file: &ElfFile<'_>, section: &Section<'_, '_>) {
    let (mut relocations, mut tags) = ([Relocation::default(); 7], [Dynamic::default(); 7]);
    for (place, one) in section.relocations().into_iter().flatten().take(200).enumerate() {
        assert_eq!(section.relocation(place as u64), Ok(one));
    }
    for (place, one) in section.dynamic().into_iter().flatten().take(200).enumerate() {
        assert_eq!(section.dynamic_entry(place as u64), Ok(one));
    }
    let count = section.relocations_from(3, &mut relocations).unwrap_or(0);
    assert!(section.relocations().into_iter().flatten().skip(3).take(7).eq(relocations[..count].iter().copied()));
    let count = section.dynamic_from(3, &mut tags).unwrap_or(0);
    assert!(section.dynamic().into_iter().flatten().skip(3).take(7).eq(tags[..count].iter().copied()));
    assert_eq!(section.relocations().map(|records| records.len()), section.relocations().map(|records| records.count()));
    assert_eq!(section.dynamic().map(|records| records.len()), section.dynamic().map(|records| records.count()));
    let text = section.text(1);
    assert!(text.map_or(true, |text| lies_in(file.input(), text.as_bytes())));
}

// The texts of the dynamic segment lie in the input; segments by many at once are as each by itself.
fn visit_segments(file: &ElfFile<'_>) {
    let needed = file.needed().into_iter().flatten().take(200);
    for name in needed.chain([file.soname(), file.run_path()].into_iter().filter_map(Result::transpose)) {
        assert!(name.map_or(true, |name| lies_in(file.input(), name.as_bytes())));
    }
    let read = (0..file.segment_count().unwrap_or(0)).map_while(|index| file.segment(index).ok()).take(200);
    assert!(read.map(|one| *one).eq(file.readable_segments().take(200).map(|one| *one)));
    assert_eq!(file.readable_segments().len(), file.readable_segments().count());
    let is_whole = file.segment_count() == Ok(file.readable_segments().len() as u32);
    assert_eq!(file.segments().map(|all| all.len()).ok(), is_whole.then(|| file.readable_segments().len()));
    let mut headers = [ProgramHeader::default(); 3];
    let count = file.segments_from(1, &mut headers).unwrap_or(0);
    assert!(file.readable_segments().skip(1).take(3).map(|one| *one).eq(headers[..count].iter().copied()));
}

// Each byte is in one piece, each address of a section in one piece by symbols, and each symbol covers its addresses.
#[cfg(feature = "alloc")]
fn visit_pieces(file: &ElfFile<'_>) {
    let mut end = 0;
    for piece in file.pieces() {
        assert!(piece.begin == end && piece.end > end);
        end = piece.end;
    }
    assert_eq!(end, file.input().len() as u64);
    let by_section = file.section_symbols();
    for section in file.readable_sections().take(100) {
        if let (Ok(pieces), Ok(all)) = (section.symbol_pieces(), &by_section) {
            let shown = |it: xmas_elf_proved::SymbolPiece<'_>| (it.begin, it.end, it.symbol.map(|symbol| (symbol.value, symbol.size)));
            assert!(pieces.map(shown).eq(all.pieces(&section).into_iter().flatten().map(shown)));
        }
        let mut end = None;
        for piece in section.symbol_pieces().into_iter().flatten() {
            assert!(end.map_or(true, |end| end == piece.begin) && piece.begin < piece.end);
            assert!(piece.symbol.map_or(true, |symbol| symbol.value <= piece.begin && piece.end - symbol.value <= symbol.size));
            end = Some(piece.end);
        }
    }
}

// The symbols of the dynamic segment by many at once are those of the iterator, as many as are counted, and their names lie
// in the input.
fn visit_dynamic_symbols(file: &ElfFile<'_>) {
    let (mut entries, mut names) = ([Entry::default(); 7], [Name::default(); 7]);
    let count = file.dynamic_symbols_from(3, &mut entries).unwrap_or(0);
    assert_eq!(file.dynamic_symbol_names_from(3, &mut names).unwrap_or(0), count);
    // The symbols of a table that can't be read are an error, and not none.
    let room = file.dynamic_symbols_from(0, &mut [Entry::default()]).err();
    let is_none = [None, Some(Error::NoRecord)].contains(&room) || room == Some(Error::LinkNoDynamic) && file.segments().is_ok();
    let Ok(symbols) = file.dynamic_symbols() else {
        assert!(!is_none && count == 0);
        return;
    };
    assert!(is_none && symbols.len() == symbols.clone().count());
    let left = symbols.clone().skip(3).take(7);
    assert_eq!(left.clone().count(), count);
    for ((symbol, entry), name) in left.zip(&entries).zip(&names) {
        assert!(*symbol == *entry && symbol.name() == file.name_of(name) && symbol.name().map(str::as_bytes) == symbol.name_bytes());
        assert!(symbol.name().map_or(true, |name| lies_in(file.input(), name.as_bytes())));
    }
    let counted = file.dynamic_symbol_count().unwrap_or(0);
    assert!(symbols.clone().take(2000).all(|symbol| symbol.index() < counted));
    let versions: Vec<_> = file.dynamic_symbol_versions().into_iter().flatten().take(20).collect();
    for (symbol, version) in symbols.zip(versions) {
        assert_eq!(symbol.version(), version.map(Some));
        if let Ok(Some(found)) = symbol.name().and_then(|name| file.find_symbol(name, None)) {
            assert_eq!(found.name(), symbol.name());
        }
    }
}

// The versions by many at once are those of the iterators, their names lie in the input, and a version with an error is the
// last of its list.
fn visit_versions(file: &ElfFile<'_>) {
    let mut many = [Version::default(); 7];
    let count = file.dynamic_symbol_versions_from(3, &mut many).unwrap_or(0);
    let listed = || file.dynamic_symbol_versions().into_iter().flatten();
    assert!(listed().skip(3).take(7).eq(many[..count].iter().map(|one| file.version_of(one))));
    // The symbols themselves may not be readable.
    let symbols = file.dynamic_symbols_from(3, &mut [Entry::default(); 7]);
    assert!(count == 0 || symbols.map_or(true, |symbols| symbols == count));
    let count = file.version_definitions_from(1, &mut many).unwrap_or(0);
    assert!(file.version_definitions().into_iter().flatten().skip(1).take(7).eq(many[..count].iter().map(|one| file.version_of(one))));
    let count = file.version_needs_from(1, &mut many).unwrap_or(0);
    assert!(file.version_needs().into_iter().flatten().skip(1).take(7).eq(many[..count].iter().map(|one| file.version_of(one))));
    let definitions = file.version_definitions().into_iter().flatten().take(2000).collect::<Vec<_>>();
    let lists = [definitions, file.version_needs().into_iter().flatten().take(2000).collect()];
    for list in &lists {
        assert!(list.iter().rev().skip(1).all(|version| version.is_ok()));
    }
    for version in listed().take(2000).chain(lists.into_iter().flatten()).flatten() {
        for name in [version.name(), version.library()] {
            assert!(name.map_or(true, |name| name.map_or(true, |name| lies_in(file.input(), name.as_bytes()))));
        }
        assert_eq!(version.kind() == VersionKind::Unnamed, version.name() == Ok(None));
        assert_eq!(version.kind() == VersionKind::Needed, version.library() != Ok(None));
    }
}

fn visit_section(input: &[u8], section: &Section<'_, '_>) -> usize {
    let mut found = 0;
    assert_eq!(section.check(), section.get_type().map(|_| ()));
    for symbol in section.symbols().into_iter().flatten().take(200) {
        found += 1;
        assert!(symbol.name().map_or(true, |name| lies_in(input, name.as_bytes())));
        assert_eq!(symbol.name().map(str::as_bytes), symbol.name_bytes());
    }
    let mut many = [Entry::default(); 7];
    let count = section.symbols_from(3, &mut many).unwrap_or(0);
    assert_eq!(section.symbols().map(|symbols| symbols.len()), section.symbols().map(|symbols| symbols.count()));
    let left = section.symbols().into_iter().flatten().skip(3).take(7);
    assert!(left.clone().count() == count && left.zip(&many).all(|(symbol, entry)| symbol.value == entry.value));
    found += section.relocations().map_or(0, |records| records.take(200).count()) + section.dynamic().map_or(0, |records| records.take(200).count());
    for note in section.notes().into_iter().flatten().take(200).flatten() {
        found += 1;
        assert!(lies_in(input, note.name) && lies_in(input, note.desc));
    }
    if let Some(table) = section.hash_table() {
        let _checked = table.check();
        visit_look_ups(&table);
        for name in ["", "main", "printf", "a"] {
            if let Ok(Some(symbol)) = table.look_up(name) {
                found += 1;
                assert!(symbol.name().is_ok_and(|found| found == name && lies_in(input, found.as_bytes())));
            }
        }
    }
    assert!(section.data().map_or(true, |data| lies_in(input, data) && [0, section.size].contains(&(data.len() as u64))));
    assert!(section.name().map_or(true, |name| lies_in(input, name.as_bytes())));
    assert!(format!("{section:?}").len() < 1000 + section.name().map_or(0, str::len) * 4);
    found
}

// A symbol that the map finds covers the address.
#[cfg(feature = "alloc")]
fn visit_symbol_map(file: &ElfFile<'_>) {
    let Ok(map) = file.symbol_map() else {
        return;
    };
    for symbol in file.readable_sections().take(200).flat_map(|section| section.symbols().into_iter().flatten().take(20)) {
        for address in [symbol.value, symbol.value.wrapping_add(symbol.size), u64::MAX] {
            assert!(map.get(address).map_or(true, |found| found.value <= address && address - found.value < found.size.max(1)));
        }
    }
}

// Linux maps each file with a plan. What a loader says is no error that only plans have, but of a big-endian library.
fn visit_loads(file: &ElfFile<'_>) {
    let is_library = file.loader() == Loader::Glibc;
    assert!(file.load_plan().is_err() || file.check_load(Loader::Linux).is_ok());
    assert!(!is_library || file.header().type_ == ET_DYN);
    if is_library && file.header().encoding == 2 {
        return assert_eq!(file.loads().err(), file.load_plan().err());
    }
    assert_eq!(file.loads(), file.check_load(file.loader()));
    assert!(!matches!(file.loads(), Err(Error::LoadAlignment | Error::LoadZeros | Error::LoadHeaders)));
}

// Mappings of a file with a plan are not empty, follow each other in the span, and lie in the file.
fn visit_load_plan(file: &ElfFile<'_>) {
    let Ok(plan) = file.load_plan() else {
        return;
    };
    assert!(plan.interpreter().map_or(true, |path| lies_in(file.input(), path) && !path.contains(&0)));
    for by in [Loader::Linux, Loader::Glibc] {
        let mut end = plan.span().start;
        for mapping in plan.mappings(by) {
            assert!(end <= mapping.start && mapping.start < mapping.end && mapping.end <= plan.span().end);
            end = mapping.end;
        }
    }
}

// The first fault of a header whose class is known, by its numbers.
fn header_fault(file: &ElfFile<'_>) -> Result<(), Error> {
    let header = file.header();
    let ends = |offset: u64, size: u16, count: u64| u128::from(offset) + u128::from(size) * u128::from(count) <= file.input().len() as u128;
    let tests = [
        (header.header_size == if file.is_64() { 64 } else { 52 }, Error::HeaderSize),
        (header.header_version != 0, Error::NoVersion),
        (header.encoding != 0, Error::NoDataFormat),
        (ends(header.ph_offset, header.ph_entry_size, file.segment_count().unwrap_or(0).into()), Error::PhTableRange),
        (ends(header.sh_offset, header.sh_entry_size, file.section_count().unwrap_or(0)), Error::ShTableRange),
    ];
    tests.into_iter().try_for_each(|(passes, fault)| if passes { Ok(()) } else { Err(fault) })
}

// The first fault of a segment that can be read, by its numbers.
fn segment_fault(file: &ElfFile<'_>, segment: &ProgramHeader) -> Result<(), Error> {
    let ends_inside = u128::from(segment.offset) + u128::from(segment.file_size) < file.input().len() as u128;
    let is_aligned = segment.align < 2 || segment.virtual_addr % segment.align == segment.offset % segment.align;
    let tests = [
        (file.header().ph_entry_size == if file.is_64() { 56 } else { 32 }, Error::PhSizeMismatch),
        (ends_inside, Error::EntryPointRange),
        (segment.get_type().is_ok(), Error::InvalidPhType),
        (segment.get_type() != Ok(Type::ShLib), Error::ShLibUsed),
        (is_aligned, Error::BadAlign),
    ];
    tests.into_iter().try_for_each(|(passes, fault)| if passes { Ok(()) } else { Err(fault) })
}

fn visit(input: &[u8]) -> usize {
    let Ok(file) = ElfFile::new(input) else {
        return 0;
    };
    assert_eq!(file.check_header(), header_fault(&file));
    visit_section_names(&file);
    file.readable_sections().take(200).for_each(|section| visit_symbol_names(&file, &section));
    file.readable_sections().take(200).for_each(|section| visit_batches(&file, &section));
    visit_segments(&file);
    #[cfg(feature = "alloc")]
    visit_pieces(&file);
    visit_dynamic_symbols(&file);
    visit_versions(&file);
    visit_load_plan(&file);
    // Of a file whose headers can't be read no word is said.
    assert!(file.hardening().is_err() || file.sections().is_ok() && file.segments().is_ok());
    visit_loads(&file);
    assert!(file.build_id().ok().flatten().map_or(true, |id| lies_in(input, id)));
    assert!(file.notes().take(200).flatten().all(|note| lies_in(input, note.name) && lies_in(input, note.desc)));
    assert!(file.dynamic().map_or(true, |entries| entries.take(200).count() <= 200));
    assert!(file.relocations().map_or(true, |relocations| relocations.take(200).count() <= 200));
    assert!(file.packed_relocations().map_or(true, |addresses| addresses.take(200).count() <= 200));
    assert!(format!("{file:?}").len() < 1000);
    #[cfg(feature = "alloc")]
    visit_symbol_map(&file);
    let segments = file.readable_segments().take(200).map(|segment| {
        assert_eq!(segment.check(), segment_fault(&file, &segment));
        assert!(segment.data().map_or(true, |data| lies_in(input, data)));
        for count in [0, 1, segment.file_size, u64::MAX] {
            let bytes = file.bytes_at(segment.virtual_addr, count);
            assert!(bytes.map_or(true, |bytes| lies_in(input, bytes) && bytes.len() as u64 == count));
        }
        1
    });
    segments.sum::<usize>() + file.readable_sections().take(200).map(|section| visit_section(input, &section)).sum::<usize>()
}

#[test]
fn damaged_files_are_read_or_have_an_error() {
    let whole = std::fs::read(std::env::current_exe().expect("a path")).expect("the test itself is a file");
    let mut numbers = Numbers(0x9e37_79b9_7f4a_7c15);
    assert!(visit(&whole) > 100);
    let table = ElfFile::new(&whole).expect("an ELF file").header().sh_offset as usize;
    for _round in 0..400 {
        let mut bytes = whole.clone();
        for _edit in 0..1 + numbers.below(8) {
            // Half of the edits fall on the two headers, where they tell most.
            let place = match numbers.below(4) {
                0 => numbers.below(64),
                1 => table + numbers.below(bytes.len() - table),
                _ => numbers.below(bytes.len()),
            };
            bytes[place] = [0, 1, 0x7f, 0x80, 0xff, numbers.below(256) as u8][numbers.below(6)];
        }
        if numbers.below(4) == 0 {
            bytes.truncate(numbers.below(bytes.len()));
        }
        visit(&bytes);
    }
}

#[test]
fn a_number_of_sections_that_is_lost_is_an_error() {
    let mut bytes = std::fs::read("/bin/true").expect("a program");
    let place = bytes.len() as u64 - 20;
    bytes[40..48].copy_from_slice(&place.to_le_bytes());
    bytes[60..62].fill(0);
    assert_eq!(ElfFile::new(&bytes).and_then(|file| file.sections().map(|all| all.len())), Err(Error::ShortSectionHeader));
}

#[test]
fn short_inputs_have_an_error() {
    let whole = std::fs::read(std::env::current_exe().expect("a path")).expect("the test itself is a file");
    for len in 0..64 {
        assert!(ElfFile::new(&whole[..len]).is_err());
    }
    assert!(ElfFile::new(&whole[..64]).is_ok());
}

// tools/exports/bindings.sh puts the files of tools/compare/damage.py there.
#[test]
fn files_of_the_folder_are_read_or_have_an_error() {
    let Some(folder) = std::env::var_os("XMAS_ELF_DAMAGED") else {
        return;
    };
    let mut found = 0;
    for file in std::fs::read_dir(folder).expect("a folder") {
        found += visit(&std::fs::read(file.expect("a file").path()).expect("its bytes"));
    }
    assert!(found > 0);
}
