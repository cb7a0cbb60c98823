//! compare FILE..: asks `xmas-elf-proved` and `object` for all parts of each file, and tells each difference.

use object::elf::{FileHeader32, FileHeader64, PT_LOAD};
use object::read::elf::{Dyn, FileHeader, ProgramHeader, Rel, Rela, SectionHeader, SectionTable, Sym, SymbolTable, VersionTable};
use object::{Endianness, Object, SectionIndex};
use std::fmt::Debug;
use xmas_elf_proved::{Answer, ByteRange, ElfFile, HashTable, Name, Section};

// Counts results, and tells of those that differ.
struct Results<'p> {
    path: &'p str,
    asked: u64,
    differ: u64,
}

impl Results<'_> {
    fn same<T: PartialEq + Debug>(&mut self, what: &str, here: T, there: T) {
        self.asked += 1;
        if here != there {
            self.differ += 1;
            if self.differ <= 5 {
                println!("{}: {what}: here {here:?}, object {there:?}", self.path);
            }
        }
    }
}

type Sections<'d, Elf> = SectionTable<'d, Elf, &'d [u8]>;

fn compare<Elf: FileHeader<Endian = Endianness>>(input: &[u8], file: &ElfFile<'_>, results: &mut Results<'_>) -> object::Result<()> {
    let header = Elf::parse(input)?;
    let endian = header.endian()?;
    results.same("entry point", file.header().entry_point, header.e_entry(endian).into());
    results.same("machine", file.header().machine, header.e_machine(endian));
    let sections = header.sections(endian, input)?;
    results.same("section count", file.section_count().ok(), Some(sections.len() as u64));
    let segments = header.program_headers(endian, input)?;
    compare_segments::<Elf>(input, file, segments, endian, results);
    compare_addresses::<Elf>(input, file, segments, endian, results);
    let whole = object::read::elf::ElfFile::<Elf>::parse(input)?;
    results.same("build id", file.build_id().ok(), Some(whole.build_id()?));
    compare_section_names(file, results);
    for (index, theirs) in sections.iter().enumerate() {
        let Ok(ours) = file.section(index as u64) else {
            results.same("section is read", false, true);
            continue;
        };
        compare_section::<Elf>(input, &ours, theirs, &sections, endian, results);
        compare_symbols::<Elf>(input, &ours, &sections, endian, results)?;
        compare_records::<Elf>(input, &ours, theirs, endian, results)?;
        compare_notes::<Elf>(input, &ours, theirs, endian, results)?;
        if let Some(table) = ours.hash_table() {
            compare_look_ups::<Elf>(input, &table, theirs, &sections, endian, results)?;
        }
    }
    Ok(())
}

// The sections and their names by many at once, as each by its own call.
fn compare_section_names(file: &ElfFile<'_>, results: &mut Results<'_>) {
    let mut names = vec![Name::default(); file.section_count().unwrap_or(0) as usize];
    let count = file.section_names_from(0, &mut names).unwrap_or(0);
    results.same("count of section names", file.readable_sections().count(), count);
    for (section, name) in file.readable_sections().zip(&names) {
        let alone = file.section(section.index()).map(|one| (one.name, one.type_, one.offset, one.size, one.link));
        results.same("section of many", alone.ok(), Some((section.name, section.type_, section.offset, section.size, section.link)));
        results.same("section name of many", section.name(), file.name_of(name));
        let first = file.section_names_from(section.index(), &mut [Name::default()]);
        results.same("one section name", first, Ok(1));
        if let (Ok(name), true) = (section.name(), section.type_ != object::elf::SHT_NULL) {
            let is_named = |one: &Section<'_, '_>| one.name() == Ok(name) && one.type_ != object::elf::SHT_NULL;
            let found = file.readable_sections().find(is_named).map(|one| one.index());
            results.same("section by its name", file.section_by_name(name).ok().flatten().map(|one| one.index()), found);
        }
    }
}

// The bytes at the first addresses of each loaded segment, at its last ones in the file, and past them.
fn compare_addresses<Elf: FileHeader<Endian = Endianness>>(
    input: &[u8],
    file: &ElfFile<'_>,
    theirs: &[Elf::ProgramHeader],
    endian: Endianness,
    results: &mut Results<'_>,
) {
    let loaded = || theirs.iter().filter(|program| program.p_type(endian) == PT_LOAD);
    for program in loaded() {
        let (start, size): (u64, u64) = (program.p_vaddr(endian).into(), program.p_filesz(endian).into());
        let end = start.wrapping_add(size);
        for (address, count) in [(start, size.min(16)), (end.wrapping_sub(size.min(16)), size.min(16)), (end.wrapping_sub(8), 16)] {
            let found = loaded().find_map(|other| other.data_range(endian, input, address, count).ok().flatten());
            results.same("bytes at an address", file.bytes_at(address, count).ok(), found);
        }
    }
}

// Each name of the linked symbols, and each with a sign more, which most tables don't have.
fn compare_look_ups<Elf: FileHeader<Endian = Endianness>>(
    input: &[u8],
    ours: &HashTable<'_, '_>,
    theirs: &Elf::SectionHeader,
    sections: &Sections<'_, Elf>,
    endian: Endianness,
    results: &mut Results<'_>,
) -> object::Result<()> {
    let symbols = sections.symbol_table_by_index(endian, input, SectionIndex(theirs.sh_link(endian) as usize))?;
    let (gnu, gabi) = (theirs.gnu_hash(endian, input)?, theirs.hash(endian, input)?);
    let versions = VersionTable::default();
    let find = |name: &[u8]| match (&gnu, &gabi) {
        (Some((table, _)), _) => table.find(endian, name, object::elf::gnu_hash(name), None, &symbols, &versions),
        (_, Some((table, _))) => table.find(endian, name, object::elf::hash(name), None, &symbols, &versions),
        _ => None,
    };
    // A table passes the check where each symbol is found that it is to hold.
    let held = symbols.iter().filter(|symbol| symbol.st_bind() != 0 && (!ours.is_gnu() || symbol.st_shndx(endian) != 0));
    let mut names = held.filter_map(|symbol| symbol.name(endian, symbols.strings()).ok());
    results.same("the hash table passes its check", ours.check().is_ok(), names.all(|name| find(name).is_some()));
    let (mut bytes, mut ranges) = (Vec::new(), Vec::new());
    for name in names_of(&symbols, endian) {
        for name in [name.to_owned(), format!("{name}~")] {
            let found = ours.look_up(&name).ok().flatten().map(|symbol| symbol.index() as usize);
            results.same("symbol by its name", found, find(name.as_bytes()).map(|found| found.0));
            ranges.push(ByteRange::from(bytes.len()..bytes.len() + name.len()));
            bytes.extend_from_slice(name.as_bytes());
        }
    }
    let mut many = vec![Answer::default(); ranges.len()];
    let asked = ours.look_ups(&bytes, &ranges, &mut many);
    results.same("names looked up by one call", asked.ok(), Some(ranges.len()));
    for (range, result) in ranges.iter().zip(&many) {
        let name = &bytes[range.offset as usize..(range.offset + range.size) as usize];
        let found = result.index().ok().flatten().map(|index| index as usize);
        results.same("symbols by their names, by one call", found, find(name).map(|found| found.0));
    }
    Ok(())
}

fn names_of<'d, Elf: FileHeader<Endian = Endianness>>(symbols: &SymbolTable<'d, Elf, &'d [u8]>, endian: Endianness) -> Vec<&'d str> {
    let names = symbols.iter().filter_map(|symbol| symbol.name(endian, symbols.strings()).ok());
    names.filter_map(|name| std::str::from_utf8(name).ok()).filter(|name| !name.is_empty()).collect()
}

fn compare_segments<Elf: FileHeader<Endian = Endianness>>(
    input: &[u8],
    file: &ElfFile<'_>,
    theirs: &[Elf::ProgramHeader],
    endian: Endianness,
    results: &mut Results<'_>,
) {
    results.same("segment count", file.segment_count().ok(), Some(theirs.len() as u32));
    for (ours, theirs) in file.readable_segments().zip(theirs) {
        results.same("segment type", ours.type_, theirs.p_type(endian));
        results.same("segment flags", ours.flags, theirs.p_flags(endian));
        results.same("segment address", ours.virtual_addr, theirs.p_vaddr(endian).into());
        results.same("segment size", ours.mem_size, theirs.p_memsz(endian).into());
        results.same("segment alignment", ours.align, theirs.p_align(endian).into());
        // A type that is an error here, or Null, has no data here.
        if let Ok(data) = ours.data() {
            results.same("segment data", Some(data), theirs.data(endian, input).ok());
        }
    }
}

fn compare_section<Elf: FileHeader<Endian = Endianness>>(
    input: &[u8],
    ours: &Section<'_, '_>,
    theirs: &Elf::SectionHeader,
    sections: &Sections<'_, Elf>,
    endian: Endianness,
    results: &mut Results<'_>,
) {
    let wide = |word: Elf::Word| -> u64 { word.into() };
    results.same("section type", ours.type_, theirs.sh_type(endian));
    results.same("section flags", ours.flags, wide(theirs.sh_flags(endian)));
    results.same("section address", ours.address, wide(theirs.sh_addr(endian)));
    results.same("section offset", ours.offset, wide(theirs.sh_offset(endian)));
    results.same("section size", ours.size, wide(theirs.sh_size(endian)));
    results.same("section link", ours.link, theirs.sh_link(endian));
    results.same("section info", ours.info, theirs.sh_info(endian));
    results.same("section alignment", ours.align, wide(theirs.sh_addralign(endian)));
    results.same("entry size", ours.entry_size, wide(theirs.sh_entsize(endian)));
    let name = sections.section_name(endian, theirs).ok().and_then(|name| std::str::from_utf8(name).ok());
    results.same("section name", ours.name().ok(), name);
    // Of a type that this library doesn't know it gives no data.
    if let Ok(data) = ours.data() {
        results.same("section data", Some(data), theirs.data(endian, input).ok());
    }
}

fn compare_symbols<Elf: FileHeader<Endian = Endianness>>(
    input: &[u8],
    ours: &Section<'_, '_>,
    sections: &Sections<'_, Elf>,
    endian: Endianness,
    results: &mut Results<'_>,
) -> object::Result<()> {
    if ours.type_ != object::elf::SHT_SYMTAB && ours.type_ != object::elf::SHT_DYNSYM {
        results.same("other sections have no symbols", ours.symbols().into_iter().flatten().count(), 0);
        return Ok(());
    }
    let table = sections.symbol_table_by_index(endian, input, SectionIndex(ours.index() as usize))?;
    results.same("symbol count", ours.symbols().into_iter().flatten().count(), table.len());
    let mut names = vec![Name::default(); table.len()];
    results.same("count of symbol names", ours.symbol_names_from(0, &mut names).unwrap_or(0), table.len());
    for (name, symbol) in names.iter().zip(ours.symbols().into_iter().flatten()) {
        let range = name.range().map(|range| input.get(range.offset as usize..(range.offset + range.size) as usize));
        results.same("symbol name of many", range, symbol.name_bytes().map(Some));
    }
    for (ours, theirs) in ours.symbols().into_iter().flatten().zip(table.iter()) {
        results.same("symbol value", ours.value, theirs.st_value(endian).into());
        results.same("symbol size", ours.size, theirs.st_size(endian).into());
        results.same("symbol info", ours.info, theirs.st_info());
        results.same("symbol visibility", ours.other, theirs.st_other());
        results.same("symbol section", ours.shndx, theirs.st_shndx(endian));
        let name = theirs.name(endian, table.strings()).ok().and_then(|name| std::str::from_utf8(name).ok());
        results.same("symbol name", ours.name().ok(), name);
    }
    Ok(())
}

fn compare_records<Elf: FileHeader<Endian = Endianness>>(
    input: &[u8],
    ours: &Section<'_, '_>,
    theirs: &Elf::SectionHeader,
    endian: Endianness,
    results: &mut Results<'_>,
) -> object::Result<()> {
    if let Some((relocations, _)) = theirs.rela(endian, input)? {
        results.same("relocation count", ours.relocations().into_iter().flatten().count(), relocations.len());
        for (ours, theirs) in ours.relocations().into_iter().flatten().zip(relocations) {
            results.same("relocation place", ours.offset, theirs.r_offset(endian).into());
            results.same("relocation symbol", ours.symbol, theirs.r_sym(endian, false));
            results.same("relocation type", ours.type_, theirs.r_type(endian, false));
            let addend: i64 = theirs.r_addend(endian).into();
            let addend = if is_64::<Elf>() { addend as u64 } else { u64::from(addend as u32) };
            results.same("relocation addend", ours.addend, addend);
        }
    }
    if let Some((relocations, _)) = theirs.rel(endian, input)? {
        results.same("relocation count", ours.relocations().into_iter().flatten().count(), relocations.len());
        for (ours, theirs) in ours.relocations().into_iter().flatten().zip(relocations) {
            results.same("relocation place", ours.offset, theirs.r_offset(endian).into());
            results.same("relocation symbol", ours.symbol, theirs.r_sym(endian));
            results.same("relocation type", ours.type_, theirs.r_type(endian));
            results.same("relocation has no addend", (ours.addend, ours.has_addend), (0, 0));
        }
    }
    if let Some((entries, _)) = theirs.dynamic(endian, input)? {
        results.same("dynamic count", ours.dynamic().into_iter().flatten().count(), entries.len());
        for (ours, theirs) in ours.dynamic().into_iter().flatten().zip(entries) {
            results.same("dynamic tag", ours.tag, theirs.d_tag(endian).into());
            results.same("dynamic value", ours.value, theirs.d_val(endian).into());
        }
    }
    Ok(())
}

fn is_64<Elf: FileHeader>() -> bool {
    std::mem::size_of::<Elf>() == 64
}

fn compare_notes<Elf: FileHeader<Endian = Endianness>>(
    input: &[u8],
    ours: &Section<'_, '_>,
    theirs: &Elf::SectionHeader,
    endian: Endianness,
    results: &mut Results<'_>,
) -> object::Result<()> {
    let Some(mut theirs) = theirs.notes(endian, input)? else {
        return Ok(());
    };
    for note in ours.notes().into_iter().flatten() {
        let found = theirs.next().ok().flatten();
        let parts = found.map(|note| (note.n_type(endian), note.name(), note.desc()));
        // `object` takes the zero byte off that ends a name.
        let ours = note.ok().map(|note| (note.type_, note.name.strip_suffix(&[0]).unwrap_or(note.name), note.desc));
        results.same("note", ours, parts);
    }
    results.same("no more notes", theirs.next().ok().flatten().is_none(), true);
    Ok(())
}

fn compare_file(path: &str, input: &[u8]) -> Option<(u64, u64)> {
    let file = ElfFile::new(input).ok()?;
    let mut results = Results { path, asked: 0, differ: 0 };
    let whole = if file.is_64() {
        compare::<FileHeader64<Endianness>>(input, &file, &mut results)
    } else {
        compare::<FileHeader32<Endianness>>(input, &file, &mut results)
    };
    if let Err(error) = whole {
        println!("{path}: object reads no such file: {error}");
    }
    Some((results.asked, results.differ))
}

fn main() {
    let (mut files, mut asked, mut differ) = (0, 0, 0);
    for path in std::env::args().skip(1) {
        let Ok(input) = std::fs::read(&path) else {
            continue;
        };
        if let Some(found) = compare_file(&path, &input) {
            files += 1;
            asked += found.0;
            differ += found.1;
        }
    }
    println!("{files} files, {asked} results, {differ} differ");
    std::process::exit(i32::from(differ > 0 || files == 0));
}
