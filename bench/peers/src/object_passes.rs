//! The passes by `object`, in its raw calls. Names are bytes there; those with `text` test them for UTF-8.
use crate::{NAME, NONE, RECORD, sum_of};
use object::elf::{self, FileHeader64, ProgramHeader64, Sym64};
use object::read::elf::{Dyn as _, FileHeader as _, ProgramHeader as _, Rela as _, SectionHeader as _, SectionTable, Sym as _, SymbolTable, VersionTable};
use object::{Endianness, SectionIndex};
use std::str::from_utf8;

type Header = FileHeader64<Endianness>;

/// What is there, or the end of the pass.
macro_rules! there {
    ($value:expr) => {
        match $value {
            Some(value) => value,
            None => return NONE,
        }
    };
}

fn opened(data: &[u8]) -> Option<(&Header, Endianness)> {
    let header = Header::parse(data).ok()?;
    Some((header, header.endian().ok()?))
}

fn listed(data: &[u8]) -> Option<(SectionTable<'_, Header>, Endianness)> {
    let (header, endian) = opened(data)?;
    Some((header.sections(endian, data).ok()?, endian))
}

fn symbols(data: &[u8], kind: u32) -> Option<(SymbolTable<'_, Header>, Endianness)> {
    let (sections, endian) = listed(data)?;
    Some((sections.symbols(endian, data, kind).ok()?, endian))
}

pub extern "C-unwind" fn header(data: &[u8], _: &[u8]) -> u64 {
    let (header, endian) = there!(opened(data));
    header.e_entry(endian).wrapping_add(header.e_shoff(endian)).wrapping_add(header.e_phoff(endian))
}

pub extern "C-unwind" fn header_fields(data: &[u8], text: &[u8]) -> u64 {
    let (part, endian) = there!(opened(data));
    let small = [part.e_ehsize(endian), part.e_phentsize(endian), part.e_phnum(endian), part.e_shentsize(endian), part.e_shnum(endian), part.e_shstrndx(endian)];
    let sum: u64 = small.iter().map(|number| u64::from(*number)).sum();
    header(data, text).wrapping_add(sum)
}

pub extern "C-unwind" fn sections(data: &[u8], _: &[u8]) -> u64 {
    let (header, endian) = there!(opened(data));
    let headers = there!(header.section_headers(endian, data).ok());
    headers.iter().fold(0, |sum, section| sum.wrapping_add(section.sh_size(endian)))
}

pub extern "C-unwind" fn sections_index(data: &[u8], _: &[u8]) -> u64 {
    let (sections, endian) = there!(listed(data));
    let found = (0..sections.len()).filter_map(|index| sections.section(SectionIndex(index)).ok());
    found.fold(0, |sum, section| sum.wrapping_add(section.sh_size(endian)))
}

pub extern "C-unwind" fn section_fields(data: &[u8], _: &[u8]) -> u64 {
    let (header, endian) = there!(opened(data));
    let headers = there!(header.section_headers(endian, data).ok());
    headers.iter().fold(0u64, |sum, section| {
        sum.wrapping_add(u64::from(section.sh_name(endian)) + u64::from(section.sh_type(endian)))
            .wrapping_add(section.sh_flags(endian))
            .wrapping_add(section.sh_addr(endian))
            .wrapping_add(section.sh_offset(endian))
            .wrapping_add(section.sh_size(endian))
            .wrapping_add(u64::from(section.sh_link(endian)) + u64::from(section.sh_info(endian)))
            .wrapping_add(section.sh_addralign(endian))
            .wrapping_add(section.sh_entsize(endian))
    })
}

/// Types from 12 on that have no meaning in the crate count as unknown.
fn is_unknown(kind: u32) -> bool {
    matches!(kind, 12 | 13 | 19..=0x5fff_ffff)
}

pub extern "C-unwind" fn section_types(data: &[u8], _: &[u8]) -> u64 {
    let (header, endian) = there!(opened(data));
    let headers = there!(header.section_headers(endian, data).ok());
    headers.iter().fold(0, |sum, section| {
        sum + match section.sh_type(endian) {
            elf::SHT_STRTAB => 1,
            elf::SHT_SYMTAB => 2,
            kind if is_unknown(kind) => 4,
            _ => 0,
        }
    })
}

pub extern "C-unwind" fn section_names(data: &[u8], _: &[u8]) -> u64 {
    let (sections, endian) = there!(listed(data));
    sections.iter().fold(0, |sum, section| sum + sections.section_name(endian, section).map_or(0, sum_of))
}

pub extern "C-unwind" fn section_texts(data: &[u8], _: &[u8]) -> u64 {
    let (sections, endian) = there!(listed(data));
    let names = sections.iter().filter_map(|section| from_utf8(sections.section_name(endian, section).ok()?).ok());
    names.fold(0, |sum, name| sum + sum_of(name.as_bytes()))
}

pub extern "C-unwind" fn find(data: &[u8], text: &[u8]) -> u64 {
    let (sections, endian) = there!(listed(data));
    sections.section_by_name(endian, text).map_or(0, |found| found.1.sh_offset(endian))
}

pub extern "C-unwind" fn raw_data(data: &[u8], _: &[u8]) -> u64 {
    let (header, endian) = there!(opened(data));
    let headers = there!(header.section_headers(endian, data).ok());
    let used = headers.iter().filter(|section| section.sh_type(endian) != 0);
    used.fold(0u64, |sum, section| sum.wrapping_add(section.data(endian, data).map_or(0, sum_of)))
}

pub extern "C-unwind" fn data(data: &[u8], _: &[u8]) -> u64 {
    let (header, endian) = there!(opened(data));
    let headers = there!(header.section_headers(endian, data).ok());
    headers.iter().fold(0u64, |sum, section| {
        let kind = section.sh_type(endian);
        if matches!(kind, elf::SHT_NULL | elf::SHT_NOBITS) {
            return sum + 1;
        }
        let Ok(bytes) = section.data(endian, data) else { return sum + 100 };
        let len = bytes.len() as u64;
        sum + match kind {
            elf::SHT_STRTAB => 3 + len,
            elf::SHT_INIT_ARRAY | elf::SHT_FINI_ARRAY | elf::SHT_PREINIT_ARRAY => 4 + len / 8,
            elf::SHT_SYMTAB => 5 + len / 24,
            elf::SHT_DYNSYM => 6 + len / 24,
            elf::SHT_SYMTAB_SHNDX => 7 + len / 4,
            elf::SHT_NOTE => 8 + len - 12,
            elf::SHT_RELA => 9 + len / 24,
            elf::SHT_REL => 10 + len / 16,
            elf::SHT_DYNAMIC => 11 + len / 16,
            elf::SHT_GROUP => 12 + len / 4 - 1,
            elf::SHT_HASH => 13,
            kind if is_unknown(kind) => 100,
            _ => 2 + len,
        }
    })
}

pub extern "C-unwind" fn segments(data: &[u8], _: &[u8]) -> u64 {
    let (header, endian) = there!(opened(data));
    let headers = there!(header.program_headers(endian, data).ok());
    headers.iter().fold(0u64, |sum, segment| {
        let loaded = segment.p_type(endian) == elf::PT_LOAD;
        sum.wrapping_add(segment.p_offset(endian)).wrapping_add(segment.p_filesz(endian)).wrapping_add(loaded.into())
    })
}

pub extern "C-unwind" fn symbol_values(data: &[u8], _: &[u8]) -> u64 {
    let (symbols, endian) = there!(symbols(data, elf::SHT_SYMTAB));
    symbols.iter().fold(0, |sum, symbol| sum.wrapping_add(symbol.st_value(endian)))
}

pub extern "C-unwind" fn symbol_fields(data: &[u8], _: &[u8]) -> u64 {
    let (symbols, endian) = there!(symbols(data, elf::SHT_SYMTAB));
    symbols.iter().fold(0u64, |sum, symbol| {
        sum.wrapping_add(symbol.st_value(endian))
            .wrapping_add(symbol.st_size(endian))
            .wrapping_add(u64::from(symbol.st_name(endian)) + u64::from(symbol.st_info()) + u64::from(symbol.st_shndx(endian)))
    })
}

pub extern "C-unwind" fn symbol_names(data: &[u8], _: &[u8]) -> u64 {
    let (symbols, endian) = there!(symbols(data, elf::SHT_SYMTAB));
    symbols.iter().fold(0, |sum, symbol| sum + symbol.name(endian, symbols.strings()).map_or(0, sum_of))
}

pub extern "C-unwind" fn symbol_texts(data: &[u8], _: &[u8]) -> u64 {
    let (symbols, endian) = there!(symbols(data, elf::SHT_SYMTAB));
    let names = symbols.iter().filter_map(|symbol| from_utf8(symbol.name(endian, symbols.strings()).ok()?).ok());
    names.fold(0, |sum, name| sum + sum_of(name.as_bytes()))
}

pub extern "C-unwind" fn symbol_search(data: &[u8], text: &[u8]) -> u64 {
    let (symbols, endian) = there!(symbols(data, elf::SHT_SYMTAB));
    let found = symbols.iter().find(|symbol| symbol.name(endian, symbols.strings()) == Ok(text));
    found.map_or(NONE, |symbol| symbol.st_value(endian))
}

/// Tags aren't asked for their meaning.
pub extern "C-unwind" fn dynamic(data: &[u8], _: &[u8]) -> u64 {
    let (sections, endian) = there!(listed(data));
    let (entries, _) = there!(sections.dynamic(endian, data).ok().flatten());
    let mut sum = 0u64;
    for entry in entries {
        sum = sum.wrapping_add(entry.d_val(endian));
        if entry.d_tag(endian) == 0 {
            break;
        }
    }
    sum
}

pub extern "C-unwind" fn relocations(data: &[u8], _: &[u8]) -> u64 {
    let (sections, endian) = there!(listed(data));
    let tables = sections.iter().filter_map(|section| section.rela(endian, data).ok().flatten());
    tables.flat_map(|table| table.0).fold(0u64, |sum, relocation| {
        sum.wrapping_add(relocation.r_offset(endian))
            .wrapping_add(relocation.r_sym(endian, false).into())
            .wrapping_add(relocation.r_type(endian, false).into())
            .wrapping_add(relocation.r_addend(endian) as u64)
    })
}

pub extern "C-unwind" fn notes(data: &[u8], _: &[u8]) -> u64 {
    let (sections, endian) = there!(listed(data));
    sections.iter().fold(0, |sum, section| {
        let mut notes = match section.notes(endian, data) {
            Ok(Some(notes)) => notes,
            _ => return sum,
        };
        let Ok(Some(note)) = notes.next() else { return sum };
        sum + sum_of(note.name()) + note.desc().len() as u64 + u64::from(note.n_type(endian))
    })
}

pub extern "C-unwind" fn build_id(data: &[u8], _: &[u8]) -> u64 {
    let (sections, endian) = there!(listed(data));
    let Some((_, section)) = sections.section_by_name(endian, b".note.gnu.build-id") else { return 0 };
    let Ok(Some(mut notes)) = section.notes(endian, data) else { return 0 };
    let Ok(Some(note)) = notes.next() else { return 0 };
    sum_of(note.desc())
}

pub extern "C-unwind" fn hash_numbers(_: &[u8], text: &[u8]) -> u64 {
    text.chunks_exact(NAME).filter_map(|name| from_utf8(name).ok()).map(|name| u64::from(elf::hash(name.as_bytes()))).sum()
}

/// The value of each name that a look-up finds.
fn found<'a>(text: &'a [u8], endian: Endianness, find: impl Fn(&'a [u8]) -> Option<&'a Sym64<Endianness>>) -> u64 {
    let names = text.chunks_exact(NAME).filter_map(|name| from_utf8(name).ok());
    names.fold(0, |sum, name| sum.wrapping_add(find(name.as_bytes()).map_or(0, |symbol| symbol.st_value(endian))))
}

pub extern "C-unwind" fn look_ups<'a>(data: &'a [u8], text: &'a [u8]) -> u64 {
    let (sections, endian) = there!(listed(data));
    let (table, _) = there!(sections.hash(endian, data).ok().flatten());
    let (symbols, versions) = (there!(symbols(data, elf::SHT_DYNSYM)).0, VersionTable::default());
    found(text, endian, |name| table.find(endian, name, elf::hash(name), None, &symbols, &versions).map(|found| found.1))
}

pub extern "C-unwind" fn gnu_look_ups<'a>(data: &'a [u8], text: &'a [u8]) -> u64 {
    let (sections, endian) = there!(listed(data));
    let (table, _) = there!(sections.gnu_hash(endian, data).ok().flatten());
    let (symbols, versions) = (there!(symbols(data, elf::SHT_DYNSYM)).0, VersionTable::default());
    found(text, endian, |name| table.find(endian, name, elf::gnu_hash(name), None, &symbols, &versions).map(|found| found.1))
}

/// How many of the names in records a look-up finds.
pub extern "C-unwind" fn linked_look_ups<'a>(data: &'a [u8], text: &'a [u8]) -> u64 {
    let (sections, endian) = there!(listed(data));
    let (table, _) = there!(sections.gnu_hash(endian, data).ok().flatten());
    let (symbols, versions) = (there!(symbols(data, elf::SHT_DYNSYM)).0, VersionTable::default());
    let names = text.chunks_exact(RECORD).filter_map(|record| from_utf8(&record[2..2 + usize::from(record[0])]).ok());
    let found = |name: &&str| table.find(endian, name.as_bytes(), elf::gnu_hash(name.as_bytes()), None, &symbols, &versions).is_some();
    names.filter(found).count() as u64
}

/// Its map of symbols: a sorted vector of the values and names of those with a section, which a binary search asks.
fn map(data: &[u8]) -> Option<object::SymbolMap<object::SymbolMapName<'_>>> {
    use object::Object as _;
    Some(object::read::elf::ElfFile64::<Endianness>::parse(data).ok()?.symbol_map())
}

pub extern "C-unwind" fn addresses_build(data: &[u8], _: &[u8]) -> u64 {
    std::hint::black_box(there!(map(data)));
    there!(symbols(data, elf::SHT_SYMTAB)).0.len() as u64
}

/// Each address is in a symbol, so that all are found.
pub extern "C-unwind" fn addresses_asked(data: &[u8], text: &[u8]) -> u64 {
    let map = there!(map(data));
    let addresses = text.chunks_exact(8).map(|part| u64::from_le_bytes(part.try_into().unwrap()));
    addresses.filter(|address| map.get(*address).is_some()).count() as u64
}

const PAGE: u64 = 4096;
const LIMIT: u64 = 0x7fff_ffff_f000;

fn down(address: u64) -> u64 {
    address - address % PAGE
}

fn up(address: u64) -> Option<u64> {
    Some(down(address.checked_add(PAGE - 1)?))
}

/// The end of the pages of a load segment, if it passes the checks of a plan.
fn checked_load(load: &ProgramHeader64<Endianness>, endian: Endianness, before: Option<u64>, len: u64) -> Option<u64> {
    let (address, offset) = (load.p_vaddr(endian), load.p_offset(endian));
    let (held, size, align) = (load.p_filesz(endian), load.p_memsz(endian), load.p_align(endian));
    let is_empty = before.is_none() && held == 0 || size == 0 && address % PAGE != 0;
    let is_whole = align == 0 || align.is_power_of_two();
    if held > size || is_empty || address % PAGE != offset % PAGE || !is_whole {
        return None;
    }
    let end = up(address.checked_add(size)?).filter(|end| *end <= LIMIT)?;
    let is_past = offset.checked_add(held)? > len || held == 0 && address % PAGE != 0 && len <= down(offset);
    let is_shut = size > held && load.p_flags(endian) & 6 != 6;
    (!is_past && !is_shut && down(address) >= before.unwrap_or(0)).then_some(end)
}

/// The plan that glibc follows for a file, with the same checks.
pub extern "C-unwind" fn load_plan(data: &[u8], _: &[u8]) -> u64 {
    let (header, endian) = there!(opened(data));
    let segments = there!(header.program_headers(endian, data).ok());
    if !matches!(header.e_type(endian), 2 | 3) || size_of_val(segments) as u64 > PAGE {
        return NONE;
    }
    let (mut sum, mut before, mut start) = (0u64, None, 0);
    let (mut relro, mut tls, mut stack, mut interpreter, mut table) = (None, None, None, None, None);
    for segment in segments {
        match segment.p_type(endian) {
            elf::PT_LOAD => {
                let end = there!(checked_load(segment, endian, before, data.len() as u64));
                let first = down(segment.p_vaddr(endian));
                let middle = there!(up(segment.p_vaddr(endian) + segment.p_filesz(endian)));
                let flags = u64::from(segment.p_flags(endian));
                match before {
                    Some(before) if before < first => sum = sum.wrapping_add(before + first + 2),
                    Some(_) => {}
                    None => start = first,
                }
                if first < middle {
                    sum = sum.wrapping_add(first + middle + flags + down(segment.p_offset(endian)));
                }
                if middle < end {
                    sum = sum.wrapping_add(middle + end + flags + 1);
                }
                before = Some(end);
            }
            elf::PT_GNU_RELRO => relro = Some(segment),
            elf::PT_TLS if segment.p_memsz(endian) > 0 => tls = Some(segment),
            elf::PT_GNU_STACK => stack = Some(segment),
            elf::PT_INTERP if interpreter.is_none() => interpreter = Some(segment),
            elf::PT_PHDR => table = Some(segment),
            _ => {}
        }
    }
    let loads = || segments.iter().filter(|segment| segment.p_type(endian) == elf::PT_LOAD);
    let holds = |load: &&ProgramHeader64<Endianness>, at: u64| load.p_offset(endian) <= at && at - load.p_offset(endian) < load.p_filesz(endian);
    match table {
        Some(table) => {
            let place = header.e_phoff(endian);
            let load = there!(loads().filter(|load| holds(load, place)).last());
            if load.p_vaddr(endian) + (place - load.p_offset(endian)) != table.p_vaddr(endian) {
                return NONE;
            }
        }
        None if header.e_type(endian) == 3 && interpreter.is_some() => return NONE,
        None => {}
    }
    if let Some(segment) = interpreter {
        let path = there!(segment.data(endian, data).ok());
        if !(2..=4096).contains(&path.len()) || path.last() != Some(&0) {
            return NONE;
        }
    }
    if let Some(segment) = relro {
        let (first, end) = (down(segment.p_vaddr(endian)), down(there!(segment.p_vaddr(endian).checked_add(segment.p_memsz(endian)))));
        let mut covered = first;
        for load in loads() {
            let end = there!(up(load.p_vaddr(endian) + load.p_memsz(endian)));
            if down(load.p_vaddr(endian)) <= covered && covered < end {
                covered = end;
            }
        }
        if covered < end {
            return NONE;
        }
        sum = sum.wrapping_add(first + end);
    }
    if let Some(segment) = tls {
        let (address, held) = (segment.p_vaddr(endian), segment.p_filesz(endian));
        let is_in = |load: &ProgramHeader64<Endianness>| {
            load.p_vaddr(endian) <= address && address - load.p_vaddr(endian) + held <= load.p_memsz(endian)
        };
        if held > segment.p_memsz(endian) || !segment.p_align(endian).is_power_of_two() || held > 0 && !loads().any(is_in) {
            return NONE;
        }
        sum = sum.wrapping_add(segment.p_memsz(endian) + segment.p_align(endian));
    }
    let end = there!(before);
    sum.wrapping_add(start + end).wrapping_add(stack.map_or(0, |segment| u64::from(segment.p_flags(endian))))
}
