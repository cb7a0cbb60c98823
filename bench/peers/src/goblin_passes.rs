//! The passes by `goblin`, each by the parts that it needs and not by `Elf::parse`, which reads all of a file.
//! Its headers come as a vector, which a pass pays for. Names are tested for UTF-8.
use crate::{NAME, NONE, sum_of};
use goblin::container::{Container, Ctx, Endian};
use goblin::elf::dynamic::Dynamic;
use goblin::elf::header::Header;
use goblin::elf::note::NoteDataIterator;
use goblin::elf::{ProgramHeader, RelocSection, SectionHeader, Symtab, section_header as types};
use goblin::elf64::gnu_hash::GnuHash;
use goblin::strtab::Strtab;
use scroll::Pread;
use std::str::from_utf8;

/// The files are of class 64 and of little order.
const CTX: Ctx = Ctx { container: Container::Big, le: Endian::Little };

/// What is there, or the end of the pass.
macro_rules! there {
    ($value:expr) => {
        match $value {
            Some(value) => value,
            None => return NONE,
        }
    };
}

fn listed(data: &[u8]) -> Option<(Header, Vec<SectionHeader>)> {
    let header: Header = data.pread(0).ok()?;
    let sections = SectionHeader::parse(data, header.e_shoff as usize, header.e_shnum.into(), CTX).ok()?;
    Some((header, sections))
}

fn programs(data: &[u8]) -> Option<Vec<ProgramHeader>> {
    let header: Header = data.pread(0).ok()?;
    ProgramHeader::parse(data, header.e_phoff as usize, header.e_phnum.into(), CTX).ok()
}

fn texts<'a>(data: &'a [u8], section: &SectionHeader) -> Option<Strtab<'a>> {
    Strtab::parse(data, section.sh_offset as usize, section.sh_size as usize, 0).ok()
}

fn table<'a>(data: &'a [u8], section: &SectionHeader) -> Option<Symtab<'a>> {
    Symtab::parse(data, section.sh_offset as usize, section.sh_size as usize / 24, CTX).ok()
}

/// The symbols of the first section of a type, and the table of their names.
fn symbols(data: &[u8], kind: u32) -> Option<(Symtab<'_>, Strtab<'_>)> {
    let (_, sections) = listed(data)?;
    let section = sections.iter().find(|section| section.sh_type == kind)?;
    Some((table(data, section)?, texts(data, sections.get(section.sh_link as usize)?)?))
}

pub extern "C-unwind" fn header(data: &[u8], _: &[u8]) -> u64 {
    let part: Header = there!(data.pread(0).ok());
    part.e_entry.wrapping_add(part.e_shoff).wrapping_add(part.e_phoff)
}

pub extern "C-unwind" fn header_fields(data: &[u8], _: &[u8]) -> u64 {
    let part: Header = there!(data.pread(0).ok());
    [part.e_ehsize, part.e_phentsize, part.e_phnum, part.e_shentsize, part.e_shnum, part.e_shstrndx]
        .iter()
        .fold(part.e_entry.wrapping_add(part.e_shoff).wrapping_add(part.e_phoff), |sum, number| sum.wrapping_add(u64::from(*number)))
}

pub extern "C-unwind" fn sections(data: &[u8], _: &[u8]) -> u64 {
    let (_, sections) = there!(listed(data));
    sections.iter().fold(0, |sum, section| sum.wrapping_add(section.sh_size))
}

pub extern "C-unwind" fn section_fields(data: &[u8], _: &[u8]) -> u64 {
    let (_, sections) = there!(listed(data));
    sections.iter().fold(0u64, |sum, section| {
        sum.wrapping_add(section.sh_name as u64 + u64::from(section.sh_type))
            .wrapping_add(section.sh_flags)
            .wrapping_add(section.sh_addr)
            .wrapping_add(section.sh_offset)
            .wrapping_add(section.sh_size)
            .wrapping_add(u64::from(section.sh_link) + u64::from(section.sh_info))
            .wrapping_add(section.sh_addralign)
            .wrapping_add(section.sh_entsize)
    })
}

pub extern "C-unwind" fn section_names(data: &[u8], _: &[u8]) -> u64 {
    let (header, sections) = there!(listed(data));
    let index = if header.e_shstrndx == 0xffff { sections[0].sh_link as usize } else { header.e_shstrndx.into() };
    let names = there!(sections.get(index).and_then(|section| texts(data, section)));
    sections.iter().fold(0, |sum, section| match names.get(section.sh_name) {
        Some(Ok(name)) => sum + sum_of(name.as_bytes()),
        _ => sum,
    })
}

pub extern "C-unwind" fn raw_data(data: &[u8], _: &[u8]) -> u64 {
    let (_, sections) = there!(listed(data));
    let used = sections.iter().filter(|section| !matches!(section.sh_type, types::SHT_NULL | types::SHT_NOBITS));
    used.fold(0u64, |sum, section| sum.wrapping_add(data.get(section.file_range()).map_or(0, sum_of)))
}

pub extern "C-unwind" fn segments(data: &[u8], _: &[u8]) -> u64 {
    let programs = there!(programs(data));
    programs.iter().fold(0u64, |sum, segment| {
        let loaded = segment.p_type == goblin::elf::program_header::PT_LOAD;
        sum.wrapping_add(segment.p_offset).wrapping_add(segment.p_filesz).wrapping_add(loaded.into())
    })
}

pub extern "C-unwind" fn symbol_values(data: &[u8], _: &[u8]) -> u64 {
    let (symbols, _) = there!(symbols(data, types::SHT_SYMTAB));
    symbols.iter().fold(0, |sum, symbol| sum.wrapping_add(symbol.st_value))
}

pub extern "C-unwind" fn symbol_fields(data: &[u8], _: &[u8]) -> u64 {
    let (symbols, _) = there!(symbols(data, types::SHT_SYMTAB));
    symbols.iter().fold(0u64, |sum, symbol| {
        sum.wrapping_add(symbol.st_value)
            .wrapping_add(symbol.st_size)
            .wrapping_add(symbol.st_name as u64 + u64::from(symbol.st_info) + symbol.st_shndx as u64)
    })
}

pub extern "C-unwind" fn symbol_texts(data: &[u8], _: &[u8]) -> u64 {
    let (symbols, texts) = there!(symbols(data, types::SHT_SYMTAB));
    symbols.iter().fold(0, |sum, symbol| match texts.get(symbol.st_name) {
        Some(Ok(name)) => sum + sum_of(name.as_bytes()),
        _ => sum,
    })
}

pub extern "C-unwind" fn symbol_search(data: &[u8], text: &[u8]) -> u64 {
    let (symbols, texts) = there!(symbols(data, types::SHT_SYMTAB));
    let name = there!(from_utf8(text).ok());
    let found = symbols.iter().find(|symbol| matches!(texts.get(symbol.st_name), Some(Ok(found)) if found == name));
    found.map_or(NONE, |symbol| symbol.st_value)
}

/// By the program headers, as it does. Tags aren't asked for their meaning.
pub extern "C-unwind" fn dynamic(data: &[u8], _: &[u8]) -> u64 {
    let programs = there!(programs(data));
    let entries = there!(Dynamic::parse(data, &programs, CTX).ok().flatten());
    entries.dyns.iter().fold(0, |sum, entry| sum.wrapping_add(entry.d_val))
}

pub extern "C-unwind" fn relocations(data: &[u8], _: &[u8]) -> u64 {
    let (_, sections) = there!(listed(data));
    let with_addends = sections.iter().filter(|section| section.sh_type == types::SHT_RELA);
    let tables = with_addends.filter_map(|section| RelocSection::parse(data, section.sh_offset as usize, section.sh_size as usize, true, CTX).ok());
    tables.flat_map(|table| table.iter()).fold(0u64, |sum, relocation| {
        sum.wrapping_add(relocation.r_offset)
            .wrapping_add(relocation.r_sym as u64)
            .wrapping_add(relocation.r_type.into())
            .wrapping_add(relocation.r_addend.unwrap_or(0) as u64)
    })
}

pub extern "C-unwind" fn notes(data: &[u8], _: &[u8]) -> u64 {
    let (_, sections) = there!(listed(data));
    let noted = sections.iter().filter(|section| section.sh_type == types::SHT_NOTE);
    noted.fold(0, |sum, section| {
        let (offset, size) = (section.sh_offset as usize, (section.sh_offset + section.sh_size) as usize);
        match (NoteDataIterator { data, offset, size, ctx: (section.sh_addralign as usize, CTX) }).next() {
            Some(Ok(note)) => sum + sum_of(note.name.as_bytes()) + note.desc.len() as u64 + u64::from(note.n_type),
            _ => sum,
        }
    })
}

/// Its table takes the symbols as a vector, which is made once.
pub extern "C-unwind" fn gnu_look_ups(data: &[u8], text: &[u8]) -> u64 {
    let (_, sections) = there!(listed(data));
    let section = there!(sections.iter().find(|section| section.sh_type == types::SHT_GNU_HASH));
    let linked = there!(sections.get(section.sh_link as usize));
    let texts = there!(sections.get(linked.sh_link as usize).and_then(|section| texts(data, section)));
    let symbols: Vec<_> = there!(table(data, linked)).iter().map(Into::into).collect();
    let bytes = there!(data.get(section.file_range()));
    // SAFETY: the bytes are of a slice, and the call looks at their length and their place.
    let table = there!(unsafe { GnuHash::from_raw_table(bytes, &symbols) }.ok());
    let names = text.chunks_exact(NAME).filter_map(|name| from_utf8(name).ok());
    names.fold(0, |sum, name| sum.wrapping_add(table.find(name, &texts).map_or(0, |symbol| symbol.st_value)))
}
