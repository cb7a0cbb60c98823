//! The passes by the Rust crate that this library is a port of, as a careful user calls it.
use crate::{NAME, NONE, sum_of};
use std::str::from_utf8;
use xmas_elf::dynamic::Tag;
use xmas_elf::program::Type;
use xmas_elf::sections::{SectionData, SectionHeader, ShType};
use xmas_elf::symbol_table::{DynEntry64, Entry, Entry64};
use xmas_elf::{ElfFile, Extensions};
use zero::read_str;

macro_rules! opened {
    ($data:expr) => {
        match ElfFile::new($data) {
            Ok(file) => file,
            Err(_) => return NONE,
        }
    };
}

fn part<'a>(file: &ElfFile<'a>, kind: ShType) -> Option<SectionHeader<'a>> {
    file.section_iter().find(|section| section.get_type() == Ok(kind))
}

fn symbols<'a>(file: &ElfFile<'a>) -> Option<&'a [Entry64]> {
    match part(file, ShType::SymTab)?.get_data(file) {
        Ok(SectionData::SymbolTable64(symbols)) => Some(symbols),
        _ => None,
    }
}

/// What entering a pass takes.
pub extern "C-unwind" fn nothing(data: &[u8], _: &[u8]) -> u64 {
    data.len() as u64
}

pub extern "C-unwind" fn header(data: &[u8], _: &[u8]) -> u64 {
    let part = opened!(data).header.pt2;
    part.entry_point().wrapping_add(part.sh_offset()).wrapping_add(part.ph_offset())
}

pub extern "C-unwind" fn header_fields(data: &[u8], _: &[u8]) -> u64 {
    let part = opened!(data).header.pt2;
    [part.header_size(), part.ph_entry_size(), part.ph_count(), part.sh_entry_size(), part.sh_count(), part.sh_str_index()]
        .iter()
        .fold(part.entry_point().wrapping_add(part.sh_offset()).wrapping_add(part.ph_offset()), |sum, number| sum.wrapping_add(u64::from(*number)))
}

pub extern "C-unwind" fn header_check(data: &[u8], _: &[u8]) -> u64 {
    xmas_elf::header::sanity_check(&opened!(data)).is_ok().into()
}

pub extern "C-unwind" fn sections(data: &[u8], _: &[u8]) -> u64 {
    opened!(data).section_iter().fold(0, |sum, section| sum.wrapping_add(section.size()))
}

pub extern "C-unwind" fn sections_index(data: &[u8], _: &[u8]) -> u64 {
    let file = opened!(data);
    let count = file.header.pt2.sh_count();
    (0..count).filter_map(|index| file.section_header(index).ok()).fold(0, |sum, section| sum.wrapping_add(section.size()))
}

pub extern "C-unwind" fn section_fields(data: &[u8], _: &[u8]) -> u64 {
    opened!(data).section_iter().fold(0u64, |sum, section| {
        // SAFETY: the type holds one number of 32 bits, which it doesn't show.
        let kind: u32 = unsafe { std::mem::transmute(section.type_()) };
        sum.wrapping_add(u64::from(section.name()) + u64::from(kind))
            .wrapping_add(section.flags())
            .wrapping_add(section.address())
            .wrapping_add(section.offset())
            .wrapping_add(section.size())
            .wrapping_add(u64::from(section.link()) + u64::from(section.info()))
            .wrapping_add(section.align())
            .wrapping_add(section.entry_size().into())
    })
}

pub extern "C-unwind" fn section_types(data: &[u8], _: &[u8]) -> u64 {
    opened!(data).section_iter().fold(0, |sum, section| {
        sum + match section.get_type() {
            Ok(ShType::StrTab) => 1,
            Ok(ShType::SymTab) => 2,
            Ok(_) => 0,
            Err(_) => 4,
        }
    })
}

pub extern "C-unwind" fn section_names(data: &[u8], _: &[u8]) -> u64 {
    let file = opened!(data);
    file.section_iter().fold(0, |sum, section| sum + section.get_name(&file).map_or(0, |name| sum_of(name.as_bytes())))
}

pub extern "C-unwind" fn find(data: &[u8], text: &[u8]) -> u64 {
    let file = opened!(data);
    file.find_section_by_name(from_utf8(text).unwrap()).map_or(0, |section| section.offset())
}

pub extern "C-unwind" fn raw_data(data: &[u8], _: &[u8]) -> u64 {
    let file = opened!(data);
    file.section_iter().fold(0u64, |sum, section| match section.get_type() {
        Err(_) | Ok(ShType::Null | ShType::NoBits) => sum,
        Ok(_) => sum.wrapping_add(sum_of(section.raw_data(&file))),
    })
}

pub extern "C-unwind" fn data(data: &[u8], _: &[u8]) -> u64 {
    let file = opened!(data);
    file.section_iter().fold(0u64, |sum, section| {
        sum + match section.get_data(&file) {
            Ok(SectionData::Empty) => 1,
            Ok(SectionData::Undefined(bytes)) => 2 + bytes.len() as u64,
            Ok(SectionData::StrArray(bytes)) => 3 + bytes.len() as u64,
            Ok(SectionData::FnArray64(table)) => 4 + table.len() as u64,
            Ok(SectionData::SymbolTable64(table)) => 5 + table.len() as u64,
            Ok(SectionData::DynSymbolTable64(table)) => 6 + table.len() as u64,
            Ok(SectionData::SymTabShIndex(table)) => 7 + table.len() as u64,
            Ok(SectionData::Note64(_, body)) => 8 + body.len() as u64,
            Ok(SectionData::Rela64(table)) => 9 + table.len() as u64,
            Ok(SectionData::Rel64(table)) => 10 + table.len() as u64,
            Ok(SectionData::Dynamic64(table)) => 11 + table.len() as u64,
            Ok(SectionData::Group { indicies, .. }) => 12 + indicies.len() as u64,
            Ok(SectionData::HashTable(_)) => 13,
            Ok(_) => 14,
            Err(_) => 100,
        }
    })
}

pub extern "C-unwind" fn segments(data: &[u8], _: &[u8]) -> u64 {
    opened!(data).program_iter().fold(0u64, |sum, segment| {
        let loaded = segment.get_type() == Ok(Type::Load);
        sum.wrapping_add(segment.offset()).wrapping_add(segment.file_size()).wrapping_add(loaded.into())
    })
}

pub extern "C-unwind" fn section_checks(data: &[u8], _: &[u8]) -> u64 {
    let file = opened!(data);
    file.section_iter().filter(|section| xmas_elf::sections::sanity_check(*section, &file).is_ok()).count() as u64
}

pub extern "C-unwind" fn segment_checks(data: &[u8], _: &[u8]) -> u64 {
    let file = opened!(data);
    file.program_iter().filter(|segment| xmas_elf::program::sanity_check(*segment, &file).is_ok()).count() as u64
}

pub extern "C-unwind" fn symbol_values(data: &[u8], _: &[u8]) -> u64 {
    let file = opened!(data);
    symbols(&file).map_or(NONE, |symbols| symbols.iter().fold(0, |sum, symbol| sum.wrapping_add(symbol.value())))
}

pub extern "C-unwind" fn symbol_fields(data: &[u8], _: &[u8]) -> u64 {
    let file = opened!(data);
    let Some(symbols) = symbols(&file) else { return NONE };
    symbols.iter().fold(0u64, |sum, symbol| {
        sum.wrapping_add(symbol.value())
            .wrapping_add(symbol.size())
            .wrapping_add(u64::from(symbol.name()) + u64::from(symbol.info()) + u64::from(symbol.shndx()))
    })
}

pub extern "C-unwind" fn symbol_names(data: &[u8], _: &[u8]) -> u64 {
    let file = opened!(data);
    let Some(symbols) = symbols(&file) else { return NONE };
    symbols.iter().fold(0, |sum, symbol| sum + symbol.get_name(&file).map_or(0, |name| sum_of(name.as_bytes())))
}

pub extern "C-unwind" fn symbol_texts(data: &[u8], _: &[u8]) -> u64 {
    let file = opened!(data);
    let (Some(symbols), Some(section)) = (symbols(&file), file.find_section_by_name(".strtab")) else { return NONE };
    let texts = section.raw_data(&file);
    symbols.iter().fold(0, |sum, symbol| sum + sum_of(read_str(&texts[symbol.name() as usize..]).as_bytes()))
}

pub extern "C-unwind" fn symbol_search(data: &[u8], text: &[u8]) -> u64 {
    let file = opened!(data);
    let (Some(symbols), Some(section)) = (symbols(&file), file.find_section_by_name(".strtab")) else { return NONE };
    let (texts, name) = (section.raw_data(&file), from_utf8(text).unwrap());
    let found = symbols.iter().find(|symbol| read_str(&texts[symbol.name() as usize..]) == name);
    found.map_or(NONE, Entry::value)
}

pub extern "C-unwind" fn dynamic(data: &[u8], _: &[u8]) -> u64 {
    let file = opened!(data);
    let Some(section) = part(&file, ShType::Dynamic) else { return NONE };
    let Ok(SectionData::Dynamic64(entries)) = section.get_data(&file) else { return NONE };
    let mut sum = 0u64;
    for entry in entries {
        if let Ok(number) = entry.get_val().or_else(|_| entry.get_ptr()) {
            sum = sum.wrapping_add(number);
        }
        if matches!(entry.get_tag(), Ok(Tag::Null)) {
            break;
        }
    }
    sum
}

pub extern "C-unwind" fn relocations(data: &[u8], _: &[u8]) -> u64 {
    let file = opened!(data);
    let mut sum = 0u64;
    for section in file.section_iter().filter(|section| section.get_type() == Ok(ShType::Rela)) {
        let Ok(SectionData::Rela64(table)) = section.get_data(&file) else { continue };
        for relocation in table {
            sum = sum
                .wrapping_add(relocation.get_offset())
                .wrapping_add(relocation.get_symbol_table_index().into())
                .wrapping_add(relocation.get_type().into())
                .wrapping_add(relocation.get_addend());
        }
    }
    sum
}

pub extern "C-unwind" fn notes(data: &[u8], _: &[u8]) -> u64 {
    let file = opened!(data);
    let mut sum = 0u64;
    for section in file.section_iter().filter(|section| section.get_type() == Ok(ShType::Note)) {
        if let Ok(SectionData::Note64(note, body)) = section.get_data(&file) {
            sum += sum_of(note.name(body).as_bytes()) + note.desc(body).len() as u64 + u64::from(note.type_());
        }
    }
    sum
}

pub extern "C-unwind" fn build_id(data: &[u8], _: &[u8]) -> u64 {
    opened!(data).get_gnu_buildid().map_or(0, sum_of)
}

pub extern "C-unwind" fn hash_numbers(_: &[u8], text: &[u8]) -> u64 {
    text.chunks_exact(NAME).filter_map(|name| from_utf8(name).ok()).map(|name| u64::from(xmas_elf::hash::hash(name))).sum()
}

/// By a loop of its own: the crate's `lookup` isn't written, and it doesn't show how many buckets there
/// are.
pub extern "C-unwind" fn look_ups(data: &[u8], text: &[u8]) -> u64 {
    let file = opened!(data);
    let (Some(hashes), Some(dynsym), Some(dynstr)) = (part(&file, ShType::Hash), part(&file, ShType::DynSym), file.find_section_by_name(".dynstr")) else {
        return NONE;
    };
    let buckets = u32::from_le_bytes(hashes.raw_data(&file)[..4].try_into().unwrap());
    let Ok(SectionData::HashTable(table)) = hashes.get_data(&file) else { return NONE };
    let Ok(SectionData::DynSymbolTable64(symbols)) = dynsym.get_data(&file) else { return NONE };
    let texts = dynstr.raw_data(&file);
    let named = |symbol: &DynEntry64, name: &str| read_str(&texts[symbol.name() as usize..]) == name;
    let mut sum = 0u64;
    for name in text.chunks_exact(NAME).filter_map(|name| from_utf8(name).ok()) {
        let mut index = table.get_bucket(xmas_elf::hash::hash(name) % buckets);
        while index != 0 && !named(&symbols[index as usize], name) {
            index = table.get_chain(index);
        }
        sum = sum.wrapping_add(if index == 0 { 0 } else { symbols[index as usize].value() });
    }
    sum
}
