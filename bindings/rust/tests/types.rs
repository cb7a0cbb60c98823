//! What numbers mean, and the symbols of addresses.

use xmas_elf_proved::constants::*;
use xmas_elf_proved::sections::ShType;
use xmas_elf_proved::symbol_table::{Binding, Type, Visibility};
use xmas_elf_proved::{header, program};
use xmas_elf_proved::{ElfFile, Entry, Error, ProgramHeader, SectionHeader};

fn whole() -> Vec<u8> {
    std::fs::read(std::env::current_exe().expect("a path")).expect("the test itself is a file")
}

#[test]
fn types_of_this_file() {
    let bytes = whole();
    let file = ElfFile::new(&bytes).expect("an ELF file");
    assert_eq!(file.header().get_type(), header::Type::SharedObject);
    assert_eq!(file.header().machine, EM_X86_64);
    let of_type = |wanted| file.sections().expect("sections").find(|section| section.get_type() == Ok(wanted));
    for (wanted, name) in [(ShType::DynSym, ".dynsym"), (ShType::Dynamic, ".dynamic"), (ShType::NoBits, ".tbss"), (ShType::OsSpecific(SHT_GNU_HASH), ".gnu.hash")] {
        assert_eq!(of_type(wanted).map(|section| section.name()), Some(Ok(name)));
    }
    assert_eq!(file.section_header_by_name(".bss").map(|section| section.flags), Ok(SHF_ALLOC | SHF_WRITE));
    let code = file.segments().expect("segments").find(|segment| segment.get_type() == Ok(program::Type::Load) && segment.is_execute());
    assert!(code.is_some_and(|segment| segment.is_read() && !segment.is_write() && segment.flags == PF_R | PF_X));
    let main = of_type(ShType::SymTab).and_then(|section| section.symbols().expect("symbols").find(|symbol| symbol.name() == Ok("main"))).expect("a main");
    assert_eq!((main.get_type(), main.get_binding(), main.get_other()), (Ok(Type::Func), Ok(Binding::Global), Visibility::Default));
    assert!(main.is_defined() && main.kind() == STT_FUNC && main.binding() == STB_GLOBAL);
}

#[test]
fn numbers_without_a_meaning() {
    let section = |type_| SectionHeader { type_, ..SectionHeader::default() }.get_type();
    assert_eq!([section(12), section(13), section(0x5fff_ffff)], [Err(Error::InvalidShType); 3]);
    assert_eq!(section(SHT_RELR), Ok(ShType::Relr));
    assert_eq!(section(0x7000_0001), Ok(ShType::ProcessorSpecific(0x7000_0001)));
    assert_eq!(section(u32::MAX), Ok(ShType::User(u32::MAX)));
    let segment = |type_| ProgramHeader { type_, ..ProgramHeader::default() }.get_type();
    assert_eq!([segment(8), segment(0x8000_0000)], [Err(Error::InvalidPhType); 2]);
    assert_eq!(segment(PT_GNU_STACK), Ok(program::Type::OsSpecific(PT_GNU_STACK)));
    let symbol = |info| Entry { info, ..Entry::default() };
    assert_eq!((symbol(0x97).get_type(), symbol(0x97).get_binding()), (Err(Error::InvalidSymbolType), Err(Error::InvalidBinding)));
    assert_eq!((symbol(0xda).get_type(), symbol(0xda).get_binding()), (Ok(Type::OsSpecific(STT_GNU_IFUNC)), Ok(Binding::ProcessorSpecific(13))));
    assert_eq!(Entry { other: 0xfe, ..Entry::default() }.get_other(), Visibility::Hidden);
}

// By the definition: of those that cover an address, one with a size, then that which begins last, the smallest, a function
// before an object before others, a global one before a weak one before others, and the first.
#[cfg(feature = "alloc")]
fn sought(symbols: &[(u64, Entry)], address: u64) -> Option<u64> {
    let covers = |entry: &Entry| entry.value <= address && address - entry.value < entry.size.max(1);
    let kind = |entry: &Entry| match entry.kind() {
        STT_FUNC | STT_GNU_IFUNC => 0,
        STT_OBJECT => 1,
        _ => 2,
    };
    let binding = |entry: &Entry| match entry.binding() {
        STB_GLOBAL | STB_GNU_UNIQUE => 0,
        STB_WEAK => 1,
        _ => 2,
    };
    let order = |entry: &Entry| (entry.size == 0, std::cmp::Reverse(entry.value), entry.size, kind(entry), binding(entry));
    let covering = symbols.iter().filter(|(_, entry)| covers(entry));
    covering.min_by_key(|(index, entry)| (order(entry), *index)).map(|(index, _)| *index)
}

#[cfg(feature = "alloc")]
#[test]
fn addresses_are_covered_by_symbols() {
    let bytes = whole();
    let file = ElfFile::new(&bytes).expect("an ELF file");
    let table = file.sections().expect("sections").find(|section| section.type_ == SHT_SYMTAB).expect("symbols");
    let is_named = |symbol: &xmas_elf_proved::Symbol<'_>| {
        let name = symbol.name().unwrap_or("");
        !name.is_empty() && !(symbol.info == 0 && name.starts_with(".L"))
    };
    let kept = |symbol: &xmas_elf_proved::Symbol<'_>| {
        let placed = symbol.shndx != SHN_UNDEF && symbol.shndx < SHN_LORESERVE;
        placed && matches!(symbol.kind(), STT_NOTYPE | STT_OBJECT | STT_FUNC | STT_GNU_IFUNC) && is_named(symbol)
    };
    let symbols: Vec<(u64, Entry)> = table.symbols().expect("symbols").filter(kept).map(|symbol| (symbol.index(), *symbol)).collect();
    let map = file.symbol_map().expect("symbols");
    assert!(map.len() == symbols.len() && !map.is_empty());
    let mut addresses = Vec::new();
    for (_, entry) in symbols.iter().step_by(1 + symbols.len() / 500) {
        addresses.extend([entry.value, entry.value + entry.size / 2, entry.value + entry.size, entry.value.wrapping_sub(1)]);
    }
    let many = map.symbols_at(&addresses);
    assert_eq!(many.len(), addresses.len());
    for (address, found) in addresses.into_iter().zip(many) {
        let wanted = sought(&symbols, address);
        assert_eq!(found.map(|symbol| symbol.index()), wanted, "{address:#x}");
        assert_eq!(map.get(address).map(|symbol| symbol.index()), wanted, "{address:#x}");
        assert!(found.map_or(true, |symbol| symbol.value + symbol.offset() == address));
    }
    assert!(map.get(u64::MAX).is_none());
}

// An object file: a section of 16 bytes with two functions, one in the other, and a section of 8 bytes with another at 0.
#[cfg(feature = "alloc")]
fn object() -> Vec<u8> {
    let names = b"\0outer\0inner\0other\0";
    let symbol = |name: u32, info: u8, shndx: u16, value: u64, size: u64| {
        let mut bytes = name.to_le_bytes().to_vec();
        bytes.extend([info, 0]);
        bytes.extend(shndx.to_le_bytes());
        bytes.extend(value.to_le_bytes().into_iter().chain(size.to_le_bytes()));
        bytes
    };
    let rows = [(0, 0, 0, 0, 0), (1, 0x12, 1, 0, 16), (7, 0x12, 1, 4, 4), (13, 0x12, 2, 0, 8)];
    let symbols: Vec<u8> = rows.into_iter().flat_map(|(name, info, shndx, value, size)| symbol(name, info, shndx, value, size)).collect();
    let section = |name: u32, type_: u32, offset: u64, size: u64, link: u32, entry_size: u64| {
        let mut bytes: Vec<u8> = [name, type_].into_iter().flat_map(u32::to_le_bytes).collect();
        bytes.extend([0, 0, offset, size].into_iter().flat_map(u64::to_le_bytes));
        bytes.extend([link, 0].into_iter().flat_map(u32::to_le_bytes));
        bytes.extend([1, entry_size].into_iter().flat_map(u64::to_le_bytes));
        bytes
    };
    let (code, strings) = (64, 64 + 24);
    let (at_symbols, table) = (strings + names.len() as u64, strings + names.len() as u64 + symbols.len() as u64);
    let mut bytes = vec![0x7f, b'E', b'L', b'F', 2, 1, 1];
    bytes.resize(16, 0);
    bytes.extend([1u16, 62].into_iter().flat_map(u16::to_le_bytes));
    bytes.extend(1u32.to_le_bytes());
    bytes.extend([0, 0, table].into_iter().flat_map(u64::to_le_bytes));
    bytes.extend(0u32.to_le_bytes());
    bytes.extend([64u16, 56, 0, 64, 5, 3].into_iter().flat_map(u16::to_le_bytes));
    bytes.resize(strings as usize, 0x90);
    bytes.extend(names);
    bytes.extend(&symbols);
    bytes.extend(section(0, 0, 0, 0, 0, 0));
    bytes.extend(section(0, 1, code, 16, 0, 0));
    bytes.extend(section(0, 1, code + 16, 8, 0, 0));
    bytes.extend(section(0, 3, strings, names.len() as u64, 0, 0));
    bytes.extend(section(0, 2, at_symbols, symbols.len() as u64, 3, 24));
    bytes
}

#[cfg(feature = "alloc")]
#[test]
fn offsets_in_a_section_of_an_object_file() {
    let bytes = object();
    let file = ElfFile::new(&bytes).expect("an ELF file");
    let names = |section: u64, offset: u64| {
        let map = file.section(section).expect("a section").symbol_map().expect("symbols");
        map.symbol_at(offset).map(|symbol| (symbol.name().map(str::to_owned), symbol.offset()))
    };
    let named = |name: &str, offset| Some((Ok(name.to_owned()), offset));
    assert_eq!((names(1, 0), names(1, 3), names(1, 4)), (named("outer", 0), named("outer", 3), named("inner", 0)));
    assert_eq!((names(1, 8), names(1, 15), names(1, 16)), (named("outer", 8), named("outer", 15), None));
    assert_eq!((names(2, 0), names(2, 7), names(2, 8), names(3, 0)), (named("other", 0), named("other", 7), None, None));
    assert_eq!(names(0, 0), None);
    // Of all sections at once, the smallest of those that begin at 0.
    assert_eq!(file.symbol_map().expect("symbols").get(0).map(|symbol| symbol.index()), Some(3));
}
