//! Symbols by addresses with a vector of Rust: the values, sizes and indices of those that have a type which names
//! addresses, a section and a name, sorted by their values, and a binary search in it.
use crate::NONE;
use object::elf::{self, FileHeader64};
use object::Endianness;
use object::read::elf::{FileHeader as _, Sym as _};

fn sorted(data: &[u8]) -> Option<(Vec<(u64, u64, u32)>, usize)> {
    let header = FileHeader64::<Endianness>::parse(data).ok()?;
    let endian = header.endian().ok()?;
    let symbols = header.sections(endian, data).ok()?.symbols(endian, data, elf::SHT_SYMTAB).ok()?;
    let kept = symbols.iter().enumerate().filter(|(_, symbol)| {
        matches!(symbol.st_type(), 0 | 1 | 2 | 10) && symbol.is_definition(endian) && symbol.st_name(endian) != 0
    });
    let mut found: Vec<(u64, u64, u32)> =
        kept.map(|(index, symbol)| (symbol.st_value(endian), symbol.st_size(endian), index as u32)).collect();
    found.sort_unstable();
    Some((found, symbols.len()))
}

pub extern "C-unwind" fn addresses_build(data: &[u8], _: &[u8]) -> u64 {
    let Some((found, count)) = sorted(data) else { return NONE };
    std::hint::black_box(found);
    count as u64
}

pub extern "C-unwind" fn addresses_asked(data: &[u8], text: &[u8]) -> u64 {
    let Some((found, _)) = sorted(data) else { return NONE };
    let addresses = text.chunks_exact(8).map(|part| u64::from_le_bytes(part.try_into().unwrap()));
    addresses.filter(|address| found.partition_point(|symbol| symbol.0 <= *address) > 0).count() as u64
}
