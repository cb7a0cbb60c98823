//! What the passes over a file need to know of it, by `object`.
use crate::{NAME, RECORD};
use object::elf::{self, FileHeader64};
use object::Endianness;
use object::read::elf::{FileHeader as _, SectionHeader as _, Sym as _};

/// How many items each pass goes over, and the names that are looked for.
#[derive(Default)]
pub struct Facts {
    pub sections: usize,
    pub segments: usize,
    pub symbols: usize,
    pub dynamic: usize,
    pub relocations: usize,
    pub notes: usize,
    pub exports: usize,
    pub build_id: usize,
    pub last_section: Vec<u8>,
    pub last_symbol: Vec<u8>,
    pub missing: Vec<u8>,
    pub names: Vec<u8>,
    pub versioned: Vec<u8>,
    /// Addresses in symbols, of eight bytes each.
    pub addresses: Vec<u8>,
}

impl Facts {
    pub fn of(data: &[u8]) -> Facts {
        let mut facts = Facts { missing: b".no_such_section".to_vec(), ..Facts::default() };
        let header = FileHeader64::<Endianness>::parse(data).expect("a file of class 64");
        let endian = header.endian().unwrap();
        facts.segments = header.program_headers(endian, data).map_or(0, <[_]>::len);
        let table = header.sections(endian, data).expect("sections");
        facts.sections = table.len();
        for section in table.iter() {
            let size = section.sh_size(endian) as usize;
            match section.sh_type(endian) {
                elf::SHT_RELA => facts.relocations += size / 24,
                elf::SHT_NOTE => facts.notes += 1,
                elf::SHT_DYNAMIC => facts.dynamic = entries(section.data(endian, data).unwrap_or(&[])),
                _ => {}
            }
            let name = table.section_name(endian, section).unwrap_or(b"");
            if name == b".note.gnu.build-id" {
                facts.build_id = 1;
            }
            if !name.is_empty() && section.sh_type(endian) != 0 {
                facts.last_section = name.to_vec();
            }
        }
        let symbols = table.symbols(endian, data, elf::SHT_SYMTAB).unwrap();
        facts.symbols = symbols.len();
        let mut seen = std::collections::HashSet::new();
        for symbol in symbols.iter() {
            let name = symbol.name(endian, symbols.strings()).unwrap_or(b"");
            if !name.is_empty() && seen.insert(name) {
                facts.last_symbol = name.to_vec();
            }
        }
        let sized = symbols.iter().filter(|symbol| symbol.st_size(endian) > 0 && symbol.is_definition(endian));
        facts.addresses = addresses(sized.map(|symbol| (symbol.st_value(endian), symbol.st_size(endian))).collect());
        let exports = table.symbols(endian, data, elf::SHT_DYNSYM).unwrap();
        facts.exports = exports.len();
        let names = exports.iter().filter_map(|symbol| symbol.name(endian, exports.strings()).ok());
        facts.names = look_ups(names.filter(|name| name.len() == NAME));
        let versions = table.versions(endian, data).ok().flatten().unwrap_or_default();
        for index in 0..exports.len() {
            let symbol = exports.symbol(index).expect("a symbol");
            // A hidden version isn't the one that is found without a version.
            let number = versions.version_index(endian, index);
            let version = versions.version(number).ok().flatten();
            if let (true, false, Some(version)) = (symbol.is_definition(endian), number.is_hidden(), version) {
                let name = symbol.name(endian, exports.strings()).unwrap_or(b"");
                facts.versioned.extend(record_of(name, version.name(), version.hash()));
            }
        }
        facts.versioned = mixed(facts.versioned.chunks_exact(RECORD).map(<[u8]>::to_vec).collect());
        facts
    }
}

/// How many entries there are up to the first of tag 0, and with it.
fn entries(bytes: &[u8]) -> usize {
    let records = bytes.chunks_exact(16);
    let all = records.len();
    records.clone().position(|entry| entry[..8] == [0; 8]).map_or(all, |place| place + 1)
}

/// At most 10,000 of these names and a tenth more that aren't there, in a mixed order that is always the
/// same.
fn look_ups<'a>(names: impl Iterator<Item = &'a [u8]>) -> Vec<u8> {
    let mut names: Vec<Vec<u8>> = names.take(10_000).map(<[u8]>::to_vec).collect();
    for index in 0..names.len() / 10 {
        names.push(format!("absent_symbol_number_{index:07}").into_bytes());
    }
    mixed(names)
}

/// 100,000 addresses in symbols, by the values and sizes of these, in no order.
fn addresses(symbols: Vec<(u64, u64)>) -> Vec<u8> {
    let mut state = 1u64;
    let mut next = |bound: u64| {
        state = state.wrapping_mul(6364136223846793005).wrapping_add(1442695040888963407);
        (state >> 33) % bound
    };
    let count = if symbols.is_empty() { 0 } else { 100_000 };
    let found = (0..count).map(|_| {
        let (value, size) = symbols[next(symbols.len() as u64) as usize];
        value.wrapping_add(next(size))
    });
    found.flat_map(u64::to_le_bytes).collect()
}

/// The record of a name and its version with the hash number that the file has for it, if it has room for both.
fn record_of(name: &[u8], version: &[u8], hash: u32) -> Vec<u8> {
    if name.len() + version.len() > RECORD - 6 {
        return Vec::new();
    }
    let mut record = vec![name.len() as u8, version.len() as u8];
    record.extend(name);
    record.extend(version);
    record.resize(RECORD - 4, 0);
    record.extend(hash.to_le_bytes());
    record
}

/// These in a mixed order that is always the same.
fn mixed(mut names: Vec<Vec<u8>>) -> Vec<u8> {
    let mut state = 1u64;
    for index in (1..names.len()).rev() {
        state = state.wrapping_mul(6364136223846793005).wrapping_add(1442695040888963407);
        names.swap(index, (state >> 33) as usize % (index + 1));
    }
    names.concat()
}
