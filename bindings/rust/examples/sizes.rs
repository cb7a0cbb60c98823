//! sizes FILE: for each piece of the file its size in bytes and what it belongs to; then for each symbol of .text the size of the
//! addresses that belong to it.

use std::collections::BTreeMap;
use std::error::Error;
use std::process::ExitCode;
use xmas_elf_proved::{ElfFile, Owner};

fn words(owner: Owner) -> (&'static str, u64) {
    match owner {
        Owner::ElfHeader => ("ELF header", 0),
        Owner::ProgramHeaders => ("program headers", 0),
        Owner::SectionHeaders => ("section headers", 0),
        Owner::Section(index) => ("section", index),
        Owner::Segment(index) => ("segment", index),
        Owner::Between => ("between parts", 0),
        Owner::Behind => ("behind all parts", 0),
    }
}

fn list(path: &str) -> Result<(), Box<dyn Error>> {
    let bytes = std::fs::read(path)?;
    let file = ElfFile::new(&bytes)?;
    for piece in file.pieces() {
        let (what, index) = words(piece.owner);
        println!("{} {what} {index}", piece.end - piece.begin);
    }
    let Some(text) = file.section_by_name(".text")? else {
        return Ok(());
    };
    let mut symbols = BTreeMap::new();
    for piece in text.symbol_pieces()? {
        let Some(symbol) = piece.symbol else { continue };
        let (size, _) = symbols.entry(symbol.index()).or_insert((0, symbol.name().unwrap_or("?")));
        *size += piece.end - piece.begin;
    }
    for (size, name) in symbols.values() {
        println!("{size} {name}");
    }
    Ok(())
}

fn main() -> ExitCode {
    let Some(path) = std::env::args().nth(1) else {
        eprintln!("usage: sizes FILE");
        return ExitCode::from(2);
    };
    match list(&path) {
        Ok(()) => ExitCode::SUCCESS,
        Err(error) => {
            eprintln!("{path}: {error}");
            ExitCode::FAILURE
        }
    }
}
