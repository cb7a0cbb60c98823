//! nm FILE: the symbols of a file, as their value, the section index and the name.

use std::error::Error;
use std::process::ExitCode;
use xmas_elf_proved::ElfFile;

fn list(path: &str) -> Result<(), Box<dyn Error>> {
    let bytes = std::fs::read(path)?;
    let file = ElfFile::new(&bytes)?;
    for section in file.sections()? {
        for symbol in section.symbols()?.skip(1) {
            println!("{:016x} {:5} {}", symbol.value, symbol.shndx, symbol.name()?);
        }
    }
    Ok(())
}

fn main() -> ExitCode {
    let Some(path) = std::env::args().nth(1) else {
        eprintln!("usage: nm FILE");
        return ExitCode::from(2);
    };
    match list(&path) {
        Ok(()) => ExitCode::SUCCESS,
        Err(error) => {
            eprintln!("{path}: {error}");
            ExitCode::FAILURE
        }
    }
}
