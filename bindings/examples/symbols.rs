//! symbols FILE: the value and the name of each symbol of a file.

use std::env;
use std::error::Error;
use std::fs;
use std::process::ExitCode;
use xmas_elf_proved::ElfFile;

fn list(path: &str) -> Result<(), Box<dyn Error>> {
    let bytes = fs::read(path)?;
    let file = ElfFile::new(&bytes)?;
    file.check_header()?;
    for section in file.sections()? {
        for symbol in section.symbols()? {
            let name = symbol.name()?;
            if !name.is_empty() {
                println!("{:016x} {name}", symbol.value);
            }
        }
    }
    Ok(())
}

fn main() -> ExitCode {
    let path = env::args().nth(1).unwrap_or_default();
    if let Err(error) = list(&path) {
        eprintln!("symbols: {path}: {error}");
        return ExitCode::FAILURE;
    }
    ExitCode::SUCCESS
}
