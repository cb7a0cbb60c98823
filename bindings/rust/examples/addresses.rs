//! addresses FILE ADDRESS..: for each address in base 16 the symbol that covers it and the offset in it, or `?`.

use std::process::ExitCode;
use xmas_elf_proved::ElfFile;

fn list(path: &str, addresses: &[String]) -> Result<(), Box<dyn std::error::Error>> {
    let bytes = std::fs::read(path)?;
    let file = ElfFile::new(&bytes)?;
    let addresses = addresses.iter().map(|text| u64::from_str_radix(text, 16)).collect::<Result<Vec<u64>, _>>()?;
    for found in file.symbol_map()?.symbols_at(&addresses) {
        match found {
            Some(symbol) => println!("{}+{:#x}", symbol.name().unwrap_or("?"), symbol.offset()),
            None => println!("?"),
        }
    }
    Ok(())
}

fn main() -> ExitCode {
    let words: Vec<String> = std::env::args().skip(1).collect();
    let Some((path, addresses)) = words.split_first() else {
        eprintln!("usage: addresses FILE ADDRESS..");
        return ExitCode::FAILURE;
    };
    match list(path, addresses) {
        Ok(()) => ExitCode::SUCCESS,
        Err(error) => {
            eprintln!("{path}: {error}");
            ExitCode::FAILURE
        }
    }
}
