//! find FILE NAME..: the build id of a file, and for each name, or name and version as `exp@GLIBC_2.2.5`, the symbol that
//! the dynamic linker gets: its index, its value and the first bytes there.

use std::process::ExitCode;
use xmas_elf_proved::{ElfFile, Error};

fn hexadecimal(bytes: &[u8]) -> String {
    bytes.iter().map(|byte| format!("{byte:02x}")).collect()
}

fn find(file: &ElfFile<'_>, names: &[String]) -> Result<(), Error> {
    for name in names {
        let (alone, version) = name.split_once('@').map_or((&**name, None), |(name, version)| (name, Some(version)));
        match file.find_symbol(alone, version)? {
            Some(symbol) => {
                let code = file.bytes_at(symbol.value, 8).map_or_else(|error| format!("bytes: {error}"), hexadecimal);
                println!("{name} {} {:016x} {code}", symbol.index(), symbol.value);
            }
            None => println!("{name} -"),
        }
    }
    Ok(())
}

fn main() -> ExitCode {
    let words: Vec<String> = std::env::args().skip(1).collect();
    let Some(path) = words.first() else {
        eprintln!("usage: find FILE NAME..");
        return ExitCode::from(2);
    };
    let bytes = match std::fs::read(path) {
        Ok(bytes) => bytes,
        Err(error) => {
            eprintln!("{path}: {error}");
            return ExitCode::FAILURE;
        }
    };
    let found = ElfFile::new(&bytes).and_then(|file| {
        println!("build id {}", file.build_id()?.map_or("none".to_owned(), hexadecimal));
        find(&file, &words[1..])
    });
    match found {
        Ok(()) => ExitCode::SUCCESS,
        Err(error) => {
            eprintln!("{path}: {error}");
            ExitCode::FAILURE
        }
    }
}
