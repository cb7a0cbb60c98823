//! dump FILE NAME..: what a file needs, its build id, the symbols of its dynamic segment as `nm -D` prints them, the versions
//! that it defines and needs, its dynamic entries and relocations, its sections with the numbers of their relocations, and for
//! each name, or name and version as exp@GLIBC_2.2.5, the symbol's value. The number of a version has an `h` behind it if it is
//! hidden.

use std::process::ExitCode;
use xmas_elf_proved::constants::{STT_FILE, STT_SECTION};
use xmas_elf_proved::{ElfFile, Error, SymbolVersion};

fn number(version: &SymbolVersion<'_>) -> String {
    format!("{}{}", version.number(), if version.is_hidden() { "h" } else { "" })
}

fn print_dynamic(file: &ElfFile<'_>) -> Result<(), Error> {
    for name in file.needed()? {
        println!("needed {}", name?);
    }
    for (word, text) in [("soname", file.soname()?), ("run path", file.run_path()?)] {
        text.into_iter().for_each(|text| println!("{word} {text}"));
    }
    if let Some(id) = file.build_id()? {
        println!("build id {}", id.iter().map(|byte| format!("{byte:02x}")).collect::<String>());
    }
    for symbol in file.dynamic_symbols()? {
        let (name, version) = (symbol.name()?, symbol.version()?);
        if let Some(version) = version {
            println!("version {} {}", symbol.index(), number(&version));
        }
        let shown = version.filter(|version| version.name() != Ok(Some(name))).map_or(String::new(), |version| version.to_string());
        if !name.is_empty() && ![STT_SECTION, STT_FILE].contains(&symbol.kind()) {
            println!("symbol {:016x} {name}{shown}", if symbol.is_defined() { symbol.value } else { 0 });
        }
    }
    Ok(())
}

fn print_versions(file: &ElfFile<'_>) -> Result<(), Error> {
    for version in file.version_needs()? {
        let version = version?;
        println!("need {} {} {} {}", number(&version), version.flags(), version.library()?.unwrap_or("?"), version.name()?.unwrap_or("?"));
    }
    for version in file.version_definitions()? {
        let version = version?;
        println!("definition {} {} {}", number(&version), version.flags(), version.name()?.unwrap_or("?"));
    }
    Ok(())
}

fn print_tables(file: &ElfFile<'_>) -> Result<(), Error> {
    for entry in file.dynamic()? {
        println!("entry {:x} {:x}", entry.tag, entry.value);
    }
    for it in file.relocations()? {
        let info = u64::from(it.symbol) << (if file.is_64() { 32 } else { 8 }) | u64::from(it.type_);
        let addend = if it.has_addend != 0 { format!(" {:x}", it.addend) } else { String::new() };
        println!("relocation {:x} {info:x}{addend}", it.offset);
    }
    for address in file.packed_relocations()? {
        println!("address {address:x}");
    }
    Ok(())
}

fn print(bytes: &[u8], names: &[String]) -> Result<(), Error> {
    let file = ElfFile::new(bytes)?;
    file.check_header()?;
    print_dynamic(&file)?;
    print_versions(&file)?;
    print_tables(&file)?;
    for section in file.sections()? {
        let relocations = section.relocations()?.len() + section.packed_relocations()?.count();
        println!("section {} {} {} {relocations}", section.index(), section.name()?, section.size);
    }
    for wanted in names {
        let (name, version) = wanted.split_once('@').map_or((&**wanted, None), |(name, version)| (name, Some(version)));
        match file.find_symbol(name, version)? {
            Some(symbol) => {
                let version = symbol.version()?.map_or(String::new(), |version| format!(" {version}"));
                println!("found {wanted} {:016x}{version}", symbol.value);
            }
            None => println!("found {wanted} -"),
        }
    }
    Ok(())
}

fn main() -> ExitCode {
    let words: Vec<String> = std::env::args().skip(1).collect();
    let Some((path, names)) = words.split_first() else {
        eprintln!("usage: dump FILE NAME..");
        return ExitCode::from(2);
    };
    let printed = std::fs::read(path).map_err(|error| error.to_string()).and_then(|bytes| print(&bytes, names).map_err(|error| error.to_string()));
    match printed {
        Ok(()) => ExitCode::SUCCESS,
        Err(error) => {
            eprintln!("{path}: {error}");
            ExitCode::FAILURE
        }
    }
}
