//! hardening LIBC FILE..: how each file is hardened, as lines of comma-separated values. LIBC is the C library whose functions
//! with a checked form are counted.

use std::error::Error;
use std::process::ExitCode;
use xmas_elf_proved::{ElfFile, Pie, Relro};

const COLUMNS: &str = "relro,canary,nx,pie,rpath,runpath,symbols,fortify_source,fortified,fortifiable,ibt,shstk,bti,pac,path";

fn yes(is: bool) -> &'static str {
    if is { "yes" } else { "no" }
}

fn line(path: &str, libc: &ElfFile<'_>) -> Result<String, Box<dyn Error>> {
    let bytes = std::fs::read(path)?;
    let file = ElfFile::new(&bytes)?;
    let (said, counts) = (file.hardening()?, file.fortified(libc)?);
    let relro = match said.relro {
        Relro::None => "none",
        Relro::Partial => "partial",
        Relro::Full => "full",
    };
    let pie = match said.pie {
        Pie::Yes => "yes",
        Pie::No => "no",
        Pie::SharedObject => "dso",
        Pie::Object => "rel",
        Pie::Other => "none",
    };
    let (rpath, runpath) = (said.rpath.unwrap_or(""), said.runpath.unwrap_or(""));
    let words = [relro, yes(said.canary), yes(said.nx), pie, rpath, runpath, yes(said.symbols), yes(said.fortify_source)].join(",");
    let features = [said.ibt, said.shstk, said.bti, said.pac].map(yes).join(",");
    Ok(format!("{words},{},{},{features},{path}", counts.fortified, counts.fortifiable))
}

fn main() -> ExitCode {
    let paths: Vec<String> = std::env::args().skip(1).collect();
    let Some((libc, paths)) = paths.split_first() else {
        eprintln!("usage: hardening LIBC FILE..");
        return ExitCode::from(2);
    };
    let bytes = std::fs::read(libc).unwrap_or_default();
    let libc = match ElfFile::new(&bytes) {
        Ok(file) => file,
        Err(error) => {
            eprintln!("{libc}: {error}");
            return ExitCode::FAILURE;
        }
    };
    println!("{COLUMNS}");
    let mut status = ExitCode::SUCCESS;
    for path in paths {
        match line(path, &libc) {
            Ok(line) => println!("{line}"),
            Err(error) => {
                eprintln!("{path}: {error}");
                status = ExitCode::FAILURE;
            }
        }
    }
    status
}
