//! loads PROGRAM [LIBRARY ..]: whether a program loads with its libraries, in the order in which they are loaded: `yes`, or `no` with
//! the file and the reason. The first of these is the reason: a file has no plan, as some that Linux and glibc load; a library that a
//! file needs is not among the files; the tables or the words of a file can't be read or written; a symbol is in no file.

use std::path::Path;
use std::process::ExitCode;
use xmas_elf_proved::constants::{PT_DYNAMIC, STB_LOCAL, STB_WEAK};
use xmas_elf_proved::{check_image, relocate_all, Binding, DynamicSymbol, ElfFile, Error, LoadObject, LoadPlan, Loader, ObjectError};

/// The files of a call.
const MOST: usize = 64;

/// The index of a file, and why the program doesn't load for it.
type Reason = (usize, String);

struct Given<'a> {
    path: &'a str,
    file: ElfFile<'a>,
}

fn of_file(index: usize) -> impl Fn(Error) -> Reason {
    move |error| (index, error.to_string())
}

/// Whether a file has a name: as its path, the last part of it, or its own name.
fn has_name(given: &Given<'_>, name: &str) -> bool {
    let last = Path::new(given.path).file_name().and_then(|last| last.to_str());
    given.path == name || last == Some(name) || given.file.soname() == Ok(Some(name))
}

/// The libraries that a file needs are among the files.
fn check_needed(files: &[Given<'_>], index: usize) -> Result<(), Reason> {
    for name in files[index].file.needed().map_err(of_file(index))? {
        let name = name.map_err(of_file(index))?;
        if !files.iter().any(|given| has_name(given, name)) {
            return Err((index, format!("{}: {name}", Error::NotFound)));
        }
    }
    Ok(())
}

fn size_of(plan: &LoadPlan<'_, '_>) -> usize {
    (plan.span().end - plan.span().start) as usize
}

/// Whether a symbol must be in a file, and is in none.
fn is_missing(files: &[Given<'_>], symbol: &DynamicSymbol<'_>) -> bool {
    let name = symbol.name().unwrap_or_default();
    let is_there = |given: &Given<'_>| matches!(given.file.find_symbol(name, version_of(symbol)), Ok(Some(_)));
    !name.is_empty() && symbol.binding() != STB_LOCAL && symbol.binding() != STB_WEAK && !files.iter().any(is_there)
}

fn version_of<'a>(symbol: &DynamicSymbol<'a>) -> Option<&'a str> {
    symbol.version().ok().flatten()?.name().ok().flatten()
}

/// The first symbol of the relocations of a file that is in no file, with its version.
fn missing_of(files: &[Given<'_>], index: usize) -> Option<String> {
    let file = &files[index].file;
    let symbols: Vec<_> = file.dynamic_symbols().ok()?.collect();
    let mut named = file.relocations().ok()?.filter_map(|relocation| symbols.get(relocation.symbol as usize));
    let symbol = named.find(|symbol| is_missing(files, symbol))?;
    let version = version_of(symbol).map(|version| format!("@{version}")).unwrap_or_default();
    Some(format!("{}{version}", symbol.name().unwrap_or_default()))
}

/// Each symbol that a file asks for is in a file: the words of all are written to memory that nobody runs.
fn check_symbols(files: &[Given<'_>], plans: &[LoadPlan<'_, '_>], objects: &[LoadObject<'_>]) -> Result<(), Reason> {
    let mut images = vec![0; plans.iter().map(size_of).sum()];
    let mut rest = images.as_mut_slice();
    for (index, plan) in plans.iter().enumerate() {
        let (image, others) = rest.split_at_mut(size_of(plan));
        plan.fill(if index == 0 { Loader::Linux } else { Loader::Glibc }, image).map_err(of_file(index))?;
        rest = others;
    }
    relocate_all(objects, Binding::Now, 0, 0, &mut images).map(|_| ()).map_err(|failed: ObjectError| {
        let index = failed.object.unwrap_or(0);
        let missing = if failed.error == Error::LoadUnresolved { missing_of(files, index) } else { None };
        (index, missing.map_or(failed.error.to_string(), |symbol| format!("{}: {symbol}", failed.error)))
    })
}

fn check(given: &[(String, Vec<u8>)]) -> Result<(), Reason> {
    let mut files = Vec::new();
    for (index, (path, bytes)) in given.iter().enumerate() {
        files.push(Given { path, file: ElfFile::new(bytes).map_err(of_file(index))? });
    }
    let plans = files.iter().enumerate().map(|(index, it)| it.file.load_plan().map_err(of_file(index))).collect::<Result<Vec<_>, _>>()?;
    // A static program relocates itself, if it does.
    if files.len() == 1 && !files[0].file.readable_segments().any(|segment| segment.type_ == PT_DYNAMIC) {
        return Ok(());
    }
    let objects: Vec<_> = files.iter().map(|it| LoadObject::new(it.file.input())).collect();
    for index in 0..files.len() {
        check_needed(&files, index)?;
    }
    for (index, plan) in plans.iter().enumerate() {
        let mut marks = vec![0; size_of(plan) / 8 + 1];
        let checked = check_image(&objects, index, 0, 0, &mut marks);
        checked.map_err(|failed| (failed.object.unwrap_or(index), failed.error.to_string()))?;
    }
    check_symbols(&files, &plans, &objects)
}

fn main() -> ExitCode {
    let paths: Vec<_> = std::env::args().skip(1).collect();
    if paths.is_empty() || paths.len() > MOST {
        eprintln!("usage: loads PROGRAM [LIBRARY ..], up to {MOST} files");
        return ExitCode::from(2);
    }
    let mut given = Vec::new();
    for path in paths {
        match std::fs::read(&path) {
            Ok(bytes) => given.push((path, bytes)),
            Err(error) => {
                eprintln!("loads: {path}: {error}");
                return ExitCode::from(2);
            }
        }
    }
    match check(&given) {
        Ok(()) => {
            println!("yes");
            ExitCode::SUCCESS
        }
        Err((index, reason)) => {
            println!("no: {}: {reason}", given[index].0);
            ExitCode::FAILURE
        }
    }
}
