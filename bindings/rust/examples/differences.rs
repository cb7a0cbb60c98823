//! differences [--symbols] OLD NEW: the parts whose sizes differ, as `elfsize --diff` prints them without its sums.

use std::io::Write;
use xmas_elf_proved::{size_diff, ElfFile, Owner, Part, PartChange};

// What a part is, before its name.
fn label(part: Part) -> String {
    match part {
        Part::Owner(Owner::Section(_)) => "section ".into(),
        Part::Owner(Owner::Segment(index)) => format!("segment {index}"),
        Part::Symbol(_) => "symbol ".into(),
        Part::Owner(Owner::ElfHeader) => "ELF header".into(),
        Part::Owner(Owner::ProgramHeaders) => "program headers".into(),
        Part::Owner(Owner::SectionHeaders) => "section headers".into(),
        Part::Owner(Owner::Between) => "between parts".into(),
        Part::Owner(Owner::Behind) => "after all parts".into(),
    }
}

fn line(change: &PartChange<'_>) -> Option<Vec<u8>> {
    let (mark, part) = match (change.old, change.new) {
        (Some(_), Some(new)) => ("", new),
        (None, Some(new)) => ("new ", new),
        (old, None) => ("gone ", old?),
    };
    let sign = if change.new_size < change.old_size { '-' } else { '+' };
    let distance = change.new_size.abs_diff(change.old_size);
    let start = format!("{sign}{distance} -> {} {mark}{}", change.new_size, label(part));
    Some([start.as_bytes(), change.name, b"\n"].concat())
}

fn run(old: &str, new: &str, with_symbols: bool) -> Result<(), String> {
    let read = |path: &str| std::fs::read(path).map_err(|error| format!("{path}: {error}"));
    let (old_bytes, new_bytes) = (read(old)?, read(new)?);
    let file = |path: &str, error| format!("{path}: {error}");
    let (before, after) = (ElfFile::new(&old_bytes).map_err(|it| file(old, it))?, ElfFile::new(&new_bytes).map_err(|it| file(new, it))?);
    for change in size_diff(&before, &after, with_symbols).map_err(|it| file(old, it))? {
        std::io::stdout().write_all(&line(&change).unwrap_or_default()).map_err(|error| error.to_string())?;
    }
    Ok(())
}

fn main() -> std::process::ExitCode {
    let words: Vec<String> = std::env::args().skip(1).collect();
    let said = match words.as_slice() {
        [option, old, new] if option == "--symbols" => run(old, new, true),
        [old, new] => run(old, new, false),
        _ => Err("usage: differences [--symbols] OLD NEW".into()),
    };
    if let Err(error) = &said {
        eprintln!("{error}");
    }
    std::process::ExitCode::from(u8::from(said.is_err()))
}
