//! What new users ask for, beside what `nm` and `readelf` say of 300 files of the system, whole and without section headers.

use std::collections::BTreeMap;
use std::path::{Path, PathBuf};
use std::process::Command;
use std::sync::atomic::{AtomicUsize, Ordering::Relaxed};
use xmas_elf_proved::constants::{PT_NULL, SHT_RELR, STT_FILE, STT_SECTION};
use xmas_elf_proved::sections::ShType;
#[cfg(feature = "alloc")]
use xmas_elf_proved::symbol_table::Type;
use xmas_elf_proved::{ElfFile, Error, Note, Relocation};

fn said(program: &str, words: &[&str], path: &Path) -> String {
    let done = Command::new(program).args(words).arg(path).env("LC_ALL", "C").output().expect("binutils");
    String::from_utf8_lossy(&done.stdout).into_owned()
}

// So many files as XMAS_ELF_FILES says, or 300, spread over the small ones of two folders.
fn files() -> Vec<PathBuf> {
    let wanted = std::env::var("XMAS_ELF_FILES").ok().and_then(|number| number.parse().ok()).unwrap_or(300);
    let folders = ["/usr/bin", "/usr/lib/x86_64-linux-gnu"];
    let entries = folders.iter().filter_map(|folder| std::fs::read_dir(folder).ok()).flatten().flatten();
    let plain = entries.filter(|entry| entry.metadata().is_ok_and(|data| data.is_file() && data.len() < 400_000));
    let mut found: Vec<PathBuf> = plain.map(|entry| entry.path()).filter(|path| ElfFile::new(&read(path)).is_ok()).collect();
    found.sort();
    let step = (found.len() / wanted).max(1);
    found.into_iter().step_by(step).take(wanted).collect()
}

fn read(path: &Path) -> Vec<u8> {
    std::fs::read(path).unwrap_or_default()
}

// The file of class 64 without its section header table.
fn without_sections(bytes: &[u8]) -> Vec<u8> {
    let start = ElfFile::new(bytes).expect("an ELF file").header().sh_offset as usize;
    let mut cut = bytes[..start].to_vec();
    cut.resize(bytes.len(), 0);
    cut[40..48].fill(0);
    cut[60..64].fill(0);
    cut
}

// How often `nm -D` prints a value with a name and its version. A symbol that isn't defined has the value 0.
fn by_nm(path: &Path) -> BTreeMap<(u64, String), usize> {
    let mut found = BTreeMap::new();
    for line in said("nm", &["-D"], path).lines() {
        let value = u64::from_str_radix(line[..16].trim(), 16).unwrap_or(0);
        *found.entry((value, line[19..].to_owned())).or_default() += 1;
    }
    found
}

fn by_crate(file: &ElfFile<'_>) -> Result<BTreeMap<(u64, String), usize>, Error> {
    let mut found = BTreeMap::new();
    for symbol in file.dynamic_symbols()? {
        let name = symbol.name()?;
        if name.is_empty() || [STT_SECTION, STT_FILE].contains(&symbol.kind()) {
            continue;
        }
        // nm prints the symbol of a version itself without it.
        let version = symbol.version()?.filter(|version| version.name() != Ok(Some(name)));
        let shown = version.map_or(String::new(), |version| version.to_string());
        *found.entry((if symbol.is_defined() { symbol.value } else { 0 }, format!("{name}{shown}"))).or_default() += 1;
    }
    Ok(found)
}

// The owner of a note and the size of its description: as readelf prints them, in a line with a tab.
fn printed_note(line: &str) -> Option<(String, usize)> {
    let (owner, size) = line.split_once('\t')?.0.trim().rsplit_once("0x")?;
    Some((owner.trim().to_owned(), usize::from_str_radix(size, 16).ok()?))
}

fn shown(note: &Note<'_>) -> (String, usize) {
    (String::from_utf8_lossy(note.name).trim_end_matches('\0').to_owned(), note.desc.len())
}

// The places and the info numbers of the relocations of the dynamic segment, in order of the numbers.
fn relocations_by_readelf(path: &Path) -> Vec<(u64, u64)> {
    let printed = said("readelf", &["--wide", "--use-dynamic", "--relocs"], path);
    let words = printed.lines().map(|line| line.split_whitespace().map_while(|word| u64::from_str_radix(word, 16).ok()).collect::<Vec<_>>());
    let mut found: Vec<_> = words.filter(|words| words.len() > 1).map(|words| (words[0], words[1])).collect();
    found.sort();
    found
}

fn relocations_by_crate(file: &ElfFile<'_>) -> Vec<(u64, u64)> {
    let info = |it: &Relocation| u64::from(it.symbol) << 32 | u64::from(it.type_);
    let mut found: Vec<_> = file.relocations().expect("relocations").map(|it| (it.offset, info(&it))).collect();
    found.sort();
    found
}

fn compare(path: &Path) -> usize {
    let bytes = read(path);
    let (cut, theirs) = (without_sections(&bytes), by_nm(path));
    let printed = said("readelf", &["--wide", "--notes"], path);
    let id = printed.split_once("Build ID: ").and_then(|(_, rest)| rest.lines().next().map(str::to_owned));
    let tags = said("readelf", &["--wide", "--dynamic"], path).lines().filter(|line| line.starts_with(" 0x")).count();
    let notes: Vec<_> = ElfFile::new(&bytes).expect("an ELF file").notes().map(|note| shown(&note.expect("a note"))).collect();
    assert_eq!(notes, printed.lines().filter_map(printed_note).collect::<Vec<_>>(), "{}", path.display());
    assert_eq!(relocations_by_crate(&ElfFile::new(&cut).expect("an ELF file")), relocations_by_readelf(path), "{}", path.display());
    for bytes in [&bytes, &cut] {
        let file = ElfFile::new(bytes).expect("an ELF file");
        if file.segment_count() == Ok(0) {
            continue;
        }
        let symbols = by_crate(&file);
        // GNU's hash table alone doesn't count the symbols of a file that exports none.
        if symbols != Ok(BTreeMap::new()) || theirs.keys().any(|(value, _)| *value != 0) {
            assert_eq!(symbols.as_ref(), Ok(&theirs), "{}", path.display());
        }
        let ours = file.build_id().expect("notes").map(|id| id.iter().map(|byte| format!("{byte:02x}")).collect::<String>());
        assert_eq!(ours, id, "{}", path.display());
        assert_eq!(file.dynamic().expect("entries").count(), tags, "{}", path.display());
        assert!(file.sections().expect("sections").all(|section| section.name().is_ok() && section.check().is_ok()), "{}", path.display());
        #[cfg(feature = "alloc")]
        assert_eq!(file.pieces().map(|piece| piece.end - piece.begin).sum::<u64>(), bytes.len() as u64, "{}", path.display());
        #[cfg(feature = "alloc")]
        for symbol in file.dynamic_symbols().expect("symbols").filter(|symbol| symbol.get_type() == Ok(Type::Func) && symbol.is_defined()).take(50) {
            let found = file.symbol_map().expect("symbols").get(symbol.value).expect("a symbol");
            assert!(found.value == symbol.value && found.name().is_ok_and(|name| !name.is_empty()), "{}", path.display());
        }
    }
    theirs.len()
}

#[test]
fn symbols_versions_build_ids_and_entries() {
    let files = files();
    let compared: usize = files.iter().map(|path| compare(path)).sum();
    println!("{} files, {compared} symbols", files.len());
    assert!(!files.is_empty() && compared > 20 * files.len());
}

// How many names of a file have another version than that by which `dlsym` finds them: it takes a symbol without a version
// before that of the default version.
fn look_up(path: &Path) -> usize {
    let (bytes, mut several) = (read(path), 0);
    let file = ElfFile::new(&bytes).expect("an ELF file");
    let by_nm = by_nm(path);
    for ((value, shown), _) in by_nm.iter().filter(|((value, shown), _)| *value != 0 && shown.contains('@')) {
        let (name, version) = shown.split_once('@').expect("a version");
        let found = |version| file.find_symbol(name, version).expect("no error").map(|symbol| (symbol.value, symbol.name().map(str::to_owned)));
        let wanted = Some((*value, Ok(name.to_owned())));
        assert_eq!(found(Some(version.trim_start_matches('@'))), wanted, "{}: {shown}", path.display());
        let unversioned: Vec<u64> = by_nm.keys().filter(|(value, other)| *value != 0 && other == name).map(|(value, _)| *value).collect();
        if !unversioned.is_empty() {
            assert!(found(None).is_some_and(|(value, _)| unversioned.contains(&value)), "{}: {shown}", path.display());
        } else if version.starts_with('@') {
            assert_eq!(found(None), wanted, "{}: {shown}", path.display());
        } else {
            several += 1;
        }
    }
    assert!(file.find_symbol("no_such_name", None).is_ok_and(|found| found.is_none()), "{}", path.display());
    several
}

#[test]
fn found_symbols_are_those_of_dlsym() {
    let large = ["libc.so.6", "libm.so.6", "libgcc_s.so.1", "libfuse.so.2"].map(|name| Path::new("/lib/x86_64-linux-gnu").join(name));
    let several: usize = large.iter().filter(|path| path.exists()).chain(&files()).map(|path| look_up(path)).sum();
    assert!(several > 20);
}

// What gcc makes of a source with these options, and what readelf prints of it.
fn built(source: &str, words: &[&str], printed: &[&str]) -> (Vec<u8>, String) {
    static NUMBER: AtomicUsize = AtomicUsize::new(0);
    let folder = std::env::temp_dir().join(format!("xmas-elf-users-{}-{}", std::process::id(), NUMBER.fetch_add(1, Relaxed)));
    std::fs::create_dir_all(&folder).expect("a folder");
    let (from, to) = (folder.join("a.c"), folder.join("a"));
    std::fs::write(&from, source).expect("a file");
    let done = Command::new("gcc").arg(&from).arg("-o").arg(&to).args(words).status();
    assert!(done.is_ok_and(|status| status.success()));
    let found = (read(&to), said("readelf", printed, &to));
    std::fs::remove_dir_all(&folder).expect("the folder");
    found
}

// The sum of the numbers of entries that readelf says of the tables of a kind.
fn entries(printed: &str, kind: &str) -> usize {
    let numbers = printed.lines().filter(|line| line.starts_with(kind)).filter_map(|line| line.split_once(" contains "));
    numbers.map(|(_, rest)| rest.split(' ').next().and_then(|number| number.parse::<usize>().ok()).expect("a number")).sum()
}

#[test]
fn a_library_of_class_32_with_a_build_id() {
    let source = "extern int far; int near, *both[] = {&near, &far}; int main(void) { return *both[near]; }\n";
    let words = ["-m32", "-shared", "-fPIC", "-nostdlib", "-Wl,--build-id"];
    let (bytes, printed) = built(source, &words, &["--wide", "--symbols", "--relocs", "--dynamic"]);
    let file = ElfFile::new(&bytes).expect("an ELF file");
    assert!(!file.is_64() && file.build_id().is_ok_and(|id| id.is_some_and(|id| id.len() == 20)));
    let (mut symbols, mut relocations, mut tags) = (0, 0, 0);
    // The archive has an error of its own for a section of notes in class 32: it has none of these records either.
    for section in file.sections().expect("sections") {
        symbols += section.symbols().expect("symbols").len();
        relocations += section.relocations().expect("relocations").len();
        tags += section.dynamic().expect("entries").filter(|entry| entry.tag != 0).count();
        assert_eq!(section.packed_relocations().map(|addresses| addresses.count()), Ok(0));
    }
    assert_eq!((symbols, relocations), (entries(&printed, "Symbol table"), entries(&printed, "Relocation section")));
    assert_eq!(tags + 1, entries(&printed, "Dynamic section"));
    assert!(symbols > 2 && relocations > 1);
}

#[test]
fn relative_relocations_are_no_error() {
    let source = "int a; int *p[200] = {&a, 0, &a, [9] = &a, [150] = &a}; int main(void) { return 0; }\n";
    let (bytes, printed) = built(source, &["-Wl,-z,pack-relative-relocs"], &["--wide", "--relocs"]);
    let file = ElfFile::new(&bytes).expect("an ELF file");
    let section = file.sections().expect("sections").find(|section| section.type_ == SHT_RELR).expect("a section");
    assert_eq!((section.name(), section.check(), section.get_type()), (Ok(".relr.dyn"), Ok(()), Ok(ShType::Relr)));
    assert_eq!(section.data().map(|data| data.len() as u64), Ok(section.size));
    let offsets = printed.split_once(" offsets\n").expect("relocations").1.lines().map_while(|line| u64::from_str_radix(line.trim(), 16).ok());
    let offsets: Vec<_> = offsets.collect();
    assert_eq!(section.packed_relocations().map(|addresses| addresses.collect::<Vec<_>>()), Ok(offsets.clone()));
    let cut = without_sections(&bytes);
    for file in [file, ElfFile::new(&cut).expect("an ELF file")] {
        assert_eq!(file.packed_relocations().map(|addresses| addresses.collect()), Ok(offsets.clone()));
    }
}

#[test]
fn damaged_tables_are_errors() {
    let bytes = read(Path::new("/lib/x86_64-linux-gnu/libm.so.6"));
    let file = ElfFile::new(&bytes).expect("an ELF file");
    // The tags of the hash tables get a number without a meaning.
    let section = file.section_by_name(".dynamic").expect("sections").expect("a section");
    let mut damaged = bytes.clone();
    for (place, entry) in section.dynamic().expect("entries").enumerate().filter(|(_, entry)| [4, 0x6fff_fef5].contains(&entry.tag)) {
        let start = section.offset as usize + 16 * place;
        assert_eq!(damaged[start..start + 8], entry.tag.to_le_bytes());
        damaged[start..start + 8].copy_from_slice(&0x6000_0099u64.to_le_bytes());
    }
    let file = ElfFile::new(&damaged).expect("an ELF file");
    assert_eq!((file.check_header(), file.soname()), (Ok(()), Ok(Some("libm.so.6"))));
    assert_eq!(file.dynamic_symbols().err(), Some(Error::LinkNoEntry));
    assert_eq!(file.dynamic_symbol_versions().err(), Some(Error::LinkNoEntry));
    assert_eq!(file.find_symbol("exp", None).err(), Some(Error::LinkNoEntry));
    assert_eq!(file.needed().map(|names| names.count()), Ok(said("readelf", &["-d"], Path::new("/lib/x86_64-linux-gnu/libm.so.6")).matches("(NEEDED)").count()));
}

#[test]
fn texts_for_debugging_have_no_bytes_of_the_file() {
    let bytes = read(Path::new("/lib/x86_64-linux-gnu/libc.so.6"));
    let file = ElfFile::new(&bytes).expect("an ELF file");
    let symbols = file.dynamic_symbols().expect("symbols");
    let items = [
        format!("{file:?}"), format!("{:?}", file.sections()), format!("{:?}", file.segments()), format!("{symbols:?}"),
        format!("{:?}", file.section(1)), format!("{:?}", file.segment(0)), format!("{:?}", symbols.clone().nth(1)),
        format!("{:?}", file.notes().next()), format!("{:?}", file.hash_table()),
        format!("{:?}", file.section_by_name(".dynsym").map(|section| section.map(|section| (section.symbols(), section.symbol(1))))),
        format!("{:?}", file.version_definitions().map(|mut versions| versions.nth(1))),
    ];
    assert!(items.iter().all(|text| text.len() < 700), "{items:?}");
    #[cfg(feature = "alloc")]
    assert!(format!("{:?}", file.symbol_map().expect("symbols")).len() < 700);
    assert!(symbols.len() > 1000 && file.segments().is_ok_and(|mut all| all.all(|segment| segment.type_ != PT_NULL)));
}
