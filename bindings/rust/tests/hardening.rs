//! How files are hardened, and which are loaded: programs that gcc builds with and without each protection.
#![cfg(feature = "alloc")]

use std::path::Path;
use std::process::Command;
use xmas_elf_proved::constants::PT_LOAD;
use xmas_elf_proved::{ElfFile, Error, Hardening, Loader, Pie, Relro};

const SOURCE: &str = "#include <stdio.h>\n#include <string.h>\nint main(int count, char **words) { char text[64]; strcpy(text, words[0]); return puts(text) + count; }\n";

// What gcc makes of the source with these words.
fn built(words: &[&str]) -> Vec<u8> {
    let folder = std::env::temp_dir().join(format!("xmas-elf-hardening-{}-{:?}", std::process::id(), std::thread::current().id()));
    std::fs::create_dir_all(&folder).expect("a folder");
    let (source, program) = (folder.join("a.c"), folder.join("a"));
    std::fs::write(&source, SOURCE).expect("a file");
    let done = Command::new("gcc").arg("-O2").arg(&source).arg("-o").arg(&program).args(words).output().expect("gcc");
    assert!(done.status.success(), "{words:?}: {}", String::from_utf8_lossy(&done.stderr));
    let bytes = std::fs::read(&program).expect("a file");
    std::fs::remove_dir_all(&folder).expect("the folder");
    bytes
}

fn said(words: &[&str], is_so: impl Fn(&Hardening<'_>) -> bool) {
    let bytes = built(words);
    let said = ElfFile::new(&bytes).and_then(|file| file.hardening()).expect("a whole file");
    assert!(is_so(&said), "{words:?}: {said:?}");
}

#[test]
fn each_protection() {
    said(&["-fno-stack-protector"], |it| !it.canary);
    said(&["-fstack-protector-all"], |it| it.canary);
    said(&["-z", "execstack"], |it| !it.nx);
    said(&["-z", "noexecstack"], |it| it.nx);
    said(&["-no-pie"], |it| it.pie == Pie::No);
    said(&["-pie"], |it| it.pie == Pie::Yes && it.symbols);
    said(&["-shared", "-fPIC", "-s"], |it| it.pie == Pie::SharedObject && !it.symbols);
    said(&["-c"], |it| it.pie == Pie::Object);
    said(&["-Wl,-z,norelro"], |it| it.relro == Relro::None);
    said(&["-Wl,-z,relro,-z,lazy"], |it| it.relro == Relro::Partial);
    said(&["-Wl,-z,relro,-z,now"], |it| it.relro == Relro::Full);
    said(&["-Wl,-rpath,/a", "-Wl,--disable-new-dtags"], |it| it.rpath == Some("/a") && it.runpath.is_none());
    said(&["-Wl,-rpath,/a", "-Wl,--enable-new-dtags"], |it| it.runpath == Some("/a") && it.rpath.is_none());
    said(&["-c", "-fcf-protection=full"], |it| it.ibt && it.shstk && !it.bti && !it.pac);
    said(&["-c", "-fcf-protection=branch"], |it| it.ibt && !it.shstk);
    said(&["-c", "-fcf-protection=none"], |it| !it.ibt);
}

#[test]
fn checked_functions_are_counted() {
    let libc = std::fs::read("/lib/x86_64-linux-gnu/libc.so.6").expect("the C library");
    let libc = ElfFile::new(&libc).expect("an ELF file");
    for (word, fortified) in [("-U_FORTIFY_SOURCE", 0), ("-D_FORTIFY_SOURCE=2", 1)] {
        let bytes = built(&[word]);
        let file = ElfFile::new(&bytes).expect("an ELF file");
        let counts = file.fortified(&libc).expect("symbols");
        assert_eq!((counts.fortified, counts.fortifiable), (fortified, 1), "{word}");
        assert_eq!(file.hardening().expect("a whole file").fortify_source, fortified > 0);
        assert_eq!(file.fortified(&file).map(|counts| counts.fortifiable), Ok(0));
    }
}

#[test]
fn a_cut_file_is_an_error() {
    let bytes = std::fs::read("/bin/bash").expect("a program");
    assert!(ElfFile::new(&bytes[..bytes.len() - 100]).and_then(|file| file.hardening()).is_err());
    assert!(Path::new("/bin/bash").exists() && ElfFile::new(&bytes).is_ok_and(|file| file.loads().is_ok()));
    assert_eq!(ElfFile::new(&bytes[..bytes.len() / 2]).and_then(|file| file.loads()), Err(Error::LoadData));
}

#[test]
fn one_loader_is_asked_by_the_kind_of_the_file() {
    let kinds: [(&[&str], _); 6] = [
        (&["-no-pie"], Loader::Linux),
        (&["-pie"], Loader::Linux),
        (&["-static-pie"], Loader::Linux),
        (&["-shared", "-fPIC"], Loader::Glibc),
        (&["-shared", "-fPIC", "-s"], Loader::Glibc),
        (&["-c"], Loader::Linux),
    ];
    for (words, loader) in kinds {
        let bytes = built(words);
        let file = ElfFile::new(&bytes).expect("an ELF file");
        let wanted = if words == ["-c"] { Err(Error::LoadType) } else { Ok(()) };
        assert_eq!((file.loader(), file.loads()), (loader, wanted), "{words:?}");
    }
    // It has an interpreter, too: Linux can start it.
    let bytes = std::fs::read("/lib/x86_64-linux-gnu/libc.so.6").expect("the C library");
    let file = ElfFile::new(&bytes).expect("an ELF file");
    assert_eq!((file.loader(), file.loads(), file.check_load(Loader::Linux)), (Loader::Glibc, Ok(()), Ok(())));
}

// The places of the program headers of the first and the last load segment of a file of class 64.
fn load_places(bytes: &[u8]) -> (usize, usize) {
    let file = ElfFile::new(bytes).expect("an ELF file");
    let segments = file.segments().expect("program headers").enumerate();
    let loads: Vec<_> = segments.filter(|(_, segment)| segment.type_ == PT_LOAD).map(|(index, _)| index).collect();
    let place = |index: usize| file.header().ph_offset as usize + 56 * index;
    (place(loads[0]), place(loads[loads.len() - 1]))
}

fn add(bytes: &mut [u8], place: usize, by: i64) {
    let number = u64::from_le_bytes(bytes[place..place + 8].try_into().expect("8 bytes"));
    bytes[place..place + 8].copy_from_slice(&number.wrapping_add_signed(by).to_le_bytes());
}

// The places of fields in a program header.
const OFFSET: usize = 8;
const FILE_SIZE: usize = 32;
const MEM_SIZE: usize = 40;
const ALIGN: usize = 48;

// What is changed in bytes, by the places of two program headers.
type Change = fn(&mut [u8], usize, usize);

// The change, the error of the plan, and why Linux doesn't map the program, and glibc not the library: `oracle/loaders.py` tries
// these files with Linux 6.18 and glibc 2.36.
const CHANGES: [(Change, Option<Error>, Result<(), Error>, Result<(), Error>); 5] = [
    (|it, _, last| add(it, last + ALIGN, 2 * 4096), Some(Error::LoadAlignment), Ok(()), Ok(())),
    (|it, first, _| [FILE_SIZE, MEM_SIZE].into_iter().for_each(|field| add(it, first + field, 4096)), Some(Error::LoadOverlap), Ok(()), Ok(())),
    (|it, first, _| add(it, first + MEM_SIZE, -8), Some(Error::LoadFileSize), Err(Error::LoadFileSize), Ok(())),
    (|it, _, last| add(it, last + OFFSET, 8), Some(Error::LoadMisaligned), Err(Error::LoadMisaligned), Err(Error::LoadMisaligned)),
    (|it, _, _| it[6] = 2, None, Ok(()), Err(Error::LoadIdentVersion)),
];

#[test]
fn verdicts_are_those_of_linux_and_glibc() {
    for (index, (change, of_plan, of_linux, of_glibc)) in CHANGES.into_iter().enumerate() {
        for (words, loader, wanted) in [(&["-pie"][..], Loader::Linux, of_linux), (&["-shared", "-fPIC"], Loader::Glibc, of_glibc)] {
            let mut bytes = built(words);
            let (first, last) = load_places(&bytes);
            change(&mut bytes, first, last);
            let file = ElfFile::new(&bytes).expect("an ELF file");
            assert_eq!((file.loader(), file.loads()), (loader, wanted), "change {index} of {words:?}");
            assert_eq!(file.load_plan().err(), of_plan, "change {index} of {words:?}");
        }
    }
}
