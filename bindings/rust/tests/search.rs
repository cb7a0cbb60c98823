//! Which libraries a program gets, by the calls of `search`.

use std::fs;
use xmas_elf_proved::search::{fits, next_entry, start_order, CacheMachine, Dependencies, FoundBy, Lack, NameKind, SearchAsker, SearchFor, Tokens, MISSING, NOT_ASKED};
use xmas_elf_proved::{ElfFile, Error, Loader};

const DEFAULTS: &[u8] = b"/lib/x86_64-linux-gnu:/usr/lib/x86_64-linux-gnu:/lib:/usr/lib";

#[test]
fn candidates_come_list_by_list() -> Result<(), Error> {
    let program = Tokens::new(b"/opt/bin", b"lib64", b"x86_64");
    let asker = SearchAsker::new(Some(b"$ORIGIN/../lib:"), None, program, false);
    let search = SearchFor::new(b"liba.so", program, b"/lib:/usr/lib").with_cache(b"/lib/liba.so.1").with_library_path(b"/x;/y/");
    let (mut room, mut found) = ([0; 512], Vec::new());
    let none: Option<()> = search.find(&[asker], &mut room, |it| {
        found.push((String::from_utf8_lossy(it.path).into_owned(), it.how));
        None
    })?;
    let wanted = [
        ("/opt/bin/../lib/liba.so", FoundBy::Rpath(0)),
        ("liba.so", FoundBy::Rpath(0)),
        ("/x/liba.so", FoundBy::LibraryPath),
        ("/y/liba.so", FoundBy::LibraryPath),
        ("/lib/liba.so.1", FoundBy::Cache),
        ("/lib/liba.so", FoundBy::Default),
        ("/usr/lib/liba.so", FoundBy::Default),
    ];
    assert_eq!((none, found), (None, wanted.map(|(path, how)| (path.to_string(), how)).to_vec()));
    assert_eq!(search.find(&[asker], &mut room[..20], |_| Some(())), Err(Error::SearchFewWords));
    let mut out = [0; 64];
    let size = program.expand(b"${LIB}/$PLATFORM-$ORIGINAL", &mut out)?;
    assert_eq!(&out[..size], b"lib64/x86_64-$ORIGINAL");
    assert_eq!(Tokens::new(b"", b"", b"").expand(b"$ORIGIN", &mut out), Err(Error::SearchEmptyToken));
    Ok(())
}

#[test]
fn objects_are_ordered_by_what_entries_found() -> Result<(), Error> {
    let (mut words, mut edges, mut list, mut starts) = ([0; 64], [0; 64], [0; 4], [0; 12]);
    // A program that needs 1 and 2; 1 needs 3, and 2 too, and one that is missing.
    let asked = [Dependencies::new(&[1, 2], &[1, 1]), Dependencies::new(&[NOT_ASKED], &[1]), Dependencies::new(&[NOT_ASKED; 2], &[1, 1])];
    assert_eq!(next_entry(&asked, &mut words, &mut edges)?, Some((1, 0)));
    let whole = [Dependencies::new(&[1, 2], &[]), Dependencies::new(&[3], &[]), Dependencies::new(&[3, MISSING], &[]), Dependencies::new(&[], &[])];
    assert_eq!(next_entry(&whole, &mut words, &mut edges)?, None);
    let count = start_order(&whole, &mut words, &mut edges, &mut list, &mut starts)?;
    assert_eq!((list, &starts[..count]), ([0, 1, 2, 3], &[3, 2, 1][..]));
    assert_eq!(start_order(&asked, &mut words, &mut edges, &mut list, &mut starts), Err(Error::SearchNoObject));
    assert_eq!(start_order(&whole, &mut words, &mut edges, &mut list, &mut starts[..11]), Err(Error::SearchFewWords));
    Ok(())
}

#[test]
fn the_test_itself_gets_its_libraries() -> Result<(), Error> {
    let bytes = fs::read(std::env::current_exe().expect("a path")).expect("the test itself is a file");
    let file = ElfFile::new(&bytes)?;
    file.check_load(Loader::Linux)?;
    let cache = fs::read("/etc/ld.so.cache").unwrap_or_default();
    for name in file.needed_names() {
        let (name, kind) = name?;
        assert_eq!(kind, NameKind::Needed);
        let (mut path, mut room) = ([0; 4096], vec![0; 1 << 16]);
        let cached = CacheMachine::x86_64().path_in(&cache, name.as_bytes(), &mut path).unwrap_or_default().unwrap_or_default();
        let tokens = Tokens::new(b"/", b"lib", b"x86_64");
        let search = SearchFor::new(name.as_bytes(), tokens, DEFAULTS).with_cache(cached);
        let library = search.find(&[SearchAsker::new(None, None, tokens, false)], &mut room, |it| {
            let path = std::str::from_utf8(it.path).ok()?;
            let bytes = fs::read(path).ok()?;
            fits(&bytes[..bytes.len().min(64)], bytes.len() as u64, 2, 62).ok()?.then_some(bytes)
        })?;
        let library = library.expect("the test runs, so it has its libraries");
        let library = ElfFile::new(&library)?;
        library.check_library()?;
        library.check_load(Loader::Glibc)?;
        assert_eq!(library.last_text(14)?, Some(name));
        assert_eq!(file.missing_versions(name.as_bytes(), &library).count(), 0);
        // The test has no versions: a library lacks all that it needs of others, but doesn't keep it from starting.
        let lacked: Vec<_> = library.missing_versions(b"ld-linux-x86-64.so.2", &file).collect::<Result<_, _>>()?;
        assert!(lacked.iter().all(|(version, lack)| *lack == Lack::NoInformation && version.library().is_ok()));
    }
    assert_eq!(file.last_entry(0x1234)?, None);
    assert_eq!(fits(b"\x7fELF", 4, 2, 62), Err(Error::SearchShortFile));
    Ok(())
}
