//! The libraries that a program gets, as the loader of glibc finds them: which paths to try, what an opened file means, and the order.
//! Nothing here opens a file, and the caller gives the memory.

use crate::batch::Batch;
use crate::borrowed::Borrowed;
use crate::records::{CandidatePath, LackedVersion, NeededName, ObjectEntry};
use crate::ranges::checked;
use crate::{ffi, ElfFile, Error, SymbolVersion};

pub use crate::records::{CacheMachine, Dependencies, SearchAsker, SearchFor, Tokens};

/// What an entry found that is missing.
pub const MISSING: u32 = u32::MAX;
/// What an entry found that was not asked for.
pub const NOT_ASKED: u32 = u32::MAX - 1;

/// What an object asks for.
#[derive(Clone, Copy, Debug, PartialEq, Eq, Hash)]
pub enum NameKind {
    /// A library that it needs (DT_NEEDED).
    Needed,
    /// A library that is searched before it, if there is one (DT_AUXILIARY).
    Auxiliary,
    /// A library that is searched in place of it (DT_FILTER).
    Filter,
}

/// By which list a path is tried.
#[derive(Clone, Copy, Debug, PartialEq, Eq, Hash)]
pub enum FoundBy {
    /// The name has a slash, and is the path.
    Path,
    /// The DT_RPATH of the asker at this index.
    Rpath(usize),
    /// LD_LIBRARY_PATH.
    LibraryPath,
    /// The DT_RUNPATH of the object that asks.
    Runpath,
    /// The cache.
    Cache,
    /// The folders of ld.so.conf.
    Conf,
    /// The default folders.
    Default,
}

/// A path to try.
#[derive(Clone, Copy, Debug, PartialEq, Eq)]
pub struct Candidate<'t> {
    /// Its bytes.
    pub path: &'t [u8],
    /// By which list.
    pub how: FoundBy,
    /// Whether it is in no subdirectory: where its folder is there, but it can't be opened otherwise than since there is no such
    /// file or for want of permission, the rest of the list is left out.
    pub is_plain: bool,
}

/// Why a version is missing.
#[derive(Clone, Copy, Debug, PartialEq, Eq, Hash)]
pub enum Lack {
    /// The library has no versions; the program starts all the same.
    NoInformation,
    /// It is needed weakly; the program starts all the same.
    Weak,
    /// The program does not start.
    Strong,
}

impl<'a> Tokens<'a> {
    /// The values of `$ORIGIN`, `$LIB` and `$PLATFORM`; an empty one is not known.
    pub fn new(origin: &'a [u8], lib: &'a [u8], platform: &'a [u8]) -> Tokens<'a> {
        Tokens { origin: origin.into(), lib: lib.into(), platform: platform.into() }
    }

    /// Puts the bytes of a text with its tokens replaced to the front of `out`, and says how many; `SearchEmptyToken` if a value is
    /// not known. Those that don't fit are left out.
    pub fn expand(&self, text: &[u8], out: &mut [u8]) -> Result<usize, Error> {
        stored(ffi::expand(text, self, 0, out))
    }
}

impl<'a> SearchAsker<'a> {
    /// What an object says about the search: its DT_RPATH, its DT_RUNPATH, the values of its tokens, and whether it has the flag
    /// DF_1_NODEFLIB (0x800).
    pub fn new(r_path: Option<&'a [u8]>, run_path: Option<&'a [u8]>, tokens: Tokens<'a>, no_default: bool) -> SearchAsker<'a> {
        SearchAsker {
            r_path: r_path.unwrap_or_default().into(),
            run_path: run_path.unwrap_or_default().into(),
            tokens,
            has_run_path: u32::from(run_path.is_some()),
            no_default: u32::from(no_default),
        }
    }
}

impl<'a> SearchFor<'a> {
    /// The search for a name, of which the program has these values of tokens, and for which folders are searched by default.
    pub fn new(name: &'a [u8], program: Tokens<'a>, defaults: &'a [u8]) -> SearchFor<'a> {
        SearchFor { name: name.into(), program, defaults: defaults.into(), subdirectories: NO_SUBDIRECTORY.into(), ..SearchFor::default() }
    }

    /// The same with the value of LD_LIBRARY_PATH.
    pub fn with_library_path(self, library_path: &'a [u8]) -> SearchFor<'a> {
        SearchFor { library_path: library_path.into(), ..self }
    }

    /// The same with the path that the cache has for the name.
    pub fn with_cache(self, path: &'a [u8]) -> SearchFor<'a> {
        SearchFor { cache: path.into(), ..self }
    }

    /// The same with the folders of ld.so.conf, one in each line, where there is no cache.
    pub fn with_conf(self, conf: &'a [u8]) -> SearchFor<'a> {
        SearchFor { conf: conf.into(), ..self }
    }

    /// Hands on the paths to try, in order, until `attempt` gives something: the first of `askers` asks, each is followed by the object
    /// that had it loaded, and the last is the program. `room` holds the texts: `SearchFewWords` if it is too small for all of them.
    pub fn find<T>(&self, askers: &[SearchAsker<'_>], room: &mut [u8], mut attempt: impl FnMut(Candidate<'_>) -> Option<T>) -> Result<Option<T>, Error> {
        let size = stored(ffi::candidate_paths(self, askers, 0, room))?;
        if size == room.len() {
            return Err(Error::SearchFewWords);
        }
        let texts = room[..size].split(|byte| *byte == 0);
        let rows = Batch::<CandidatePath, 32>::items(|first, out| ffi::candidates(self, askers, first, out));
        Ok(texts.zip(rows).find_map(|(path, row)| attempt(Candidate { path, how: row.how(), is_plain: row.subdirectory_size == 0 })))
    }
}

// The one subdirectory of a search without others.
const NO_SUBDIRECTORY: &[Borrowed<'static>] = &[Borrowed::EMPTY];

impl CandidatePath {
    fn how(&self) -> FoundBy {
        match self.how {
            1 => FoundBy::Path,
            2 => FoundBy::Rpath(self.asker as usize),
            3 => FoundBy::LibraryPath,
            4 => FoundBy::Runpath,
            5 => FoundBy::Cache,
            6 => FoundBy::Conf,
            _ => FoundBy::Default,
        }
    }
}

// How many bytes a call stored; none where there are none.
fn stored(said: Result<u64, Error>) -> Result<usize, Error> {
    match said {
        Err(Error::NoRecord) => Ok(0),
        said => said.map(|count| count as usize),
    }
}

impl<'a> CacheMachine<'a> {
    /// What x86-64 can use of a cache, on any processor.
    pub fn x86_64() -> CacheMachine<'a> {
        CacheMachine { bits: 1 << 63 | 2, flags: 0x303, other_flags: 0x303, levels: 1, ..CacheMachine::default() }
    }

    /// Puts the path for a name in the cache of these bytes to the front of `out`; none if it has none. Bytes that don't fit are left
    /// out.
    pub fn path_in<'t>(&self, cache: &[u8], name: &[u8], out: &'t mut [u8]) -> Result<Option<&'t [u8]>, Error> {
        match ffi::cache_path(cache, name, self, 0, out) {
            Ok(count) => Ok(Some(&out[..count as usize])),
            Err(Error::NotFound | Error::NoRecord) => Ok(None),
            Err(error) => Err(error),
        }
    }
}

/// Whether an opened file is the library that a program of a class (1 or 2) and a machine looks for, by its first 64 bytes and its
/// size: taken, or passed over. An error ends the loader.
pub fn fits(head: &[u8], size: u64, class: u8, machine: u16) -> Result<bool, Error> {
    ffi::fits(head, size, class, machine).map(|found| found == 1)
}

impl<'a> Dependencies<'a> {
    /// What each entry of an object found: the number of an object, [`MISSING`] or [`NOT_ASKED`]; and its kind (1 needed, 2 auxiliary,
    /// 3 filter).
    pub fn new(found: &'a [u32], kinds: &'a [u32]) -> Dependencies<'a> {
        Dependencies { found: found.into(), kinds: kinds.into() }
    }
}

/// The object and the index of its entry whose name is to be looked for next; none if all were. `words` has 4 for each object, `edges`
/// one for each entry.
pub fn next_entry(objects: &[Dependencies<'_>], words: &mut [u32], edges: &mut [u32]) -> Result<Option<(usize, usize)>, Error> {
    match ffi::next_entry(objects, words, edges) {
        Ok(ObjectEntry { object, entry }) => Ok(Some((object as usize, entry as usize))),
        Err(Error::NoRecord) => Ok(None),
        Err(error) => Err(error),
    }
}

/// Puts the numbers of all objects to `list`, in the order in which symbols are looked up, and those of the libraries to the front of
/// `starts`, in the order in which they start, and says how many start. `starts` has 3 words for each object.
pub fn start_order(objects: &[Dependencies<'_>], words: &mut [u32], edges: &mut [u32], list: &mut [u32], starts: &mut [u32]) -> Result<usize, Error> {
    ffi::start_order(objects, words, edges, list, starts).map(|count| count as usize)
}

impl<'a> ElfFile<'a> {
    /// The names of the libraries that the file asks for, in the order of their entries, with their tokens.
    pub fn needed_names(&self) -> impl Iterator<Item = Result<(&'a str, NameKind), Error>> + '_ {
        let names = Batch::<NeededName, 16>::items(|first, out| ffi::needed_names(self.input, &self.header, first, out));
        names.map(|name| {
            let kind = [NameKind::Needed, NameKind::Auxiliary, NameKind::Filter][(name.kind.clamp(1, 3) - 1) as usize];
            checked(name.status).map(|()| (self.text(name.range), kind))
        })
    }

    /// The value of the last dynamic entry with a tag, which the loader reads.
    pub fn last_entry(&self, tag: u64) -> Result<Option<u64>, Error> {
        found(ffi::last_entry(self.input, &self.header, tag))
    }

    /// The text that it names: a DT_SONAME (14), DT_RPATH (15) or DT_RUNPATH (29).
    pub fn last_text(&self, tag: u64) -> Result<Option<&'a str>, Error> {
        Ok(found(ffi::last_text(self.input, &self.header, tag))?.map(|range| self.text(range)))
    }

    /// Whether a file that [`fits`] took has what a library must have.
    pub fn check_library(&self) -> Result<(), Error> {
        ffi::check_library(self.input, &self.header)
    }

    /// Whether Linux maps the file as a program, or glibc as a library that a program starts with.
    pub fn check_load(&self, by: crate::Loader) -> Result<(), Error> {
        ffi::check_load(self.input, &self.header, 0, 0, u32::from(by == crate::Loader::Glibc))
    }

    /// The versions that the file needs of the object that its needs call `name`, and that this object lacks, each with why.
    pub fn missing_versions<'f>(&'f self, name: &'f [u8], provider: &'f ElfFile<'_>) -> impl Iterator<Item = Result<(SymbolVersion<'a>, Lack), Error>> + 'f {
        let ask = |first, out: &mut [LackedVersion]| ffi::missing_versions(self.input, &self.header, name, provider.input, &provider.header, first, out);
        let rows = Batch::<LackedVersion, 8>::items(ask).filter(|row| checked(row.version.status) != Err(Error::SearchNoProvider));
        rows.map(|row| {
            let lack = [Lack::NoInformation, Lack::Weak, Lack::Strong][(row.lack.clamp(1, 3) - 1) as usize];
            Ok((self.version_of(&row.version)?, lack))
        })
    }
}

// What a call found; none where nothing is, also without a dynamic segment.
fn found<T>(said: Result<T, Error>) -> Result<Option<T>, Error> {
    match said {
        Ok(found) => Ok(Some(found)),
        Err(Error::NotFound | Error::LinkNoDynamic) => Ok(None),
        Err(error) => Err(error),
    }
}
