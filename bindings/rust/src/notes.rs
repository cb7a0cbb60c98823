//! Notes (gABI, "Note Section"), and the build id.

use crate::constants::{NT_GNU_BUILD_ID, PT_NOTE, SHT_NOTE};
use crate::{ffi, ByteRange, ElfFile, Error};
use core::fmt;

/// A note.
#[derive(Clone, Copy)]
pub struct Note<'a> {
    /// What the description means, by the name.
    pub type_: u32,
    /// The name, as many bytes as the note says: with the zero byte that ends it.
    pub name: &'a [u8],
    /// The description.
    pub desc: &'a [u8],
}

impl fmt::Debug for Note<'_> {
    fn fmt(&self, f: &mut fmt::Formatter<'_>) -> fmt::Result {
        let name = core::str::from_utf8(self.name).unwrap_or_default().trim_end_matches('\0');
        f.debug_struct("Note").field("type_", &self.type_).field("name", &name).field("desc_size", &self.desc.len()).finish_non_exhaustive()
    }
}

/// The notes of a section or a segment in order. Where what is left holds no whole note, the last item is
/// the error.
#[derive(Clone, Copy)]
pub struct Notes<'f, 'a> {
    file: &'f ElfFile<'a>,
    rest: ByteRange,
    align: u64,
}

impl<'f, 'a> Notes<'f, 'a> {
    pub(crate) fn new(file: &'f ElfFile<'a>, rest: ByteRange, align: u64) -> Notes<'f, 'a> {
        Notes { file, rest, align }
    }
}

impl fmt::Debug for Notes<'_, '_> {
    fn fmt(&self, f: &mut fmt::Formatter<'_>) -> fmt::Result {
        f.debug_struct("Notes").field("rest", &self.rest).field("align", &self.align).finish_non_exhaustive()
    }
}

impl<'a> Iterator for Notes<'_, 'a> {
    type Item = Result<Note<'a>, Error>;

    fn next(&mut self) -> Option<Self::Item> {
        match ffi::note(self.file.input, &self.file.header, &self.rest, self.align) {
            Ok(note) => {
                self.rest = note.rest;
                let (name, desc) = (self.file.bytes(note.name), self.file.bytes(note.desc));
                Some(Ok(Note { type_: note.type_, name, desc }))
            }
            Err(Error::NoRecord) => None,
            Err(error) => {
                self.rest = ByteRange::default();
                Some(Err(error))
            }
        }
    }
}

// The notes of a part, or its error.
fn each<'f, 'a: 'f>(notes: Result<Notes<'f, 'a>, Error>) -> impl Iterator<Item = Result<Note<'a>, Error>> + 'f {
    let (notes, error) = match notes {
        Ok(notes) => (Some(notes), None),
        Err(error) => (None, Some(Err(error))),
    };
    notes.into_iter().flatten().chain(error)
}

impl<'a> ElfFile<'a> {
    /// The notes of all sections of type SHT_NOTE; of a file without such sections, of all segments of type PT_NOTE. An
    /// item is an error where a part holds no whole note, or a header can't be read.
    pub fn notes(&self) -> impl Iterator<Item = Result<Note<'a>, Error>> + '_ {
        let has_sections = self.readable_sections().any(|section| section.type_ == SHT_NOTE);
        self.notes_of_sections().chain(self.notes_of_segments().filter(move |_| !has_sections))
    }

    fn notes_of_sections(&self) -> impl Iterator<Item = Result<Note<'a>, Error>> + '_ {
        let notes = self.readable_sections().filter(|section| section.type_ == SHT_NOTE).flat_map(|section| each(section.notes()));
        notes.chain(self.sections().err().map(Err))
    }

    fn notes_of_segments(&self) -> impl Iterator<Item = Result<Note<'a>, Error>> + '_ {
        let notes = self.readable_segments().filter(|segment| segment.type_ == PT_NOTE).flat_map(|segment| each(segment.notes()));
        notes.chain(self.segments().err().map(Err))
    }

    /// The build id, if the file has one: the description of the first note of GNU with type 3 in the sections of type
    /// SHT_NOTE, or else in the segments of type PT_NOTE. An error if none is found and a note can't be read.
    pub fn build_id(&self) -> Result<Option<&'a [u8]>, Error> {
        let mut failed = Ok(None);
        for note in self.notes_of_sections().chain(self.notes_of_segments()) {
            match note {
                Ok(note) if note.type_ == NT_GNU_BUILD_ID && note.name == b"GNU\0" => return Ok(Some(note.desc)),
                Ok(_) => {}
                Err(error) => failed = failed.and(Err(error)),
            }
        }
        failed
    }
}
